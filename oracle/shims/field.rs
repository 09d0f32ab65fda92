//! Stands in for `field`: the sorter stores field values and never looks at them, so a bare number
//! is field enough.

pub trait SmallField: 'static + Clone + Copy + std::fmt::Debug + Send + Sync {
    const ZERO: Self;

    fn from_u64_unchecked(value: u64) -> Self;
    fn from_raw_u64_unchecked(value: u64) -> Self;
    fn as_raw_u64(&self) -> u64;
    fn as_u64_reduced(&self) -> u64;
}

#[derive(Clone, Copy, Debug)]
pub struct Element(u64);

impl SmallField for Element {
    const ZERO: Self = Self(0);

    fn from_u64_unchecked(value: u64) -> Self {
        Self(value)
    }

    fn from_raw_u64_unchecked(value: u64) -> Self {
        Self(value)
    }

    fn as_raw_u64(&self) -> u64 {
        self.0
    }

    fn as_u64_reduced(&self) -> u64 {
        self.0
    }
}
