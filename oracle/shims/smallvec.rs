//! Stands in for the crate `smallvec`: the guide only pushes to one and hands it back, so a plain
//! vector serves.

use std::marker::PhantomData;

pub trait Array {
    type Item;
}

impl<T, const N: usize> Array for [T; N] {
    type Item = T;
}

pub struct SmallVec<A: Array> {
    items: Vec<A::Item>,
    phantom: PhantomData<A>,
}

impl<A: Array> SmallVec<A> {
    pub fn new() -> Self {
        Self {
            items: Vec::new(),
            phantom: PhantomData,
        }
    }

    pub fn push(&mut self, item: A::Item) {
        self.items.push(item)
    }
}

impl<A: Array> std::ops::Deref for SmallVec<A> {
    type Target = [A::Item];

    fn deref(&self) -> &Self::Target {
        &self.items
    }
}
