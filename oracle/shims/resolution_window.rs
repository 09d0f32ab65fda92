//! Stands in for `resolution_window`, which resolves the order on other threads. The oracle never
//! resolves: the types are there so that the sorter compiles, and `run` is never called.

use std::marker::PhantomData;
use std::sync::Arc;
use std::thread::JoinHandle;

use super::{ResolverCommonData, ResolverComms};
use crate::cs::Place;

pub trait RWConfig<T> {}

pub struct RWConfigRecord<T>(PhantomData<T>);

impl<T> RWConfig<T> for RWConfigRecord<T> {}

pub struct ResolutionWindow<V, T, Cfg>(PhantomData<(V, T, Cfg)>);

impl<V, T: Default, Cfg: RWConfig<T>> ResolutionWindow<V, T, Cfg> {
    pub fn run(
        _comms: Arc<ResolverComms>,
        _common: Arc<ResolverCommonData<V, T>>,
        _debug_track: &[Place],
        _threads: u32,
    ) -> JoinHandle<()> {
        unreachable!("the oracle resolves nothing")
    }
}
