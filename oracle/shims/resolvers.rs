//! Stands in for `dag/resolvers/mod.rs`. The two resolvers that `dag/mod.rs` names beside the
//! threaded one are left empty; the driver's runs live here, where they see what is private to `dag`.

use std::marker::PhantomData;

pub mod mt;
pub mod runs;

pub use mt::MtCircuitResolver;

pub struct NullCircuitResolver<F, Cfg>(PhantomData<(F, Cfg)>);
pub struct StCircuitResolver<F, Cfg>(PhantomData<(F, Cfg)>);
