//! Shim: the module list of the protocol. `model` and `props` are the broker's own.

pub mod codec;
pub mod model;
pub mod props;
pub mod types;
