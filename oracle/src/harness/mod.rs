//! Runs the broker's destination from numbers, as document 01 describes its calls.

pub mod arguments;
pub mod callfile;
pub mod corners;
pub mod dump;
pub mod engine;
pub mod generate;
pub mod held;
pub mod host;
#[cfg(feature = "library")]
pub mod library;
#[cfg(feature = "library")]
pub mod outlook;
pub mod queries;
pub mod random;
#[cfg(feature = "library")]
pub mod sides;
#[cfg(feature = "library")]
pub mod spoil;
pub mod station;
#[cfg(feature = "library")]
pub mod stationlib;
pub mod text;
pub mod times;
pub mod traffic;
pub mod whole;
