//! Inputs for the comparison with the published Rust, and for the lists that the Rattle programs replay: stacks of every kind,
//! damaged ones, and beside them the refusal table (rule A2) in other words than the library's.

pub mod audit;
pub mod descriptor;
pub mod detection;
pub mod fate;
pub mod floats;
pub mod orientation;
pub mod picture;
pub mod record;
pub mod rng;
pub mod sheet;
pub mod table;
pub mod thinning;

pub use rng::Rng;
