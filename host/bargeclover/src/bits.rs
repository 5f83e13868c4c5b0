//! The routines and the single operations on float bits: every pattern is taken, and a not-a-number answered has the bits
//! [`NAN`].

pub use crate::ffi::{
    bargeclover_angle as angle, bargeclover_cos as cos, bargeclover_exp as exp,
    bargeclover_exp2 as exp2, bargeclover_floor as floor, bargeclover_fma as fma,
    bargeclover_magnitude as magnitude, bargeclover_narrow as narrow, bargeclover_round as round,
    bargeclover_sin as sin, bargeclover_sqrt as sqrt, bargeclover_to_i32 as to_i32,
};

/// The bits of a not-a-number, as they are answered.
pub const NAN: u32 = 2143289344;
