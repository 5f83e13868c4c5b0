//! Safe Rust over `libbargeclover.a`, the proved C library: keypoints for tying frames of aerial film together.
//!
//! Nothing here can reach undefined behaviour: the library trusts no argument, and a slice carries its own length.
//!
//! ```
//! use bargeclover::{Settings, Stack, find_extrema};
//!
//! // Three planes of 11 x 11 zeros, and 100 in the middle of the middle one.
//! let mut samples = vec![0.0; 3 * 11 * 11];
//! samples[11 * 11 + 5 * 11 + 5] = 100.0;
//! let stack = Stack { samples: &samples, width: 11, height: 11, planes: 3 };
//! let settings = Settings { layers: 1, ..Settings::default() };
//! let found = find_extrema(&stack, 1, 0, &settings)?;
//! assert_eq!((found.len(), found[0].x, found[0].y), (1, 5.0, 5.0));
//! # Ok::<(), bargeclover::Refusal>(())
//! ```

mod audit;
pub mod bits;
mod descriptor;
mod detection;
pub mod entries;
pub mod ffi;
mod orientation;
mod refusal;
mod sheet;
mod thinning;

pub use audit::{Field, HeaderField, Verdict, check_sheet};
pub use descriptor::{Aim, Descriptor, compute_descriptor, descriptor_inputs};
pub use detection::{Keypoint, Settings, Stack, find_extrema, threshold};
pub use orientation::{Orientations, Oriented, Picture, assign_orientations};
pub use refusal::Refusal;
pub use sheet::{Blank, Record, Sheet, make_record, read_sheet, write_sheet};
pub use thinning::thin;
