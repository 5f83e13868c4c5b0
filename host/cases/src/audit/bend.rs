//! The bytes of a sheet bent, so that it is not sound as a rule.

use super::change::Change;
use crate::Rng;
use crate::sheet::{HEADER, RECORD};

/// The layers of a header, and the layer of a record, have the same bits.
fn no_layer(front: &mut [u8]) {
    front[3] &= !3;
    front[4] &= !0xc0;
}

/// A field of a record gets bits that it must not have.
fn outside(r: &mut Rng, record: &mut [u8]) {
    let mut put = |at: usize, bits: u32| {
        record[at..at + 4].copy_from_slice(&bits.to_be_bytes());
    };
    match r.below(8) {
        // row 8191, column 8191
        0 => (record[0], record[1]) = (0xff, record[1] | 0xf8),
        1 => (record[1], record[2], record[3]) = (record[1] | 7, 0xff, record[3] | 0xc0),
        2 => no_layer(record),
        3 => put(
            r.pick(&[6, 10, 18]),
            r.pick(&[0x8000_0000, 0x7f80_0000, 0x7fc0_0000]),
        ),
        4 => put(14, r.pick(&[0, 0x8000_0000, 0x7f80_0000])),
        5 | 6 => put(22, r.pick(&[360f32.to_bits(), 0xbf80_0000, 0x7f80_0001])),
        _ => {
            // the blank bit, beside a value
            record[5] |= 0x20;
            record[RECORD - 1] |= 1;
        }
    }
}

/// The bytes of a sheet are changed; none where there is no record to change.
pub(super) fn bend(r: &mut Rng, bytes: &mut Vec<u8>, change: Change) -> Option<()> {
    let many = (bytes.len() - HEADER) / RECORD;
    let at = HEADER + RECORD * r.below(many.max(1));
    let record = bytes.get_mut(at..at + RECORD);
    match change {
        Change::OtherEdition => bytes[0] ^= 0x30,
        Change::Bit => {
            let byte = match r.below(4) {
                0 => r.below(HEADER),
                1 => r.below(bytes.len()),
                _ => at + r.below(RECORD),
            };
            *bytes.get_mut(byte)? ^= 1 << r.below(8);
        }
        Change::Outside if r.one_in(8) => no_layer(bytes),
        Change::Outside => outside(r, record?),
        // one of the five bits that no edition has
        Change::ZeroBit => record?[5] |= 1 << r.below(5),
        Change::SpareBit if r.one_in(4) => bytes[6] |= 1 << r.below(2),
        Change::SpareBit => bytes[7] |= 1 << r.below(8),
        Change::UnknownEdition => {
            let edition = r.pick(&[0, 3, 4, 7, 8, 14, 15]);
            bytes[0] = bytes[0] & 15 | edition << 4;
        }
        // the last six bits of the count
        Change::Count => bytes[6] ^= 1 << r.from_to(2, 7),
        Change::Cut => {
            let long = match r.below(3) {
                0 => r.below(HEADER),
                1 => bytes.len() - 1,
                _ => r.below(bytes.len()),
            };
            bytes.truncate(long);
        }
        _ => {
            let more = r.pick(&[1, RECORD]);
            bytes.resize(bytes.len() + more, 0);
        }
    }
    Some(())
}
