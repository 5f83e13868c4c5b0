//! Bit patterns of floats where rounding, overflow, underflow and casts have their corners, and random ones about them.

use crate::Rng;

/// Zeros, subnormals, the ends of the normal range, whole numbers and ties, the ends of i32, infinities and not-a-numbers.
pub const SPECIAL: [u32; 44] = [
    0x0000_0000,
    0x0000_0001,
    0x0000_0002,
    0x0000_0003,
    0x003f_ffff,
    0x0040_0000,
    0x007f_fffe,
    0x007f_ffff,
    0x0080_0000,
    0x0080_0001,
    0x00ff_ffff,
    0x0100_0000,
    0x1a00_0000,
    0x2000_0000,
    0x337f_ffff,
    0x3380_0000,
    0x33ff_ffff,
    0x3400_0000,
    0x3eff_ffff,
    0x3f00_0000,
    0x3f00_0001,
    0x3f7f_ffff,
    0x3f80_0000,
    0x3f80_0001,
    0x3f80_0800,
    0x3fc0_0000,
    0x4000_0000,
    0x4020_0000,
    0x4060_0000,
    0x4aff_ffff,
    0x4b00_0000,
    0x4b00_0001,
    0x4b7f_ffff,
    0x4b80_0000,
    0x4e2a_aaab,
    0x4eff_ffff,
    0x4f00_0000,
    0x4f00_0001,
    0x5f00_0000,
    0x7e80_0000,
    0x7f7f_ffff,
    0x7f80_0000,
    0x7f80_0001,
    0x7fc0_0000,
];

/// A pattern: special, near a special one, of a middling exponent with few bits, or any.
pub fn pattern(r: &mut Rng) -> u32 {
    let sign = (r.word() as u32) & 0x8000_0000;
    let size = match r.below(8) {
        0 | 1 => r.pick(&SPECIAL),
        2 => r
            .pick(&SPECIAL)
            .wrapping_add((r.below(9) as u32).wrapping_sub(4)),
        3 => (r.from_to(100, 160) as u32) << 23 | (r.word() as u32) & 0x007f_f000,
        4 | 5 => (r.from_to(100, 160) as u32) << 23 | (r.word() as u32) & 0x007f_ffff,
        _ => r.word() as u32,
    };
    size & 0x7fff_ffff | sign
}

/// A pattern of an f64: one that lies near an f32 or in the middle between two, or any.
pub fn pattern64(r: &mut Rng) -> u64 {
    let wide = f64::from(f32::from_bits(pattern(r))).to_bits();
    match r.below(8) {
        0 => wide,
        1 | 2 => wide.wrapping_add((r.below(9) as u64).wrapping_sub(4)),
        // the middle between two f32s, or just beside it
        3 | 4 => {
            (wide & !0x1fff_ffff | 0x1000_0000).wrapping_add((r.below(5) as u64).wrapping_sub(2))
        }
        // about the least f32s, where the middle lies elsewhere
        5 => {
            let exponent = r.from_to(1023 - 152, 1023 - 124) as u64;
            let sign = r.word() & 1 << 63;
            let digits = r.word() >> r.below(52) & 0x000f_ffff_ffff_ffff;
            let cut = r.below(53);
            sign | exponent << 52 | digits >> cut << cut
        }
        _ => r.word(),
    }
}

/// The bits of a float, one pattern for every not-a-number. The test is of the bits: where it is of the float, LLVM may give the
/// processor's own pattern back (it takes `if x.is_nan() { NAN } else { x }` for `x`).
pub fn bits(x: f32) -> u32 {
    let b = x.to_bits();
    if b & 0x7fff_ffff > 0x7f80_0000 {
        bargeclover::bits::NAN
    } else {
        b
    }
}
