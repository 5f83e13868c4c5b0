//! The single operations, on millions of patterns, against the processor's own; the routines against their ranges, the values
//! that rules F4 to F7 fix, and double precision.

use crate::report::Report;
use bargeclover::bits;
use cases::Rng;
use cases::floats::{SPECIAL, bits as word, pattern, pattern64};

fn float(b: u32) -> f32 {
    f32::from_bits(b)
}

/// The three operands of a fused sum: any; or the third near the product's opposite; or the product near the least numbers.
fn operands(r: &mut Rng) -> [u32; 3] {
    let (a, b) = (pattern(r), pattern(r));
    let product = float(a) * float(b);
    let c = match r.below(4) {
        0 => word(-product).wrapping_add((r.below(7) as u32).wrapping_sub(3)),
        1 => {
            // some bits below or above the product
            let exponent = word(product) >> 23 & 0xff;
            let shifted = (exponent + r.below(60) as u32).saturating_sub(30).min(254);
            (r.word() as u32 & 0x807f_ffff) | shifted << 23
        }
        _ => pattern(r),
    };
    if r.one_in(8) {
        // a product about the least f32
        let low = 127 - 75 + r.below(24) as u32;
        let (d, e) = (r.word() as u32, r.word() as u32);
        return [d & 0x807f_ffff | low << 23, e & 0x807f_ffff | low << 23, c];
    }
    [a, b, c]
}

fn fused(r: &mut Report, [a, b, c]: [u32; 3]) {
    let theirs = word(float(a).mul_add(float(b), float(c)));
    r.same("fma", &bits::fma(a, b, c), &theirs, || {
        format!("{a:#010x} {b:#010x} {c:#010x}")
    });
}

fn single(r: &mut Report, x: u32) {
    let f = float(x);
    let about = || format!("of {x:#010x}");
    r.same("sqrt", &bits::sqrt(x), &word(f.sqrt()), about);
    r.same("floor", &bits::floor(x), &word(f.floor()), about);
    r.same("round", &bits::round(x), &word(f.round_ties_even()), about);
    r.same("to_i32", &bits::to_i32(x), &(f as i32), about);
}

/// `many` random patterns for each operation, and every special pattern with every other.
pub fn operations(rng: &mut Rng, many: u64, r: &mut Report) {
    let signs = [0, 0x8000_0000];
    let specials: Vec<u32> = SPECIAL.iter().flat_map(|s| signs.map(|g| s | g)).collect();
    for &a in &specials {
        single(r, a);
        for &b in &specials {
            for &c in &specials {
                fused(r, [a, b, c]);
            }
        }
    }
    r.add("fma of special patterns", specials.len().pow(3) as u64);
    for _ in 0..many {
        fused(r, operands(rng));
        single(r, pattern(rng));
        let x = pattern64(rng);
        let theirs = word(f64::from_bits(x) as f32);
        r.same("narrow", &bits::narrow(x), &theirs, || {
            format!("of {x:#018x}")
        });
    }
    for what in ["fma", "sqrt", "floor", "round", "to_i32", "narrow"] {
        r.add(format!("{what} of random patterns"), many);
    }
}

/// A routine of one argument: its range, its results' range, the bound on its error, and double precision's value.
struct Routine {
    name: &'static str,
    ours: extern "C" fn(u32) -> u32,
    range: (f32, f32),
    results: (f32, f32),
    /// The bound on |ours - value|, from the value.
    bound: fn(f64) -> f64,
    value: fn(f64) -> f64,
    /// Arguments whose results are fixed.
    fixed: &'static [(f32, f32)],
}

/// 2^-16.
const NEAR: f64 = 1.0 / 65536.0;

const ROUTINES: [Routine; 4] = [
    Routine {
        name: "exp2",
        ours: bits::exp2,
        range: (0.0, 2.0),
        results: (1.0, 4.0),
        bound: |v| v * NEAR,
        value: f64::exp2,
        fixed: &[(0.0, 1.0), (1.0, 2.0), (2.0, 4.0)],
    },
    Routine {
        name: "exp",
        ours: bits::exp,
        range: (-32.0, 0.0),
        results: (0.0, 1.0),
        bound: |v| v * NEAR,
        value: f64::exp,
        fixed: &[(0.0, 1.0), (-0.0, 1.0)],
    },
    Routine {
        name: "sin",
        ours: bits::sin,
        range: (0.0, 360.0),
        results: (-1.0, 1.0),
        bound: |_| NEAR,
        value: |d| d.to_radians().sin(),
        fixed: &[
            (0.0, 0.0),
            (90.0, 1.0),
            (180.0, 0.0),
            (270.0, -1.0),
            (360.0, 0.0),
        ],
    },
    Routine {
        name: "cos",
        ours: bits::cos,
        range: (0.0, 360.0),
        results: (-1.0, 1.0),
        bound: |_| NEAR,
        value: |d| d.to_radians().cos(),
        fixed: &[
            (0.0, 1.0),
            (90.0, 0.0),
            (180.0, -1.0),
            (270.0, 0.0),
            (360.0, 1.0),
        ],
    },
];

impl Routine {
    fn hold(&self, r: &mut Report, x: u32) {
        let (at, y) = (float(x), (self.ours)(x));
        let (lo, hi) = self.range;
        let right = if lo <= at && at <= hi {
            let v = (self.value)(f64::from(at));
            let (low, high) = self.results;
            let held = low <= float(y) && float(y) <= high;
            held && (f64::from(float(y)) - v).abs() <= (self.bound)(v)
        } else {
            y == bits::NAN
        };
        if !right {
            r.differs(&format!("{} of {x:#010x} is {y:#010x}", self.name));
        }
    }
}

const LARGEST: f32 = 2097152.0;

fn degrees(dx: f32, dy: f32) -> f64 {
    let turn = f64::from(dy).atan2(f64::from(dx)).to_degrees();
    if turn < 0.0 { turn + 360.0 } else { turn }
}

fn pair(r: &mut Report, x: u32, y: u32) {
    let (dx, dy) = (float(x), float(y));
    let inside = dx.abs() <= LARGEST && dy.abs() <= LARGEST;
    let (angle, size) = (bits::angle(x, y), bits::magnitude(x, y));
    let theirs = if inside {
        word(dx.mul_add(dx, dy * dy).sqrt())
    } else {
        bits::NAN
    };
    r.same("magnitude", &size, &theirs, || {
        format!("of {x:#010x} {y:#010x}")
    });
    let right = if !inside {
        angle == bits::NAN
    } else if dx == 0.0 && dy == 0.0 {
        angle == 0
    } else {
        let a = f64::from(float(angle));
        let off = (a - degrees(dx, dy)).abs();
        let quarter = match (dx < 0.0, dy < 0.0) {
            (false, false) => 0.0..=90.0,
            (true, false) => 90.0..=180.0,
            (true, true) => 180.0..=270.0,
            (false, true) => 270.0..=360.0,
        };
        quarter.contains(&a) && (0.0..360.0).contains(&a) && off.min(360.0 - off) <= 0.01
    };
    if !right {
        r.differs(&format!("angle of {x:#010x} {y:#010x} is {angle:#010x}"));
    }
    let twice = (dx * 2.0, dy * 2.0);
    let exact = twice.0 / 2.0 == dx && twice.1 / 2.0 == dy;
    if inside && exact && twice.0.abs() <= LARGEST && twice.1.abs() <= LARGEST {
        let doubled = bits::angle(word(twice.0), word(twice.1));
        r.same("angle of the doubled pair", &doubled, &angle, || {
            format!("of {x:#010x} {y:#010x}")
        });
    }
}

/// An argument in the range, or any.
fn argument(rng: &mut Rng, (lo, hi): (f32, f32)) -> u32 {
    match rng.below(8) {
        0 => pattern(rng),
        1 => {
            let near = rng.pick(&[lo, hi, 90.0, 180.0, 270.0]);
            word(near).wrapping_add((rng.below(9) as u32).wrapping_sub(4))
        }
        2 => word((f64::from(hi - lo) * rng.below(2049) as f64 / 2048.0) as f32 + lo),
        _ => word((f64::from(hi - lo) * rng.unit()) as f32 + lo),
    }
}

fn side(rng: &mut Rng) -> u32 {
    match rng.below(4) {
        0 => pattern(rng),
        1 => word((rng.signed() * 510.0).round() as f32),
        2 => word((rng.signed() * f64::from(LARGEST)) as f32),
        _ => word((rng.signed() * 2f64.powi(21 - rng.below(150) as i32)) as f32),
    }
}

/// `many` arguments for each routine.
pub fn routines(rng: &mut Rng, many: u64, r: &mut Report) {
    for f in &ROUTINES {
        for &(x, y) in f.fixed {
            r.same(f.name, &(f.ours)(word(x)), &word(y), || format!("of {x}"));
        }
        for _ in 0..many {
            f.hold(r, argument(rng, f.range));
        }
        r.add(
            format!("{} held to its ranges and double precision", f.name),
            many,
        );
    }
    for (dx, dy, a) in [
        (1.0, 0.0, 0.0f32),
        (0.0, 3.0, 90.0),
        (-2.0, 0.0, 180.0),
        (0.0, -5.0, 270.0),
    ] {
        r.same("angle", &bits::angle(word(dx), word(dy)), &word(a), || {
            format!("of the axis ({dx}, {dy})")
        });
    }
    for _ in 0..many {
        let (dx, dy) = (side(rng), side(rng));
        pair(r, dx, dy);
    }
    r.add("angle and magnitude of a pair", many);
}
