//! Routines and single operations by call: each is called through a function that is not inlined, on buffers of random operands
//! that stay in the nearest cache.

use crate::timing::medians;
use bargeclover::bits;
use cases::Rng;

const MANY: usize = 4096;
const ROUNDS: usize = 101;

/// The processor's own operations, one call each.
mod processor {
    macro_rules! operation {
        ($name:ident($($x:ident: $t:ty),*) -> $r:ty = $e:expr) => {
            #[inline(never)]
            #[cfg_attr(target_arch = "x86_64", target_feature(enable = "fma,sse4.1"))]
            pub fn $name($($x: $t),*) -> $r { $e }
        };
    }
    operation!(fma(a: f32, b: f32, c: f32) -> f32 = a.mul_add(b, c));
    operation!(sqrt(x: f32) -> f32 = x.sqrt());
    operation!(floor(x: f32) -> f32 = x.floor());
    operation!(round(x: f32) -> f32 = x.round_ties_even());
    operation!(to_i32(x: f32) -> i32 = x as i32);
    operation!(narrow(x: f64) -> f32 = x as f32);
    operation!(length(x: f32, y: f32) -> f32 = x.mul_add(x, y * y).sqrt());
}

/// Whether the processor has the operations that `processor` uses.
fn has_all() -> bool {
    #[cfg(target_arch = "x86_64")]
    return is_x86_feature_detected!("fma") && is_x86_feature_detected!("sse4.1");
    #[cfg(not(target_arch = "x86_64"))]
    true
}

/// Nanoseconds a call for each way, `f` calling it on operand k.
fn by_call<const N: usize>(ways: [&dyn Fn(usize) -> u32; N]) -> [f64; N] {
    let mut runs = ways.map(|way| {
        move || {
            let mut sum = 0u64;
            for k in 0..MANY {
                sum = sum.wrapping_add(u64::from(way(k)));
            }
            sum
        }
    });
    let runs: [&mut dyn FnMut() -> u64; N] = runs.each_mut().map(|f| f as &mut dyn FnMut() -> u64);
    medians(ROUNDS, runs).map(|t| t / MANY as f64)
}

fn row(name: &str, other: &str, [ours, theirs]: [f64; 2]) {
    println!(
        "| {name} | {ours:.1} | {other} | {theirs:.1} | {:.1} |",
        ours / theirs
    );
}

fn floats(r: &mut Rng, lo: f64, hi: f64) -> Vec<f32> {
    (0..MANY)
        .map(|_| (lo + (hi - lo) * r.unit()) as f32)
        .collect()
}

pub fn print() {
    let mut r = Rng::new(3);
    println!("### Calls\n");
    println!("Nanoseconds a call, {MANY} calls on different operands to a round.\n");
    println!("| function | library | against | its time | ratio |\n|---|---|---|---|---|");
    let (a, b, c) = (
        floats(&mut r, -300.0, 300.0),
        floats(&mut r, -300.0, 300.0),
        floats(&mut r, -90000.0, 90000.0),
    );
    let wide: Vec<f64> = (0..MANY).map(|_| r.signed() * 300.0).collect();
    if has_all() {
        single(&a, &b, &c, &wide);
    }
    routines(&mut r);
    if oracle::FOUND {
        source_routines(&mut r);
    }
    println!();
}

/// Those that the source takes from its platform.
fn routines(r: &mut Rng) {
    let (x, d) = (floats(r, 0.0, 2.0), floats(r, 0.0, 360.0));
    let t = by_call([&|k| bits::exp2(x[k].to_bits()), &|k| x[k].exp2().to_bits()]);
    row("exp2", "the C library's `exp2f`", t);
    let t = by_call([&|k| bits::sin(d[k].to_bits()), &|k| {
        d[k].to_radians().sin().to_bits()
    }]);
    row("sin", "the C library's `sinf`", t);
    let t = by_call([&|k| bits::cos(d[k].to_bits()), &|k| {
        d[k].to_radians().cos().to_bits()
    }]);
    row("cos", "the C library's `cosf`", t);
}

/// Those that the source has itself.
fn source_routines(r: &mut Rng) {
    let (x, a, b) = (
        floats(r, -16.0, 0.0),
        floats(r, -300.0, 300.0),
        floats(r, -300.0, 300.0),
    );
    let t = by_call([&|k| bits::exp(x[k].to_bits()), &|k| {
        oracle::own_exp(x[k]).to_bits()
    }]);
    row("exp", "the published Rust", t);
    let t = by_call([&|k| bits::angle(a[k].to_bits(), b[k].to_bits()), &|k| {
        oracle::own_angle(b[k], a[k]).to_bits()
    }]);
    row("angle", "the published Rust", t);
    let t = by_call(
        [&|k| bits::magnitude(a[k].to_bits(), b[k].to_bits()), &|k| {
            oracle::own_magnitude(a[k], b[k]).to_bits()
        }],
    );
    row("magnitude", "the published Rust", t);
}

#[allow(unused_unsafe, reason = "on Arm the operations are always there")]
fn single(a: &[f32], b: &[f32], c: &[f32], wide: &[f64]) {
    // SAFETY of each: `has_all` was asked.
    let t = by_call([
        &|k| bits::fma(a[k].to_bits(), b[k].to_bits(), c[k].to_bits()),
        &|k| unsafe { processor::fma(a[k], b[k], c[k]) }.to_bits(),
    ]);
    row("fma", "the processor", t);
    let t = by_call([&|k| bits::sqrt(a[k].abs().to_bits()), &|k| {
        unsafe { processor::sqrt(a[k].abs()) }.to_bits()
    }]);
    row("sqrt", "the processor", t);
    let t = by_call([&|k| bits::narrow(wide[k].to_bits()), &|k| {
        unsafe { processor::narrow(wide[k]) }.to_bits()
    }]);
    row("narrow", "the processor", t);
    let t = by_call([&|k| bits::floor(a[k].to_bits()), &|k| {
        unsafe { processor::floor(a[k]) }.to_bits()
    }]);
    row("floor", "the processor", t);
    let t = by_call([&|k| bits::round(a[k].to_bits()), &|k| {
        unsafe { processor::round(a[k]) }.to_bits()
    }]);
    row("round", "the processor", t);
    let t = by_call([&|k| bits::to_i32(a[k].to_bits()) as u32, &|k| unsafe {
        processor::to_i32(a[k]) as u32
    }]);
    row("to_i32", "the processor", t);
    let t = by_call(
        [&|k| bits::magnitude(a[k].to_bits(), b[k].to_bits()), &|k| {
            unsafe { processor::length(a[k], b[k]) }.to_bits()
        }],
    );
    row("magnitude", "the processor", t);
}
