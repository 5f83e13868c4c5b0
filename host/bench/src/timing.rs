//! Ways of doing one thing, timed in turns.

use std::hint::black_box;
use std::time::Instant;

/// The nanoseconds of each way, sorted: after one round that is not counted, `rounds` in which each has its turn.
fn sorted<const N: usize>(rounds: usize, mut ways: [&mut dyn FnMut() -> u64; N]) -> [Vec<f64>; N] {
    let mut times = [(); N].map(|()| Vec::new());
    for round in 0..=rounds {
        for (way, times) in ways.iter_mut().zip(&mut times) {
            let began = Instant::now();
            black_box(way());
            let took = began.elapsed().as_secs_f64() * 1e9;
            if round > 0 {
                times.push(took);
            }
        }
    }
    times.map(|mut t| {
        t.sort_by(f64::total_cmp);
        t
    })
}

/// The median of each way's rounds.
pub fn medians<const N: usize>(rounds: usize, ways: [&mut dyn FnMut() -> u64; N]) -> [f64; N] {
    sorted(rounds, ways).map(|t| t[t.len() / 2])
}

/// The best of each way's rounds: other work on the machine makes a round slower and never faster.
pub fn bests<const N: usize>(rounds: usize, ways: [&mut dyn FnMut() -> u64; N]) -> [f64; N] {
    sorted(rounds, ways).map(|t| t[0])
}
