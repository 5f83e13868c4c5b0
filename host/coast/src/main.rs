//! coast OUT.pgm [WIDTH HEIGHT SEED]: writes a synthetic frame; without numbers the shipped one.

use std::process::ExitCode;

fn main() -> ExitCode {
    let words: Vec<String> = std::env::args().skip(1).collect();
    let numbers: Vec<usize> = words
        .iter()
        .skip(1)
        .filter_map(|w| w.parse().ok())
        .collect();
    let frame = match (words.len(), numbers.as_slice()) {
        (1, []) => coast::shipped(),
        (4, &[width, height, seed])
            if (1..=8192).contains(&width) && (1..=8192).contains(&height) =>
        {
            coast::frame(width, height, seed as u64)
        }
        _ => {
            eprintln!("coast OUT.pgm [WIDTH HEIGHT SEED]: sides are 1 to 8192");
            return ExitCode::from(2);
        }
    };
    if let Err(e) = std::fs::write(&words[0], frame.to_pgm()) {
        eprintln!("coast: {} can't be written: {e}", words[0]);
        return ExitCode::from(3);
    }
    ExitCode::SUCCESS
}
