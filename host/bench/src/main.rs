//! The library and the published Rust's scalar path in one process, on the same buffers, in turns; medians, on a frame the best of the rounds, and their ratio.
//!
//! Thinning, which the Rust has not, is timed beside its second rendering, and the checker of sheets beside the making of the sheet.
//!
//! Build it with --release. `bench`, or `bench` with some of the words calls, detection, orientation, descriptor, frame, thinning, audit,
//! stack.
//! Figures are kept in docs/SPEED.md, and those of the stack in include/bargeclover.h. `bench once` is for `host/bench/count`.

mod audit;
mod descriptor;
mod detection;
mod frame;
mod operations;
mod orientation;
#[cfg(target_os = "linux")]
mod stack;
mod thinning;
mod timing;

use std::{env, fs};

/// The processor by its model, as the system names it.
fn processor() -> String {
    let all = fs::read_to_string("/proc/cpuinfo").unwrap_or_default();
    let model = all.lines().find_map(|l| {
        let (name, value) = l.split_once(':')?;
        (name.trim() == "model name").then(|| value.trim().to_string())
    });
    model.unwrap_or_else(|| std::env::consts::ARCH.to_string())
}

fn main() {
    let words: Vec<String> = env::args().skip(1).collect();
    if words == ["once"] {
        return frame::once();
    }
    let asked = |what: &str| words.is_empty() || words.iter().any(|w| w == what);
    println!("Processor: {}.\n", processor());
    if asked("calls") {
        operations::print();
    }
    #[cfg(target_os = "linux")]
    if asked("stack") {
        stack::print();
    }
    if asked("thinning") {
        thinning::print();
    }
    if asked("audit") {
        audit::print();
    }
    if oracle::FOUND {
        if asked("detection") {
            detection::print();
        }
        if asked("orientation") {
            orientation::print();
        }
        if asked("descriptor") {
            descriptor::print();
        }
        if asked("frame") {
            frame::print();
        }
    } else {
        println!("The published Rust was not found: its entries are not timed.");
    }
}
