//! record detection [SEED], record orientation [SEED], record descriptor [SEED]: writes the fixed list of stacks, of keypoints or of
//! places that the Rattle program `run_detect`, `run_orient` or `run_descriptor` replays, and a note beside it with the seed
//! and the command. Expected answers are the published Rust's; refusals are those of the table rendered a second time.

mod descriptor;
mod detection;
mod list;
mod orientation;
mod pictures;

use std::env;
use std::path::{Path, PathBuf};
use std::process::ExitCode;

/// The data folder of a crate of this repository.
fn data_folder(name: &str) -> PathBuf {
    let host = Path::new(env!("CARGO_MANIFEST_DIR")).parent().unwrap();
    host.join("../crates").join(name).join("data")
}

fn main() -> ExitCode {
    let mut words = env::args().skip(1);
    let what = words.next().unwrap_or_default();
    let seed = words.next().map_or(Ok(1), |s| s.parse());
    let (Ok(seed), true) = (seed, oracle::FOUND) else {
        eprintln!(
            "record: it wants a list's name and a seed, and the published Rust (KORNIA_SRC names its folder)"
        );
        return ExitCode::from(2);
    };
    match what.as_str() {
        "detection" => detection::write(&data_folder("run_detect"), seed),
        "orientation" => orientation::write(&data_folder("run_orient"), seed),
        "descriptor" => descriptor::write(&data_folder("run_descriptor"), seed),
        _ => {
            eprintln!("record: which list? detection, orientation or descriptor");
            return ExitCode::from(2);
        }
    }
    ExitCode::SUCCESS
}
