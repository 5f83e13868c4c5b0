//! bargeclover: see `bargeclover --help`.

use std::process::ExitCode;
use tool::{Trouble, commands};

fn main() -> ExitCode {
    match commands::run(std::env::args_os().skip(1)) {
        Ok(()) | Err(Trouble::Closed) => ExitCode::SUCCESS,
        Err(t) => {
            t.complain();
            ExitCode::from(t.status())
        }
    }
}
