//! What can go wrong, in words, with the status that the tool ends with.

use bargeclover::Refusal;
use std::fmt;
use std::io::{self, Write};
use std::path::{Path, PathBuf};

#[derive(Debug)]
pub enum Trouble {
    /// What is given is read and refused: a picture or a sheet that is not one, or a number of the table of refusals (rule A2). Status 1.
    Refused(String),
    /// The words of the command are wrong. Status 2.
    Usage(String),
    /// A file can't be read or written. Status 3.
    File {
        path: PathBuf,
        doing: &'static str,
        error: io::Error,
    },
    /// Whoever reads what is printed has stopped reading. Status 0.
    Closed,
}

impl Trouble {
    pub fn status(&self) -> u8 {
        match self {
            Trouble::Closed => 0,
            Trouble::Refused(_) => 1,
            Trouble::Usage(_) => 2,
            Trouble::File { .. } => 3,
        }
    }

    /// Says it on standard error; where nobody reads that, nothing is said.
    pub fn complain(&self) {
        let _ = writeln!(io::stderr().lock(), "bargeclover: {self}");
    }

    pub fn reading(path: &Path, error: io::Error) -> Trouble {
        Trouble::File {
            path: path.into(),
            doing: "read",
            error,
        }
    }

    pub fn writing(path: &Path, error: io::Error) -> Trouble {
        if error.kind() == io::ErrorKind::BrokenPipe {
            return Trouble::Closed;
        }
        Trouble::File {
            path: path.into(),
            doing: "written",
            error,
        }
    }

    /// A refusal of the library, and what to change.
    pub fn refused(refusal: Refusal, change: &str) -> Trouble {
        Trouble::Refused(format!("{refusal}; {change}"))
    }
}

impl fmt::Display for Trouble {
    fn fmt(&self, f: &mut fmt::Formatter<'_>) -> fmt::Result {
        match self {
            Trouble::Refused(words) | Trouble::Usage(words) => write!(f, "{words}"),
            Trouble::File { path, doing, error } => {
                write!(f, "{} can't be {doing}: {error}", path.display())
            }
            Trouble::Closed => write!(f, "nobody reads on"),
        }
    }
}

impl std::error::Error for Trouble {}
