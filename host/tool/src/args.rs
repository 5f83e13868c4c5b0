//! The words of a command line: options before, between and after the files.

use crate::Trouble;
use std::ffi::{OsStr, OsString};
use std::path::{Path, PathBuf};
use std::str::FromStr;

/// An option: its long name, its letter if it has one, what its value is called if it takes one, and what it does.
#[derive(Clone, Copy, Debug)]
pub struct Opt {
    pub name: &'static str,
    pub letter: Option<char>,
    pub value: Option<&'static str>,
    pub about: &'static str,
}

/// What was given.
#[derive(Debug, Default)]
pub struct Given {
    options: Vec<(&'static str, OsString)>,
    pub files: Vec<PathBuf>,
}

fn usage(words: String) -> Trouble {
    Trouble::Usage(words)
}

/// Splits `--name=value`.
fn split(word: &str) -> (&str, Option<&str>) {
    match word.split_once('=') {
        Some((name, value)) => (name, Some(value)),
        None => (word, None),
    }
}

impl Given {
    pub fn read(
        known: &[Opt],
        words: impl IntoIterator<Item = OsString>,
    ) -> Result<Given, Trouble> {
        let mut given = Given::default();
        let mut words = words.into_iter();
        let mut files_only = false;
        while let Some(word) = words.next() {
            let text = word.to_str().unwrap_or("");
            if files_only || !text.starts_with('-') || text == "-" {
                given.files.push(word.into());
                continue;
            }
            if text == "--" {
                files_only = true;
                continue;
            }
            let (opt, inside) = find(known, text)?;
            let value = match (opt.value, inside) {
                (None, None) => OsString::new(),
                (None, Some(_)) => return Err(usage(format!("--{} takes no value", opt.name))),
                (Some(_), Some(v)) => v.into(),
                (Some(what), None) => words
                    .next()
                    .ok_or_else(|| usage(format!("--{} wants a {what} after it", opt.name)))?,
            };
            if given.has(opt.name) {
                return Err(usage(format!("--{} is given twice", opt.name)));
            }
            given.options.push((opt.name, value));
        }
        Ok(given)
    }

    pub fn has(&self, name: &str) -> bool {
        self.options.iter().any(|o| o.0 == name)
    }

    pub fn value(&self, name: &str) -> Option<&OsStr> {
        let found = self.options.iter().find(|o| o.0 == name);
        found.map(|o| o.1.as_os_str())
    }

    pub fn path(&self, name: &str) -> Option<&Path> {
        self.value(name).map(Path::new)
    }

    /// The value as a number, or the number that stands for none.
    pub fn number<T: FromStr>(&self, name: &str, else_: T) -> Result<T, Trouble> {
        match self.value(name) {
            None => Ok(else_),
            Some(v) => {
                let number = v.to_str().and_then(|v| v.trim().parse().ok());
                number
                    .ok_or_else(|| usage(format!("--{name} wants a number, not '{}'", v.display())))
            }
        }
    }
}

/// The option that a word names, and the value inside the word: `--name`, `--name=value`, `-n`, `-nvalue`.
fn find<'a>(known: &[Opt], word: &'a str) -> Result<(Opt, Option<&'a str>), Trouble> {
    if let Some(long) = word.strip_prefix("--") {
        let (name, value) = split(long);
        if let Some(o) = known.iter().find(|o| o.name == name) {
            return Ok((*o, value));
        }
    } else {
        let mut letters = word[1..].chars();
        let letter = letters.next();
        if let Some(o) = known
            .iter()
            .find(|o| o.letter.is_some() && o.letter == letter)
        {
            let rest = letters.as_str();
            return Ok((*o, (!rest.is_empty()).then_some(rest)));
        }
    }
    Err(usage(format!("{} is no option here", split(word).0)))
}

#[cfg(test)]
mod tests {
    use super::*;

    const KNOWN: [Opt; 3] = [
        Opt {
            name: "output",
            letter: Some('o'),
            value: Some("FILE"),
            about: "",
        },
        Opt {
            name: "csv",
            letter: None,
            value: None,
            about: "",
        },
        Opt {
            name: "edge",
            letter: None,
            value: Some("NUMBER"),
            about: "",
        },
    ];

    fn read(words: &[&str]) -> Result<Given, Trouble> {
        Given::read(&KNOWN, words.iter().map(OsString::from))
    }

    #[test]
    fn every_way_to_write_an_option() {
        for words in [
            &["a", "-o", "b", "--csv"][..],
            &["--csv", "-ob", "a"],
            &["--output=b", "a", "--csv"],
            &["--output", "b", "--csv", "--", "a"],
        ] {
            let g = read(words).unwrap();
            assert_eq!(g.files, [Path::new("a")]);
            assert_eq!(g.path("output"), Some(Path::new("b")));
            assert!(g.has("csv"));
        }
        let g = read(&["--", "-o", "--csv"]).unwrap();
        assert_eq!(g.files, [Path::new("-o"), Path::new("--csv")]);
        assert_eq!(
            read(&["--edge=-1e3"]).unwrap().number("edge", 0.0).unwrap(),
            -1e3
        );
        assert_eq!(read(&["-"]).unwrap().files, [Path::new("-")]);
    }

    #[test]
    fn wrong_words() {
        for words in [
            &["-o"][..],
            &["--nothing"],
            &["-x"],
            &["--csv=1"],
            &["--csv", "--csv"],
            &["-é"],
        ] {
            assert!(matches!(read(words), Err(Trouble::Usage(_))), "{words:?}");
        }
        assert!(
            read(&["--edge", "ten"])
                .unwrap()
                .number("edge", 0.0)
                .is_err()
        );
    }
}
