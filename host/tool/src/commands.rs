//! The commands.

mod check;
mod draw;
mod extract;

use crate::args::Given;
use crate::cover::{self, Cover, Tally};
use crate::find::{self, Wanted};
use crate::help::{self, COMMANDS, Command};
use crate::pgm::Frame;
use crate::progress::Progress;
use crate::table::{self, Mark};
use crate::{Trouble, files};
use bargeclover::Settings;
use std::ffi::OsString;
use std::io::{self, BufWriter, Write};
use std::path::{Path, PathBuf};

/// Runs the words after the program's name.
pub fn run(words: impl IntoIterator<Item = OsString>) -> Result<(), Trouble> {
    let mut words = words.into_iter();
    let first = words.next().unwrap_or_default();
    let name = first.to_str().unwrap_or("");
    match name {
        "" if first.is_empty() => Err(Trouble::Usage(format!(
            "no command is given\n\n{}",
            help::general()
        ))),
        "help" | "--help" | "-h" => match words.next() {
            None => print(|out| write!(out, "{}", help::general())),
            Some(about) => {
                let command = known(about.to_str().unwrap_or(""))?;
                print(|out| write!(out, "{}", command.help()))
            }
        },
        "version" | "--version" | "-V" => print(|out| write!(out, "{}", help::version())),
        _ => {
            let command = known(name)?;
            let given = Given::read(&command.known(), words).map_err(|t| see_help(t, command))?;
            if given.has("help") {
                return print(|out| write!(out, "{}", command.help()));
            }
            let ran = match command.name {
                "extract" => extract::run(&given),
                "find" => find_command(&given),
                "show" => show(&given),
                "check" => check::run(&given),
                _ => draw::run(&given),
            };
            ran.map_err(|t| see_help(t, command))
        }
    }
}

fn known(name: &str) -> Result<&'static Command, Trouble> {
    let names: Vec<&str> = COMMANDS.iter().map(|c| c.name).collect();
    let found = COMMANDS.iter().find(|c| c.name == name);
    found.copied().ok_or_else(|| {
        Trouble::Usage(format!(
            "'{name}' is no command: there are {}, help and --version",
            names.join(", ")
        ))
    })
}

fn see_help(t: Trouble, command: &Command) -> Trouble {
    match t {
        Trouble::Usage(words) => {
            Trouble::Usage(format!("{words}; see bargeclover {} --help", command.name))
        }
        other => other,
    }
}

/// Prints to standard output. That nobody reads on is no fault.
fn print(write: impl FnOnce(&mut dyn Write) -> io::Result<()>) -> Result<(), Trouble> {
    let mut out = BufWriter::new(io::stdout().lock());
    let written = write(&mut out).and_then(|()| out.flush());
    written.map_err(|e| Trouble::writing(Path::new("standard output"), e))
}

/// The one file that a command takes.
fn one(given: &Given, what: &str) -> Result<PathBuf, Trouble> {
    match given.files.as_slice() {
        [file] => Ok(file.clone()),
        [] => Err(Trouble::Usage(format!("name {what}"))),
        [_, more, ..] => Err(Trouble::Usage(format!(
            "one file is taken, and '{}' is another",
            more.display()
        ))),
    }
}

fn wanted(given: &Given) -> Result<Wanted, Trouble> {
    let d = Settings::default();
    Ok(Wanted {
        settings: Settings {
            contrast: given.number("contrast", d.contrast)?,
            edge: given.number("edge", d.edge)?,
            sigma: given.number("sigma", d.sigma)?,
            layers: given.number("layers", d.layers)?,
        },
        double: given.has("double"),
        cover: cover(given)?,
        unsearched: false,
    })
}

fn cover(given: &Given) -> Result<Option<Cover>, Trouble> {
    if !given.has("quota") {
        return if given.has("depth") {
            Err(Trouble::Usage(
                "--depth is for a --quota, and none is given".into(),
            ))
        } else {
            Ok(None)
        };
    }
    Ok(Some(Cover {
        quota: given.number("quota", 0)?,
        depth: given.number("depth", cover::DEPTH)?,
    }))
}

fn progress(given: &Given) -> Progress {
    if given.has("quiet") {
        Progress::none()
    } else {
        Progress::new()
    }
}

/// The oriented keypoints of a frame, and what a quota left.
fn marks(frame: &Frame, given: &Given) -> Result<(Vec<Mark>, Option<Tally>), Trouble> {
    let mut all = Vec::new();
    let found = find::each(frame, &wanted(given)?, &mut progress(given), |_, k, o| {
        all.push(Mark::of_oriented(k, o));
        Ok(())
    })?;
    Ok((all, found.tally))
}

fn find_command(given: &Given) -> Result<(), Trouble> {
    let frame = files::frame(&one(given, "the frame, a PGM file")?)?;
    let (all, tally) = marks(&frame, given)?;
    if let Some(tally) = tally
        && given.has("csv")
        && !given.has("quiet")
    {
        // comma-separated lines have no place for it
        let _ = writeln!(io::stderr().lock(), "{tally}");
    }
    print(|out| {
        if given.has("csv") {
            writeln!(out, "{}", table::csv_head(false))?;
            for (k, m) in all.iter().enumerate() {
                writeln!(out, "{}", table::csv_line(k, m))?;
            }
            return Ok(());
        }
        if let Some(tally) = tally {
            writeln!(out, "{tally}\n")?;
        }
        writeln!(out, "{}", table::head(false))?;
        for (k, m) in all.iter().enumerate() {
            writeln!(out, "{}", table::line(k, m))?;
        }
        Ok(())
    })
}

fn show(given: &Given) -> Result<(), Trouble> {
    let path = one(given, "the sheet")?;
    let sheet = files::sheet(&path)?;
    if given.has("record") {
        let number: usize = given.number("record", 0)?;
        let record = sheet.records.get(number).ok_or_else(|| {
            Trouble::Usage(format!(
                "there is no record {number}: the sheet has {}, counted from 0",
                sheet.records.len()
            ))
        })?;
        return print(|out| write!(out, "{}", table::full(number, record)));
    }
    let all = sheet.records.iter().enumerate();
    print(|out| {
        if given.has("csv") {
            writeln!(out, "{}", table::csv_head(true))?;
            for (k, r) in all {
                writeln!(out, "{}", table::csv_record(k, r))?;
            }
            return Ok(());
        }
        let words = table::summary(&sheet);
        writeln!(out, "{}: {words}\n\n{}", path.display(), table::head(true))?;
        for (k, r) in all {
            writeln!(out, "{}", table::line(k, &Mark::of_record(r)))?;
        }
        Ok(())
    })
}
