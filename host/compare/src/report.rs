//! What a run tried, and what differed.

use std::collections::BTreeMap;
use std::fmt::Display;

/// Differences that are printed whole; the rest are counted.
const SHOWN: usize = 20;

#[derive(Default)]
pub struct Report {
    tried: BTreeMap<String, u64>,
    differences: usize,
}

impl Report {
    /// One more of what the line says was tried.
    pub fn tried(&mut self, what: impl Display) {
        self.add(what, 1);
    }

    pub fn add(&mut self, what: impl Display, many: u64) {
        *self.tried.entry(what.to_string()).or_default() += many;
    }

    pub fn count(&self, what: &str) -> u64 {
        self.tried.get(what).copied().unwrap_or(0)
    }

    /// Both are to be equal; `about` tells the input, and is called only where they are not.
    pub fn same<T: PartialEq + std::fmt::Debug>(
        &mut self,
        what: &str,
        ours: &T,
        theirs: &T,
        about: impl FnOnce() -> String,
    ) -> bool {
        let same = ours == theirs;
        if !same {
            self.differs(&format!(
                "{what}: {ours:?} here, {theirs:?} there; {}",
                about()
            ));
        }
        same
    }

    pub fn differs(&mut self, what: &str) {
        self.differences += 1;
        if self.differences <= SHOWN {
            println!("DIFFERENCE {what}");
        }
    }

    pub fn differences(&self) -> usize {
        self.differences
    }

    pub fn print(&self) {
        for (what, many) in &self.tried {
            println!("{many:>12}  {what}");
        }
        if self.differences > SHOWN {
            println!(
                "{} more differences are not shown",
                self.differences - SHOWN
            );
        }
        println!("{} differences", self.differences);
    }
}
