//! A list as it grows: its bytes, its cases, and how many were taken for each reason.

use cases::orientation::Expected;
use cases::picture::Picture;
use std::collections::BTreeMap;
use std::fs;
use std::path::Path;

pub fn put(to: &mut Vec<u8>, words: impl IntoIterator<Item = u32>) {
    for w in words {
        to.extend(w.to_le_bytes());
    }
}

pub struct List {
    pub cases: u32,
    pub bytes: Vec<u8>,
    many: BTreeMap<String, usize>,
    /// Of each of these at least `each` cases are wanted.
    wanted: Vec<String>,
    each: usize,
}

impl List {
    pub fn new(wanted: Vec<String>, each: usize) -> List {
        List {
            cases: 0,
            bytes: Vec::new(),
            many: BTreeMap::new(),
            wanted,
            each,
        }
    }

    /// A case of a picture: its sides, what is asked of it in words, the room lent, the answer's numbers, its samples, and what is
    /// lent as it stands after the call.
    pub fn case(
        &mut self,
        p: &Picture,
        asked: impl IntoIterator<Item = u32>,
        room: usize,
        a: Expected,
    ) {
        let to = &mut self.bytes;
        put(to, [p.width as u32, p.height as u32]);
        put(to, asked);
        put(
            to,
            [room as u32, a.number, a.count as u32, a.samples as u32],
        );
        put(to, p.samples.iter().map(|x| x.to_bits()));
        put(to, a.out);
        self.cases += 1;
    }

    fn lacks(&self, why: &String) -> bool {
        self.many.get(why).copied().unwrap_or(0) < self.each
    }

    pub fn whole(&self) -> bool {
        !self.wanted.iter().any(|w| self.lacks(w))
    }

    /// Whether a case is taken: for what the list still lacks, and for anything once it lacks nothing.
    pub fn takes(&mut self, why: Vec<String>) -> bool {
        let wants = |w: &String| self.wanted.contains(w) && self.lacks(w);
        if !self.whole() && !why.iter().any(wants) {
            return false;
        }
        for w in why {
            *self.many.entry(w).or_default() += 1;
        }
        true
    }

    /// The file `cases.bin` and the note beside it, whose text stands before the numbers of cases.
    pub fn write(&self, folder: &Path, mark: u32, text: &str) {
        let mut file = Vec::new();
        put(&mut file, [mark, self.cases]);
        file.extend(&self.bytes);
        fs::create_dir_all(folder).unwrap();
        fs::write(folder.join("cases.bin"), &file).unwrap();
        let mut note = text.to_string();
        for (what, n) in &self.many {
            note += &format!("- {what}: {n}\n");
        }
        fs::write(folder.join("README.md"), note).unwrap();
        println!("{} cases, {} bytes", self.cases, file.len());
    }
}
