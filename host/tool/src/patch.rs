//! What a record tells of its patch: four things, of which three have 128 zeros.

use bargeclover::{Blank, Record};

#[derive(Clone, Copy, Debug, PartialEq, Eq)]
pub enum Patch {
    /// Some value is not zero.
    Values,
    /// Cells were read, and all values are zero.
    Level,
    /// No cell was read.
    Blank,
    /// All values are zero, in a sheet of edition 1.
    Unknown,
}

impl Patch {
    pub const ALL: [Patch; 4] = [Patch::Values, Patch::Level, Patch::Blank, Patch::Unknown];

    pub fn of(r: &Record) -> Patch {
        match r.blank {
            Blank::Yes => Patch::Blank,
            _ if r.values != [0; 128] => Patch::Values,
            Blank::No => Patch::Level,
            Blank::Unknown => Patch::Unknown,
        }
    }

    /// As tables name it.
    pub fn name(self) -> &'static str {
        match self {
            Patch::Values => "values",
            Patch::Level => "level",
            Patch::Blank => "blank",
            Patch::Unknown => "unknown",
        }
    }

    /// What its name means.
    pub fn about(self) -> &'static str {
        match self {
            Patch::Values => "not all zero",
            Patch::Level => "read, all zero",
            Patch::Blank => "no cell read",
            Patch::Unknown => "all zero, level or blank: edition 1 can't say which",
        }
    }
}

/// How many there are of each that has 128 zeros, in words; none where all have values.
pub fn zeros(patches: impl IntoIterator<Item = Patch>) -> Option<String> {
    let all: Vec<Patch> = patches.into_iter().collect();
    let each = Patch::ALL[1..].iter().filter_map(|p| {
        let many = all.iter().filter(|a| *a == p).count();
        (many > 0).then(|| format!("{many} {} ({})", p.name(), p.about()))
    });
    let words = each.collect::<Vec<_>>().join(", ");
    (!words.is_empty()).then_some(words)
}

#[cfg(test)]
mod tests {
    use super::*;

    fn record(value: u8, blank: Blank) -> Record {
        let mut r = Record::from_words(&[0; Record::WORDS]);
        r.values[77] = value;
        r.blank = blank;
        r
    }

    #[test]
    fn four_things() {
        assert_eq!(Patch::of(&record(1, Blank::No)), Patch::Values);
        assert_eq!(Patch::of(&record(0, Blank::No)), Patch::Level);
        assert_eq!(Patch::of(&record(0, Blank::Yes)), Patch::Blank);
        assert_eq!(Patch::of(&record(0, Blank::Unknown)), Patch::Unknown);
    }

    #[test]
    fn those_with_zeros_are_counted() {
        use Patch::*;
        assert_eq!(zeros([]), None);
        assert_eq!(zeros([Values, Values]), None);
        assert_eq!(
            zeros([Blank, Values, Level, Blank]).unwrap(),
            "1 level (read, all zero), 2 blank (no cell read)"
        );
        assert_eq!(
            zeros([Unknown]).unwrap(),
            "1 unknown (all zero, level or blank: edition 1 can't say which)"
        );
    }
}
