//! Whole sheets held to what the rules give of their frame. The library checks the records of one octave; here a sheet is cut by its
//! octaves, each cut is a sheet of its own, and the first difference is told in the numbers of the whole. One octave's planes are held
//! at a time.

use crate::Trouble;
use crate::describe::records;
use crate::difference::{Difference, name, value};
use crate::find::{self, Wanted};
use crate::pgm::Frame;
use crate::progress::Progress;
use crate::pyramid::{Octave, sides};
use crate::table::Mark;
use bargeclover::{HeaderField, Record, Sheet, Verdict, check_sheet, write_sheet};

/// What came of a check.
pub struct Checked {
    /// How many octaves the frame has.
    pub octaves: usize,
    /// Of each sheet its first difference, if it has one.
    pub differences: Vec<Option<Difference>>,
}

/// Sheets of one frame, each of all its octaves.
pub fn check(
    frame: &Frame,
    wanted: &Wanted,
    sheets: &[&Sheet],
    progress: &mut Progress,
) -> Result<Checked, Trouble> {
    find::accepted(frame, wanted)?;
    let before = |s: &&Sheet| header(s, frame, wanted).or_else(|| order(s));
    let mut differences: Vec<_> = sheets.iter().map(before).collect();
    // no planes are made for sheets of which all is told
    if differences.contains(&None) {
        find::octaves(frame, wanted, progress, |octave, at, progress| {
            for (sheet, told) in sheets.iter().zip(&mut differences) {
                if told.is_none() {
                    progress.say(|| format!("{at}: checking"));
                    *told = in_octave(sheet, &octave, frame, wanted)?;
                }
            }
            Ok(())
        })?;
    }
    let octaves = sides(frame.width, frame.height, wanted.double).len();
    for (sheet, told) in sheets.iter().zip(&mut differences) {
        if told.is_none() {
            *told = beyond(sheet, octaves);
        }
    }
    Ok(Checked {
        octaves,
        differences,
    })
}

/// The header beside the frame and the settings. The library asks the same of each cut; a frame too small for an octave has none.
fn header(sheet: &Sheet, frame: &Frame, wanted: &Wanted) -> Option<Difference> {
    let (width, height) = find::size(frame, wanted.double);
    let size = (sheet.width, sheet.height);
    let fields = [
        (HeaderField::Width, size.0, width),
        (HeaderField::Height, size.1, height),
        (HeaderField::Layers, sheet.layers, wanted.settings.layers),
    ];
    let (field, is, wants) = fields.into_iter().find(|(_, is, wants)| is != wants)?;
    Some(Difference::Header {
        field,
        is,
        wanted: wants,
        doubled: wanted.double,
        other_way: size == find::size(frame, !wanted.double),
    })
}

/// The first record behind one of a later octave.
fn order(sheet: &Sheet) -> Option<Difference> {
    let pairs = sheet.records.windows(2);
    let at = pairs.enumerate().find(|(_, p)| p[1].octave < p[0].octave);
    at.map(|(k, p)| Difference::Order {
        record: k + 1,
        mark: Mark::of_record(&p[1]),
        behind: p[0].octave,
    })
}

/// Where the records of an octave begin, in a sheet that has them in order.
fn start(sheet: &Sheet, octave: u32) -> usize {
    sheet.records.partition_point(|r| r.octave < octave)
}

/// The first difference among the records of an octave.
fn in_octave(
    sheet: &Sheet,
    octave: &Octave,
    frame: &Frame,
    wanted: &Wanted,
) -> Result<Option<Difference>, Trouble> {
    let from = start(sheet, octave.number);
    let part = Sheet {
        records: sheet.records[from..start(sheet, octave.number + 1)].into(),
        ..*sheet
    };
    let verdict = write_sheet(&part).and_then(|bytes| {
        let (stack, base) = (octave.stack(), find::size(frame, wanted.double));
        let s = &wanted.settings;
        check_sheet(&stack, &octave.gaussian, octave.number, s, base, &bytes)
    });
    let verdict = verdict.map_err(find::inside)?;
    if verdict == Verdict::Accepted {
        return Ok(None);
    }
    let rules = records(octave, &wanted.settings)?;
    match told(verdict, &part, &rules, from) {
        None => Err(Trouble::Refused(format!(
            "octave {}: {verdict}, and it can't be found; this is a fault of the tool, please report it",
            octave.number
        ))),
        some => Ok(some),
    }
}

/// The library's verdict on a part of a sheet, with what the rules give there; the part begins at a number of the whole.
fn told(verdict: Verdict, part: &Sheet, rules: &[Record], from: usize) -> Option<Difference> {
    match verdict {
        // both were looked at before
        Verdict::Accepted | Verdict::Header(_) => None,
        Verdict::Record { record, field } => {
            let (is, wants) = (part.records.get(record)?, rules.get(record)?);
            let same = rules.iter().position(|r| same(part.edition, r, is));
            Some(Difference::Field {
                record: from + record,
                mark: Mark::of_record(is),
                name: name(field),
                is: value(is, field),
                rules: value(wants, field),
                same: same.map(|k| from + k),
            })
        }
        Verdict::Missing { from: k } => {
            let rest = rules.get(k..)?;
            Some(Difference::Missing {
                from: from + k,
                more: rest.len(),
                mark: Mark::of_record(rest.first()?),
            })
        }
        Verdict::LeftOver { from: k } => Some(Difference::LeftOver {
            from: from + k,
            mark: Mark::of_record(part.records.get(k)?),
            no_octave: false,
        }),
    }
}

/// Whether two records are the same on a sheet: edition 1 leaves out the last word, whether one is blank.
fn same(edition: u32, a: &Record, b: &Record) -> bool {
    let words = Record::WORDS - usize::from(edition == 1);
    a.to_words()[..words] == b.to_words()[..words]
}

/// Records of octaves that the frame does not have.
fn beyond(sheet: &Sheet, octaves: usize) -> Option<Difference> {
    let from = start(sheet, octaves as u32);
    let first = sheet.records.get(from)?;
    Some(Difference::LeftOver {
        from,
        mark: Mark::of_record(first),
        no_octave: true,
    })
}

#[cfg(test)]
mod tests {
    use super::*;
    use bargeclover::{Blank, Field};

    fn record(octave: u32, row: u32) -> Record {
        Record {
            row,
            octave,
            layer: 1,
            size: 4.0,
            ..Record::from_words(&[0; Record::WORDS])
        }
    }

    fn sheet(edition: u32, records: &[Record]) -> Sheet {
        Sheet {
            edition,
            width: 64,
            height: 48,
            layers: 3,
            records: records.into(),
        }
    }

    fn said(verdict: Verdict, part: &Sheet, rules: &[Record], from: usize) -> String {
        told(verdict, part, rules, from).unwrap().words()
    }

    /// No frame that is searched has a blank record, so that the words for it are tried here.
    #[test]
    fn a_blank_bit_differs() {
        let level = record(2, 7);
        let blank = Record {
            blank: Blank::Yes,
            ..level
        };
        let verdict = Verdict::Record {
            record: 0,
            field: Field::Blank,
        };
        assert_eq!(
            said(verdict, &sheet(2, &[level]), &[blank], 17),
            "record 17: blank is 0, the rules give 1"
        );
        assert_eq!(
            said(verdict, &sheet(2, &[blank]), &[level], 0),
            "record 0: blank is 1, the rules give 0"
        );
    }

    /// Beside what can't be there nothing panics.
    #[test]
    fn a_verdict_without_its_record_is_none() {
        let part = sheet(2, &[record(0, 1)]);
        for verdict in [
            Verdict::Accepted,
            Verdict::Header(HeaderField::Width),
            Verdict::Missing { from: 1 },
            Verdict::Missing { from: usize::MAX },
            Verdict::LeftOver { from: 1 },
            Verdict::Record {
                record: 1,
                field: Field::Row,
            },
        ] {
            assert_eq!(told(verdict, &part, &[record(0, 1)], 0), None);
        }
    }

    #[test]
    fn the_rules_may_have_a_record_elsewhere() {
        let rules = [1, 2, 3].map(|row| record(1, row));
        let verdict = Verdict::Record {
            record: 1,
            field: Field::Row,
        };
        let same = |edition, is: Record| {
            let part = sheet(edition, &[rules[0], is]);
            match told(verdict, &part, &rules, 10) {
                Some(Difference::Field { same, .. }) => same,
                other => panic!("{other:?}"),
            }
        };
        assert_eq!(same(2, rules[2]), Some(12));
        assert_eq!(same(2, record(1, 4)), None);
        // edition 1 does not say whether a record of zeros is blank
        let unknown = Record {
            blank: Blank::Unknown,
            ..rules[2]
        };
        assert_eq!(same(1, unknown), Some(12));
        assert_eq!(same(2, unknown), None);
    }

    #[test]
    fn octaves_come_in_order() {
        let of = |octaves: &[u32]| {
            let records: Vec<Record> = octaves.iter().map(|o| record(*o, 1)).collect();
            sheet(2, &records)
        };
        assert_eq!(order(&of(&[])), None);
        assert_eq!(order(&of(&[0, 0, 2, 5])), None);
        let told = order(&of(&[0, 2, 1, 0])).unwrap();
        assert_eq!(
            told.words(),
            "record 2: octave is 1, behind a record of octave 2"
        );
        assert_eq!(beyond(&of(&[0, 1, 1]), 2), None);
        assert_eq!(
            beyond(&of(&[0, 2, 5]), 2).unwrap().words(),
            "records are left over from 1 on: the frame has no octave 2"
        );
    }
}
