//! Keypoints and sheets as words: tables, comma-separated lines, and one record in full.

use crate::patch::{self, Patch};
use bargeclover::{Keypoint, Oriented, Record, Sheet};
use std::fmt::Write;

/// What a table and a picture show of a keypoint with a direction.
#[derive(Clone, Copy, Debug, PartialEq)]
pub struct Mark {
    pub row: u32,
    pub column: u32,
    pub octave: u32,
    pub layer: u32,
    pub code: u32,
    pub x: f32,
    pub y: f32,
    pub size: f32,
    pub response: f32,
    pub angle: f32,
    /// What its record tells of its patch; none where it has no descriptor.
    pub patch: Option<Patch>,
}

impl Mark {
    pub fn of_record(r: &Record) -> Mark {
        Mark {
            row: r.row,
            column: r.column,
            octave: r.octave,
            layer: r.layer,
            code: r.code,
            x: r.x,
            y: r.y,
            size: r.size,
            response: r.response,
            angle: r.angle,
            patch: Some(Patch::of(r)),
        }
    }

    /// Of an oriented keypoint that has no descriptor.
    pub fn of_oriented(k: &Keypoint, o: &Oriented) -> Mark {
        let [octave, layer, code, _] = o.octave.to_le_bytes().map(u32::from);
        Mark {
            row: k.row,
            column: k.column,
            octave,
            layer,
            code,
            x: o.x,
            y: o.y,
            size: o.size,
            response: o.response,
            angle: o.angle,
            patch: None,
        }
    }
}

const FIELDS: [&str; 11] = [
    "number", "x", "y", "size", "response", "angle", "octave", "layer", "code", "row", "column",
];

const WIDTHS: [usize; 11] = [7, 10, 10, 9, 10, 9, 8, 7, 6, 7, 8];

/// The head of a table, of records or of keypoints without descriptors.
pub fn head(records: bool) -> String {
    let widths = WIDTHS.iter().zip(FIELDS);
    let s = widths.fold(String::new(), |s, (w, f)| s + &format!("{f:>w$}"));
    if records { s + "  patch" } else { s }
}

/// A line of a table; the numbers are rounded for reading.
pub fn line(number: usize, m: &Mark) -> String {
    let mut s = format!(
        "{number:>7}{:>10.2}{:>10.2}{:>9.2}{:>10.5}{:>9.2}{:>8}{:>7}{:>6}{:>7}{:>8}",
        m.x, m.y, m.size, m.response, m.angle, m.octave, m.layer, m.code, m.row, m.column
    );
    if let Some(patch) = m.patch {
        let _ = write!(s, "  {}", patch.name());
    }
    s
}

/// The head of comma-separated lines, of records with their 128 values or of keypoints without descriptors.
pub fn csv_head(records: bool) -> String {
    let mut s = FIELDS.join(",");
    if records {
        for k in 0..128 {
            let _ = write!(s, ",v{k}");
        }
        s += ",patch";
    }
    s
}

/// A comma-separated line; each number is written so that it reads back to the same bits.
pub fn csv_line(number: usize, m: &Mark) -> String {
    format!(
        "{number},{},{},{},{},{},{},{},{},{},{}",
        m.x, m.y, m.size, m.response, m.angle, m.octave, m.layer, m.code, m.row, m.column
    )
}

/// The comma-separated line of a record.
pub fn csv_record(number: usize, r: &Record) -> String {
    let mut s = csv_line(number, &Mark::of_record(r));
    for v in &r.values {
        let _ = write!(s, ",{v}");
    }
    s + "," + Patch::of(r).name()
}

pub fn plural(n: usize, one: &str) -> String {
    if n == 1 {
        format!("1 {one}")
    } else {
        format!("{n} {one}s")
    }
}

/// A sheet in one line.
pub fn summary(sheet: &Sheet) -> String {
    summed_up(sheet, "")
}

/// The same, of a sheet of which so many octaves were checked.
pub fn summary_in(sheet: &Sheet, octaves: usize) -> String {
    summed_up(sheet, &format!(" in {}", plural(octaves, "octave")))
}

fn summed_up(sheet: &Sheet, behind: &str) -> String {
    let mut s = format!(
        "edition {}, {} x {} cells, {}, {}{behind}",
        sheet.edition,
        sheet.width,
        sheet.height,
        plural(sheet.layers, "layer"),
        plural(sheet.records.len(), "record")
    );
    if let Some(zeros) = patch::zeros(sheet.records.iter().map(Patch::of)) {
        let _ = write!(s, ", of them {zeros}");
    }
    s
}

/// One record in full, its 128 values as 4 rows of 4 cells of 8 directions.
pub fn full(number: usize, r: &Record) -> String {
    let mut s = String::new();
    let patch = Patch::of(r);
    let fields: [(&str, String); 11] = [
        ("x", r.x.to_string()),
        ("y", r.y.to_string()),
        ("size", r.size.to_string()),
        ("response", r.response.to_string()),
        ("angle", r.angle.to_string()),
        ("octave", r.octave.to_string()),
        ("layer", r.layer.to_string()),
        ("code", r.code.to_string()),
        ("row", r.row.to_string()),
        ("column", r.column.to_string()),
        ("patch", format!("{} ({})", patch.name(), patch.about())),
    ];
    let _ = writeln!(s, "record {number}");
    for (name, value) in fields {
        let _ = writeln!(s, "  {name:<9} {value}");
    }
    let _ = writeln!(s, "  values, a line for each row of cells");
    for row in r.values.chunks(32) {
        let cells = row.chunks(8).map(|cell| {
            let values: Vec<String> = cell.iter().map(|v| format!("{v:>3}")).collect();
            values.join(" ")
        });
        let _ = writeln!(s, "    {}", cells.collect::<Vec<_>>().join("  |  "));
    }
    s
}

#[cfg(test)]
mod tests {
    use super::*;
    use bargeclover::Blank;

    /// One record of each kind, in the order of `Patch::ALL`.
    fn records() -> Vec<Record> {
        let zero = Record {
            row: 1,
            column: 2,
            octave: 3,
            layer: 4,
            code: 5,
            x: 6.0,
            y: 7.0,
            size: 8.0,
            response: 0.5,
            angle: 359.0,
            values: [0; 128],
            blank: Blank::No,
        };
        let with = |blank| Record { blank, ..zero };
        let values = Record {
            values: [9; 128],
            ..zero
        };
        vec![values, zero, with(Blank::Yes), with(Blank::Unknown)]
    }

    #[test]
    fn head_and_line_have_one_width() {
        let m = Mark {
            patch: None,
            ..Mark::of_record(&records()[0])
        };
        assert_eq!(head(false).len(), line(3, &m).len());
        assert_eq!(csv_head(false).split(',').count(), 11);
        assert_eq!(csv_line(3, &m).split(',').count(), 11);
        for r in records() {
            let fields = csv_head(true).split(',').count();
            assert_eq!(csv_record(3, &r).split(',').count(), fields);
            assert!(csv_record(3, &r).starts_with(&csv_line(3, &m)));
        }
    }

    #[test]
    fn four_things_are_told_apart() {
        let names = ["values", "level", "blank", "unknown"];
        assert!(head(true).ends_with("  column  patch") && csv_head(true).ends_with(",v127,patch"));
        for (r, name) in records().iter().zip(names) {
            let shown = line(0, &Mark::of_record(r));
            assert_eq!(shown.split_whitespace().last(), Some(name));
            assert_eq!(csv_record(0, r).rsplit(',').next(), Some(name));
            assert!(full(0, r).contains(&format!("\n  patch     {name} (")));
        }
    }

    #[test]
    fn a_summary_counts_what_has_zeros() {
        let of = |edition, records: &[Record]| {
            summary(&Sheet {
                edition,
                width: 9,
                height: 8,
                layers: 1,
                records: records.into(),
            })
        };
        let all = records();
        assert_eq!(
            of(2, &all[..1]),
            "edition 2, 9 x 8 cells, 1 layer, 1 record"
        );
        assert_eq!(
            of(2, &all[..3]),
            "edition 2, 9 x 8 cells, 1 layer, 3 records, of them 1 level (read, all zero), 1 blank (no cell read)"
        );
        assert_eq!(
            of(1, &[all[0], all[3], all[3]]),
            "edition 1, 9 x 8 cells, 1 layer, 3 records, of them 2 unknown (all zero, level or blank: edition 1 can't say which)"
        );
    }
}
