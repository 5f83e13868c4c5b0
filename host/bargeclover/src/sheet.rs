//! The sheet of keypoints: records made, and bytes and back.

use crate::{Descriptor, Keypoint, Oriented, Refusal, entries};

/// Whether no cell was read for a record's descriptor.
#[derive(Clone, Copy, Debug, PartialEq, Eq)]
pub enum Blank {
    /// Cells were read; where all values are zero the patch is flat.
    No,
    /// No cell was read, and all values are zero.
    Yes,
    /// A sheet of edition 1 does not say it of values that are all zero.
    Unknown,
}

impl Blank {
    /// Every word above 1 is unknown.
    pub fn from_word(word: u32) -> Blank {
        match word {
            0 => Blank::No,
            1 => Blank::Yes,
            _ => Blank::Unknown,
        }
    }

    pub fn to_word(self) -> u32 {
        match self {
            Blank::No => 0,
            Blank::Yes => 1,
            Blank::Unknown => 2,
        }
    }
}

/// A record of a sheet.
#[derive(Clone, Copy, Debug, PartialEq)]
pub struct Record {
    /// The cell.
    pub row: u32,
    pub column: u32,
    pub octave: u32,
    pub layer: u32,
    /// The third byte of the octave word.
    pub code: u32,
    pub x: f32,
    pub y: f32,
    pub size: f32,
    pub response: f32,
    /// In degrees.
    pub angle: f32,
    /// The descriptor.
    pub values: [u8; 128],
    pub blank: Blank,
}

impl Record {
    /// The words of a record as it is made and read. The writer takes one less for edition 1, which has no blank word.
    pub const WORDS: usize = 139;

    pub fn from_words(w: &[u32; Record::WORDS]) -> Record {
        let mut values = [0; 128];
        for (v, w) in values.iter_mut().zip(&w[10..138]) {
            *v = *w as u8;
        }
        Record {
            row: w[0],
            column: w[1],
            octave: w[2],
            layer: w[3],
            code: w[4],
            x: f32::from_bits(w[5]),
            y: f32::from_bits(w[6]),
            size: f32::from_bits(w[7]),
            response: f32::from_bits(w[8]),
            angle: f32::from_bits(w[9]),
            values,
            blank: Blank::from_word(w[138]),
        }
    }

    pub fn to_words(&self) -> [u32; Record::WORDS] {
        let mut w = [0; Record::WORDS];
        w[..5].copy_from_slice(&[self.row, self.column, self.octave, self.layer, self.code]);
        let floats = [self.x, self.y, self.size, self.response, self.angle];
        w[5..10].copy_from_slice(&floats.map(f32::to_bits));
        for (w, v) in w[10..138].iter_mut().zip(&self.values) {
            *w = u32::from(*v);
        }
        w[138] = self.blank.to_word();
        w
    }
}

/// The record of a keypoint with one of its directions and the descriptor there. It is blank exactly where the descriptor used no
/// sample. Refused with 5: the two are not one keypoint, a field breaks a rule of the sheet, or the descriptor is none of this library's.
pub fn make_record(
    keypoint: &Keypoint,
    oriented: &Oriented,
    descriptor: &Descriptor,
) -> Result<Record, Refusal> {
    let mut words = [0; Record::WORDS];
    let number = entries::make_record(
        &keypoint.to_words(),
        &oriented.to_words(),
        &descriptor.values,
        descriptor.samples,
        &mut words,
    );
    Refusal::from_answer(number, words.len())?;
    Ok(Record::from_words(&words))
}

/// A sheet: its edition, the frame's width and height in octave 0, its layers, and its records.
#[derive(Clone, Debug, PartialEq)]
pub struct Sheet {
    /// 1 or 2.
    pub edition: u32,
    pub width: usize,
    pub height: usize,
    pub layers: usize,
    pub records: Vec<Record>,
}

/// The bytes of a sheet. Refused with 1, 2, 4 or 5; an unknown blank is refused in edition 2, and edition 1 leaves all blanks out.
pub fn write_sheet(sheet: &Sheet) -> Result<Vec<u8>, Refusal> {
    let taken = match sheet.edition {
        1 => Record::WORDS - 1,
        _ => Record::WORDS,
    };
    let mut words = Vec::with_capacity(taken * sheet.records.len());
    for record in &sheet.records {
        words.extend_from_slice(&record.to_words()[..taken]);
    }
    let mut bytes = vec![0; 8 + 154 * sheet.records.len()];
    let (number, count) = entries::write_sheet(
        sheet.edition,
        sheet.width,
        sheet.height,
        sheet.layers,
        &words,
        &mut bytes,
    );
    Refusal::from_answer(number, count)?;
    Ok(bytes)
}

/// What a sheet's bytes say, of edition 1 or 2. Refused with 8.
pub fn read_sheet(bytes: &[u8]) -> Result<Sheet, Refusal> {
    let mut words = vec![0; bytes.len() / 154 * Record::WORDS];
    let (number, count, edition, [width, height, layers]) = entries::read_sheet(bytes, &mut words);
    Refusal::from_answer(number, count)?;
    let (all, _) = words.as_chunks();
    Ok(Sheet {
        edition,
        width,
        height,
        layers,
        records: all[..count].iter().map(Record::from_words).collect(),
    })
}
