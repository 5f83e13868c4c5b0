//! The sheet (rules S1 to S10) a second time, bit by bit, in both editions, and sheets and records, whole and damaged. The published
//! Rust has no sheet, so this is what the library's reader and writer are held to.

use crate::Rng;

/// The words of a record as the writer of edition 1 takes them; edition 2 and the reader have one more, the blank word.
pub const WORDS: usize = 138;
pub const READ_WORDS: usize = WORDS + 1;
pub const HEADER: usize = 8;
pub const RECORD: usize = 154;
const MOST: usize = 1_048_575;
/// Where in a record the byte of the blank bit stands, and that bit.
const BLANK_AT: usize = 5;
const BLANK_BIT: u8 = 0x20;
/// Where in a record the values begin.
const VALUES_AT: usize = 26;

/// What the writer is handed: edition, width, height, layers and words, of which the last may be a part of a record.
#[derive(Clone, Debug)]
pub struct Case {
    pub edition: u32,
    pub width: usize,
    pub height: usize,
    pub layers: usize,
    pub words: Vec<u32>,
}

impl Case {
    /// The words that a record of its edition has; none where the edition is not known.
    pub fn words_each(&self) -> Option<usize> {
        match self.edition {
            1 => Some(WORDS),
            2 => Some(READ_WORDS),
            _ => None,
        }
    }

    /// Its whole records; none where the edition is not known.
    pub fn records(&self) -> Vec<&[u32]> {
        match self.words_each() {
            Some(each) => self.words.chunks_exact(each).collect(),
            None => Vec::new(),
        }
    }
}

/// Bits, most significant first.
#[derive(Default)]
struct Bits(Vec<bool>);

impl Bits {
    fn put(&mut self, wide: u32, value: u64) {
        for k in (0..wide).rev() {
            self.0.push(value >> k & 1 == 1);
        }
    }

    fn bytes(&self) -> Vec<u8> {
        let (bytes, []) = self.0.as_chunks::<8>() else {
            panic!("not whole bytes");
        };
        bytes
            .iter()
            .map(|b| b.iter().fold(0, |n, &bit| n << 1 | u8::from(bit)))
            .collect()
    }
}

/// Takes bits off the front.
struct Taken<'a> {
    bytes: &'a [u8],
    at: usize,
}

impl Taken<'_> {
    fn take(&mut self, wide: u32) -> u64 {
        let mut n = 0;
        for _ in 0..wide {
            let bit = self.bytes[self.at / 8] >> (7 - self.at % 8) & 1;
            n = n << 1 | u64::from(bit);
            self.at += 1;
        }
        n
    }
}

/// Why words or bytes are refused before the room is looked at; where several hold, the first that is looked for here.
#[derive(Clone, Copy, Debug, PartialEq, Eq)]
pub enum Reason {
    /// Of the writer: a side of the frame.
    Width,
    Height,
    /// The layers of the frame.
    Layers,
    /// The layer of a record.
    Layer,
    Edition,
    /// Of the writer: a part of a record. Of the reader: fewer bytes than a header, or another length than the count's.
    Part,
    Short,
    Length,
    /// Of the writer: more records than a sheet holds. It takes 579 MB of words, and a test of the wrapper tries it.
    Many,
    Row,
    Column,
    Octave,
    Code,
    /// x, y or the response.
    Float,
    Size,
    Angle,
    Value,
    /// Of the writer: a blank word above 1.
    BlankWord,
    /// A blank record with a value that is not 0.
    BlankValue,
    /// Of the reader: the zero bits of the header, and those of a record.
    Spare,
    Zeros,
}

impl Reason {
    /// What the writer can be tried with.
    pub const WRITER: [Reason; 16] = [
        Reason::Width,
        Reason::Height,
        Reason::Layers,
        Reason::Layer,
        Reason::Edition,
        Reason::Part,
        Reason::Row,
        Reason::Column,
        Reason::Octave,
        Reason::Code,
        Reason::Float,
        Reason::Size,
        Reason::Angle,
        Reason::Value,
        Reason::BlankWord,
        Reason::BlankValue,
    ];

    /// What the reader can be tried with: an octave, a code or a value that is too large has no bits.
    pub const READER: [Reason; 13] = [
        Reason::Short,
        Reason::Edition,
        Reason::Layers,
        Reason::Spare,
        Reason::Length,
        Reason::Zeros,
        Reason::Layer,
        Reason::Row,
        Reason::Column,
        Reason::Float,
        Reason::Size,
        Reason::Angle,
        Reason::BlankValue,
    ];

    /// The number that the writer gives for it.
    pub fn number(self) -> u32 {
        match self {
            Reason::Width | Reason::Height => 1,
            Reason::Layers | Reason::Layer => 2,
            Reason::Edition => 4,
            _ => 5,
        }
    }
}

fn first(lines: &[(Reason, bool)]) -> Option<Reason> {
    lines.iter().find(|l| l.1).map(|l| l.0)
}

/// Rules S3 and S5 of a record of 138 or 139 words, but for the layer, which is not looked at.
fn wrong(width: usize, height: usize, r: &[u32]) -> Option<Reason> {
    let float = |b: u32| f32::from_bits(b);
    let negative = |b: u32| b >> 31 == 1 || !float(b).is_finite();
    let (values, blank) = r[10..].split_at(128);
    first(&[
        (Reason::Row, r[0] as usize >= height),
        (Reason::Column, r[1] as usize >= width),
        (Reason::Octave, r[2] > 15),
        (Reason::Code, r[4] > 255),
        (Reason::Float, [5, 6, 8].iter().any(|&k| negative(r[k]))),
        (Reason::Size, negative(r[7]) || float(r[7]) == 0.0),
        (Reason::Angle, negative(r[9]) || float(r[9]) >= 360.0),
        (Reason::Value, values.iter().any(|&v| v > 255)),
        (Reason::BlankWord, blank.iter().any(|&b| b > 1)),
        (
            Reason::BlankValue,
            blank == [1] && values.iter().any(|&v| v != 0),
        ),
    ])
}

fn layer_wrong(layers: usize, r: &[u32]) -> bool {
    r[3] == 0 || r[3] as usize > layers
}

/// Why the writer refuses before it looks at its room; none where it does not.
pub fn write_reason(c: &Case) -> Option<Reason> {
    let side = |n: usize| n == 0 || n > 8192;
    let records = c.records();
    let each = c.words_each();
    let lines = [
        (Reason::Width, side(c.width)),
        (Reason::Height, side(c.height)),
        (Reason::Layers, c.layers == 0 || c.layers > 15),
        // where the edition is not known there are no records to look at
        (
            Reason::Layer,
            records.iter().any(|r| layer_wrong(c.layers, r)),
        ),
        (Reason::Edition, each.is_none()),
        (
            Reason::Part,
            each.is_some_and(|n| !c.words.len().is_multiple_of(n)),
        ),
        (Reason::Many, records.len() > MOST),
    ];
    first(&lines).or_else(|| records.iter().find_map(|r| wrong(c.width, c.height, r)))
}

/// The bytes of an accepted case.
pub fn written(c: &Case) -> Vec<u8> {
    let records = c.records();
    let mut b = Bits::default();
    b.put(4, c.edition.into());
    b.put(13, c.width as u64 - 1);
    b.put(13, c.height as u64 - 1);
    b.put(4, c.layers as u64);
    b.put(20, records.len() as u64);
    b.put(10, 0);
    for r in records {
        for (wide, k) in [(13, 0), (13, 1), (4, 2), (4, 3), (8, 4)] {
            b.put(wide, r[k].into());
        }
        match c.edition {
            1 => b.put(6, 0),
            _ => {
                b.put(1, r[WORDS].into());
                b.put(5, 0);
            }
        }
        for float in &r[5..10] {
            b.put(32, u64::from(*float));
        }
        for value in &r[10..WORDS] {
            b.put(8, u64::from(*value));
        }
    }
    b.bytes()
}

/// What a sheet says: the case that makes it, and the words that the reader gives. Or why it is none.
pub fn reading(sheet: &[u8]) -> Result<(Case, Vec<[u32; READ_WORDS]>), Reason> {
    if sheet.len() < HEADER {
        return Err(Reason::Short);
    }
    let mut t = Taken {
        bytes: sheet,
        at: 0,
    };
    let [edition, wide, high, layers, count, spare] = [4, 13, 13, 4, 20, 10].map(|w| t.take(w));
    let mut case = Case {
        edition: edition as u32,
        width: wide as usize + 1,
        height: high as usize + 1,
        layers: layers as usize,
        words: Vec::new(),
    };
    let lines = [
        (Reason::Edition, case.words_each().is_none()),
        (Reason::Layers, layers == 0),
        (Reason::Spare, spare != 0),
        (
            Reason::Length,
            sheet.len() != HEADER + RECORD * count as usize,
        ),
    ];
    if let Some(reason) = first(&lines) {
        return Err(reason);
    }
    let mut all = Vec::new();
    for _ in 0..count {
        let mut r = [0; READ_WORDS];
        for (k, wide) in [13, 13, 4, 4, 8].into_iter().enumerate() {
            r[k] = t.take(wide) as u32;
        }
        let zeros = match case.edition {
            1 => t.take(6),
            _ => {
                r[WORDS] = t.take(1) as u32;
                t.take(5)
            }
        };
        for float in &mut r[5..10] {
            *float = t.take(32) as u32;
        }
        for value in &mut r[10..WORDS] {
            *value = t.take(8) as u32;
        }
        let taken = match case.edition {
            1 => &r[..WORDS],
            _ => &r[..],
        };
        let lines = [
            (Reason::Zeros, zeros != 0),
            (Reason::Layer, layer_wrong(case.layers, taken)),
        ];
        if let Some(reason) = first(&lines).or_else(|| wrong(case.width, case.height, taken)) {
            return Err(reason);
        }
        case.words.extend(taken);
        if case.edition == 1 && r[10..WORDS] == [0; 128] {
            r[WORDS] = 2;
        }
        all.push(r);
    }
    Ok((case, all))
}

/// What a sound sheet says; none for one that breaks a rule.
pub fn read(sheet: &[u8]) -> Option<(Case, Vec<[u32; READ_WORDS]>)> {
    reading(sheet).ok()
}

/// The bits of a float that a record may have, but for a size of 0: the ends, any, and most often a place in a frame.
pub(crate) fn float(r: &mut Rng) -> u32 {
    match r.below(6) {
        0 => 0,
        1 => 1,
        2 => 0x7f7f_ffff,
        3 => r.below(0x7f80_0000) as u32,
        _ => ((r.unit() * 8192.0) as f32).to_bits(),
    }
}

fn record(r: &mut Rng, c: &Case) -> [u32; READ_WORDS] {
    let mut w = [0; READ_WORDS];
    let edge = |r: &mut Rng, top: usize| match r.below(4) {
        0 => 0,
        1 => top as u32 - 1,
        _ => r.below(top) as u32,
    };
    w[0] = edge(r, c.height);
    w[1] = edge(r, c.width);
    w[2] = r.below(16) as u32;
    w[3] = r.from_to(1, c.layers) as u32;
    w[4] = r.below(256) as u32;
    for k in [5, 6, 8] {
        w[k] = float(r);
    }
    w[7] = float(r).max(1);
    w[9] = match r.below(4) {
        0 => 0,
        1 => 360f32.next_down().to_bits(),
        _ => ((r.unit() * 359.9) as f32).to_bits(),
    };
    let values = &mut w[10..WORDS];
    match r.below(4) {
        // all zero, or nearly
        0 => {}
        1 => values[r.below(128)] = r.below(2) as u32,
        _ => values.iter_mut().for_each(|v| *v = r.below(256) as u32),
    }
    if w[10..WORDS] == [0; 128] {
        w[WORDS] = r.below(2) as u32;
    }
    w
}

/// An accepted case of either edition, of up to so many records.
pub fn accepted(r: &mut Rng, most: usize) -> Case {
    let side = |r: &mut Rng| match r.below(4) {
        0 => 1,
        1 => 8192,
        _ => r.from_to(1, 8192),
    };
    let mut c = Case {
        edition: r.from_to(1, 2) as u32,
        width: side(r),
        height: side(r),
        layers: r.from_to(1, 15),
        words: Vec::new(),
    };
    let each = c.words_each().unwrap();
    for _ in 0..r.from_to(0, most) {
        let w = record(r, &c);
        c.words.extend(&w[..each]);
    }
    c
}

/// A field of a record is put out of its range.
fn damage_field(r: &mut Rng, [height, width, layers]: [usize; 3], w: &mut [u32]) {
    let k = r.pick(&[0, 1, 2, 3, 4, 5, 6, 7, 8, 9, 10, 137]);
    w[k] = match k {
        0 => height as u32,
        1 => width as u32,
        2 => 16,
        3 => r.pick(&[0, layers as u32 + 1, u32::MAX]),
        4 | 10 | 137 => r.pick(&[256, u32::MAX]),
        9 => r.pick(&[360f32.to_bits(), 0x8000_0000, 0x7fc0_0000, 0xbf80_0000]),
        7 => r.pick(&[0, 0x8000_0000, 0x7f80_0000]),
        _ => r.pick(&[
            0x8000_0000,
            0x7f80_0000,
            0x7f80_0001,
            0xffff_ffff,
            0xff80_0000,
        ]),
    };
}

/// The blank word of a record is another, beside values that are all zero, or not, or all but one.
fn damage_blank(r: &mut Rng, w: &mut [u32]) {
    w[WORDS] = r.pick(&[0, 1, 1, 1, 2, 3, u32::MAX]);
    match r.below(3) {
        0 => w[10..WORDS].fill(0),
        1 => {
            w[10..WORDS].fill(0);
            w[10 + r.below(128)] = r.from_to(1, 256) as u32;
        }
        _ => {}
    }
}

/// One thing about the writer's input is changed; it may still be accepted.
pub fn damage(r: &mut Rng, c: &mut Case) {
    let frame = [c.height, c.width, c.layers];
    let each = c.words_each().unwrap_or(READ_WORDS);
    let many = c.words.len() / each;
    let at = each * r.below(many.max(1));
    let one = c.words.get_mut(at..at + each);
    match (r.below(12), one) {
        (0, _) => c.width = r.pick(&[0, 8192, 8193, usize::MAX]),
        (1, _) => c.height = r.pick(&[0, 8192, 8193, usize::MAX]),
        (2, _) => c.layers = r.pick(&[0, 1, 15, 16, usize::MAX]),
        (3, one) => {
            // a whole or a part of a record, whose layer is looked at only in the whole
            if let Some(w) = one
                && r.one_in(2)
            {
                w[3] = 0;
            }
            let cut = r.below(c.words.len() + 1);
            c.words.truncate(cut);
        }
        (4, _) => c.words.push(0),
        (5 | 6, one) => {
            if let Some(w) = one
                && r.one_in(2)
            {
                w[3] = 0;
            }
            c.edition = match r.below(4) {
                0 => r.pick(&[
                    16,
                    17,
                    18,
                    (1 << 16) + 1,
                    1 << 28,
                    (1 << 31) + 2,
                    u32::MAX - 1,
                    u32::MAX,
                ]),
                _ => r.below(16) as u32,
            };
        }
        (7 | 8, Some(w)) if w.len() > WORDS => damage_blank(r, w),
        (_, Some(w)) => damage_field(r, frame, w),
        (_, None) => {}
    }
}

/// The layers of a header, or the layer of a record: both have it at the same bits.
fn put_layer(front: &mut [u8], layer: u8) {
    front[3] = front[3] & !3 | layer >> 2;
    front[4] = front[4] & !0xc0 | layer << 6;
}

/// One thing about a sheet is changed; it may still be sound.
pub fn damage_sheet(r: &mut Rng, sheet: &mut Vec<u8>) {
    let (front, bit) = (sheet.len().min(HEADER), 1 << r.below(8));
    let records = sheet.len().saturating_sub(HEADER) / RECORD;
    let at = HEADER + RECORD * r.below(records.max(1));
    let one = sheet.get_mut(at..at + RECORD);
    match (r.below(12), one) {
        (0, _) => {
            sheet.pop();
        }
        (1, _) => sheet.push(r.word() as u8),
        (2, _) => sheet.truncate(r.below(sheet.len() + 1)),
        (3, _) if front > 0 => sheet[r.below(front)] ^= bit,
        (4, _) if front > 0 => sheet[0] = sheet[0] & 15 | (r.below(16) as u8) << 4,
        // a bit of a record's front, of its whole, the blank bit and the zero bits
        (5, Some(w)) => w[r.below(VALUES_AT)] ^= bit,
        (6, Some(w)) => w[r.below(RECORD)] ^= bit,
        (7, Some(w)) => w[BLANK_AT] ^= 1 << r.below(6),
        (8, Some(w)) => {
            // a blank record, which may have a value that is not 0
            w[BLANK_AT] |= BLANK_BIT;
            w[VALUES_AT..].fill(0);
            w[r.from_to(VALUES_AT, RECORD - 1)] = if r.one_in(2) { bit } else { 0 };
        }
        (9, Some(w)) => {
            let at = 6 + 4 * r.below(5);
            let float: u32 = r.pick(&[
                0,
                360f32.to_bits(),
                0x7f80_0000,
                0x7f80_0001,
                0x8000_0000,
                0xbf80_0000,
            ]);
            w[at..at + 4].copy_from_slice(&float.to_be_bytes());
        }
        (10, Some(w)) => put_layer(w, r.pick(&[0, 0, 1, 15])),
        (11, _) if front == HEADER => put_layer(sheet, r.pick(&[0, 0, 1, 15])),
        (_, _) if front > 0 => {
            let long = sheet.len();
            sheet[r.below(long)] ^= bit;
        }
        _ => {}
    }
}
