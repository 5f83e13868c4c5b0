//! The sheet's writer and reader, against the sheet rendered a second time.

use crate::report::Report;
use bargeclover::entries;
use cases::Rng;
use cases::sheet::{self, Case, Reason, accepted, damage, damage_sheet, reading, written};

const BEFORE: u8 = 0xa5;
const BEFORE_WORD: u32 = 0xa5a5_a5a5;

fn write_refused(reason: Reason) -> String {
    format!("write_sheet refused with {}: {reason:?}", reason.number())
}

fn read_refused(reason: Reason) -> String {
    format!("read_sheet refused with 8: {reason:?}")
}

/// The editions that the writer is handed and a header can have; all above are one kind.
const EDITIONS: u32 = 16;

fn write_edition(edition: u32) -> String {
    match edition {
        0..EDITIONS => format!("write_sheet for edition {edition}"),
        _ => "write_sheet for a large edition".to_string(),
    }
}

fn read_edition(edition: u8) -> String {
    format!("read_sheet of edition {edition}")
}

fn blank_read(edition: u32, word: u32) -> String {
    format!("record of edition {edition} read with blank word {word}")
}

/// The blank words that the writer is handed.
const BLANKS: [u32; 4] = [0, 1, 2, u32::MAX];

fn blank_written(word: u32) -> String {
    if BLANKS.contains(&word) {
        format!("record of edition 2 written with blank word {word}")
    } else {
        "record of edition 2 written with another blank word".to_string()
    }
}

/// The six bits behind a record's code, counted from 1 in the record. All of them are zero bits in edition 1, all but the first in
/// edition 2.
fn zero_bit(edition: u8, bit: u32) -> String {
    format!("bit {bit} of a record set in edition {edition}")
}

fn zero_bits(r: &mut Report, bytes: &[u8]) {
    let (edition, records) = (bytes[0] >> 4, &bytes[sheet::HEADER..]);
    for record in records.chunks(sheet::RECORD) {
        for bit in (43..=48).filter(|bit| record[5] >> (48 - bit) & 1 == 1) {
            r.tried(zero_bit(edition, bit));
        }
    }
}

/// A bad layer is not looked at where the edition is not known, nor in a part of a record.
const UNCUT: &str = "write_sheet for an unknown edition beside layer 0";
const IN_A_PART: &str = "write_sheet of a part of a record with layer 0";

fn odd_layers(r: &mut Report, c: &Case) {
    let last = match c.words_each() {
        Some(each) => c.words.len() / each * each,
        None => 0,
    };
    if c.words.get(last + 3) == Some(&0) {
        match sheet::write_reason(c) {
            Some(Reason::Edition) => r.tried(UNCUT),
            Some(Reason::Part) => r.tried(IN_A_PART),
            _ => {}
        }
    }
}

fn hold_writer(r: &mut Report, c: &Case, room: usize) {
    let mut theirs = vec![BEFORE; room];
    let reason = sheet::write_reason(c);
    let expected = match reason {
        None => {
            let bytes = written(c);
            if bytes.len() > room {
                (7, bytes.len())
            } else {
                theirs[..bytes.len()].copy_from_slice(&bytes);
                (0, bytes.len())
            }
        }
        Some(reason) => (reason.number(), 0),
    };
    let mut ours = vec![BEFORE; room];
    let answer = entries::write_sheet(c.edition, c.width, c.height, c.layers, &c.words, &mut ours);
    let about = || format!("{c:?}, room {room}");
    if r.same("write_sheet", &answer, &expected, about) {
        r.same("bytes of write_sheet", &ours, &theirs, about);
    }
    r.tried(format!("write_sheet answered {}", expected.0));
    r.tried(write_edition(c.edition));
    if c.edition == 2 {
        for record in c.records() {
            r.tried(blank_written(record[sheet::WORDS]));
        }
    }
    if let Some(reason) = reason {
        r.tried(write_refused(reason));
        odd_layers(r, c);
    }
}

fn hold_reader(r: &mut Report, bytes: &[u8], room: usize) {
    let mut theirs = vec![BEFORE_WORD; room];
    let read = reading(bytes);
    let expected = match &read {
        Err(_) => (8, 0, 0, [0, 0, 0]),
        Ok((c, records)) => {
            let words = records.as_flattened();
            if words.len() > room {
                (7, records.len(), 0, [0, 0, 0])
            } else {
                theirs[..words.len()].copy_from_slice(words);
                let frame = [c.width, c.height, c.layers];
                (0, records.len(), c.edition, frame)
            }
        }
    };
    let mut ours = vec![BEFORE_WORD; room];
    let answer = entries::read_sheet(bytes, &mut ours);
    let about = || format!("{bytes:?}, room {room}");
    if r.same("read_sheet", &answer, &expected, about) {
        r.same("words of read_sheet", &ours, &theirs, about);
    }
    r.tried(format!("read_sheet answered {}", expected.0));
    if bytes.len() >= sheet::HEADER {
        r.tried(read_edition(bytes[0] >> 4));
    }
    match read {
        Err(reason) => {
            r.tried(read_refused(reason));
            if reason == Reason::Zeros {
                zero_bits(r, bytes);
            }
        }
        Ok((c, records)) => {
            for record in &records {
                r.tried(blank_read(c.edition, record[sheet::WORDS]));
            }
        }
    }
}

/// `many` sheets of up to 6 records, written and read, whole, damaged and short of room.
pub fn sheets(rng: &mut Rng, many: u64, r: &mut Report) {
    for _ in 0..many {
        let mut c = accepted(rng, 6);
        let mut bytes = written(&c);
        let need = bytes.len();
        let room = rng.pick(&[need, need + 5, need - 1, 0]);
        hold_writer(r, &c, room);
        let words = (need - sheet::HEADER) / sheet::RECORD * sheet::READ_WORDS;
        let room = rng.pick(&[words, words + 5, words.saturating_sub(1), 0]);
        hold_reader(r, &bytes, room);
        damage(rng, &mut c);
        if rng.one_in(3) {
            damage(rng, &mut c);
        }
        // a refusal before that of the room as a rule
        let room = if rng.one_in(4) { 0 } else { need + 400 };
        hold_writer(r, &c, room);
        damage_sheet(rng, &mut bytes);
        if rng.one_in(3) {
            damage_sheet(rng, &mut bytes);
        }
        let room = if rng.one_in(4) { 0 } else { words + 300 };
        hold_reader(r, &bytes, room);
    }
}

/// What a run of some length has to have met, and how often at least: each number, reason, edition, blank word and zero bit
/// once in 1,000 sheets.
pub fn due(many: u64) -> Vec<(String, u64)> {
    let mut all = Vec::new();
    all.extend([0, 1, 2, 4, 5, 7].map(|n| format!("write_sheet answered {n}")));
    all.extend([0, 7, 8].map(|n| format!("read_sheet answered {n}")));
    all.extend(Reason::WRITER.map(write_refused));
    all.extend(Reason::READER.map(read_refused));
    all.extend((0..=EDITIONS).map(write_edition));
    all.extend((0..EDITIONS as u8).map(read_edition));
    all.extend([(1, 0), (1, 2), (2, 0), (2, 1)].map(|(e, b)| blank_read(e, b)));
    all.extend(BLANKS.map(blank_written));
    all.extend((43..=48).map(|bit| zero_bit(1, bit)));
    all.extend((44..=48).map(|bit| zero_bit(2, bit)));
    all.extend([UNCUT, IN_A_PART].map(str::to_string));
    all.into_iter().map(|what| (what, many / 1000)).collect()
}
