//! The sheet through the wrapper: there and back in both editions, and what is refused.

use bargeclover::{Blank, Record, Refusal, Sheet, entries, read_sheet, write_sheet};

fn record() -> Record {
    Record {
        row: 3,
        column: 4,
        octave: 1,
        layer: 2,
        code: 128,
        x: 8.5,
        y: 6.25,
        size: 3.2,
        response: 0.1,
        angle: 359.5,
        values: std::array::from_fn(|k| k as u8),
        blank: Blank::No,
    }
}

/// Of 128 zeros.
fn zeros(blank: Blank) -> Record {
    Record {
        values: [0; 128],
        blank,
        ..record()
    }
}

fn sheet(edition: u32, records: Vec<Record>) -> Sheet {
    Sheet {
        edition,
        width: 640,
        height: 480,
        layers: 3,
        records,
    }
}

#[test]
fn there_and_back() {
    let s = sheet(2, vec![record(), zeros(Blank::Yes), zeros(Blank::No)]);
    let bytes = write_sheet(&s).unwrap();
    assert_eq!(bytes.len(), 8 + 3 * 154);
    // the sixth byte of a record holds the lowest two bits of the code and six bits, of which the first is the blank bit
    assert_eq!([0, 1, 2].map(|k| bytes[8 + 154 * k + 5]), [0, 0x20, 0]);
    assert_eq!(read_sheet(&bytes), Ok(s));
    for edition in [1, 2] {
        let none = write_sheet(&sheet(edition, vec![])).unwrap();
        assert_eq!(none.len(), 8);
        assert_eq!(read_sheet(&none), Ok(sheet(edition, vec![])));
    }
}

#[test]
fn edition_1_has_no_blank() {
    let all = [Blank::No, Blank::Yes, Blank::Unknown];
    let bytes = all.map(|b| write_sheet(&sheet(1, vec![record(), zeros(b)])).unwrap());
    assert!(bytes[0] == bytes[1] && bytes[0] == bytes[2]);
    let unknown = sheet(1, vec![record(), zeros(Blank::Unknown)]);
    assert_eq!(read_sheet(&bytes[0]), Ok(unknown));
}

#[test]
fn refusals() {
    for edition in [1, 2] {
        let written = |r: Record| write_sheet(&sheet(edition, vec![r])).unwrap_err();
        let high_layer = Record {
            layer: 4,
            row: 480,
            ..record()
        };
        assert_eq!(written(high_layer), Refusal::Layers);
        let below = Record {
            row: 480,
            ..record()
        };
        assert_eq!(written(below), Refusal::Field);
        let turned = Record {
            angle: 360.0,
            ..record()
        };
        assert_eq!(written(turned), Refusal::Field);
        let mut bytes = write_sheet(&sheet(edition, vec![record()])).unwrap();
        bytes.pop();
        assert_eq!(read_sheet(&bytes), Err(Refusal::Sheet));
    }
    assert_eq!(read_sheet(&[]), Err(Refusal::Sheet));
}

#[test]
fn blanks_that_are_refused() {
    let written = |r: Record| write_sheet(&sheet(2, vec![r]));
    assert_eq!(written(zeros(Blank::Unknown)), Err(Refusal::Field));
    let valued = Record {
        blank: Blank::Yes,
        ..record()
    };
    assert_eq!(written(valued), Err(Refusal::Field));
    let mut bytes = written(zeros(Blank::Yes)).unwrap();
    bytes[8 + 153] = 1;
    assert_eq!(read_sheet(&bytes), Err(Refusal::Sheet));
    // the blank bit, and each of the five zero bits behind it
    let bytes = write_sheet(&sheet(1, vec![zeros(Blank::No)])).unwrap();
    for bit in 0..6 {
        let mut bytes = bytes.clone();
        bytes[8 + 5] ^= 1 << bit;
        assert_eq!(read_sheet(&bytes), Err(Refusal::Sheet));
        bytes[0] = bytes[0] & 15 | 2 << 4;
        let told = read_sheet(&bytes);
        if bit == 5 {
            assert_eq!(told, Ok(sheet(2, vec![zeros(Blank::Yes)])));
        } else {
            assert_eq!(told, Err(Refusal::Sheet));
        }
    }
}

#[test]
fn editions_that_are_not_known() {
    for edition in [0, 3, 15, 16, u32::MAX] {
        let told = write_sheet(&sheet(edition, vec![record()]));
        assert_eq!(told, Err(Refusal::Settings));
        // the frame's layers come first; of records nothing is said
        let mut out = [7; 200];
        let told = entries::write_sheet(edition, 640, 480, 16, &[0; 139], &mut out);
        assert_eq!(told, (2, 0));
        let told = entries::write_sheet(edition, 640, 480, 3, &[0; 139], &mut out);
        assert_eq!((told, out), ((4, 0), [7; 200]));
    }
    let mut bytes = write_sheet(&sheet(2, vec![])).unwrap();
    for edition in (0..16).filter(|e| ![1, 2].contains(e)) {
        bytes[0] = bytes[0] & 15 | edition << 4;
        assert_eq!(read_sheet(&bytes), Err(Refusal::Sheet));
        assert_eq!(entries::read_sheet(&bytes, &mut []), (8, 0, 0, [0; 3]));
    }
}

/// As many records as a sheet holds are written and read, and one more is refused by 5. It takes 1.3 GB, so that it is run by
/// `cargo test --release -p bargeclover --test sheet -- --ignored`.
#[test]
#[ignore]
fn as_many_as_a_sheet_holds() {
    const MOST: usize = 1_048_575;
    for edition in [1, 2] {
        let taken = 137 + edition as usize;
        let one = record().to_words();
        let mut words = one[..taken].repeat(MOST + 1);
        let mut out = vec![7; 8 + 154 * MOST];
        let told = entries::write_sheet(edition, 640, 480, 3, &words, &mut out);
        assert_eq!(told, (5, 0));
        assert!(out.iter().all(|b| *b == 7));
        words.truncate(taken * MOST);
        let told = entries::write_sheet(edition, 640, 480, 3, &words, &mut out);
        assert_eq!(told, (0, out.len()));
        let mut back = vec![0; 139 * MOST];
        let told = entries::read_sheet(&out, &mut back);
        assert_eq!(told, (0, MOST, edition, [640, 480, 3]));
        assert!(back.chunks_exact(139).all(|r| r == one));
    }
}
