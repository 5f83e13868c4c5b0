//! What is wrong with a sheet that the library refuses. The verdict is the library's; this says where to look.

/// Takes bits off the front of bytes, most significant first.
struct Bits<'a> {
    bytes: &'a [u8],
    at: usize,
}

impl Bits<'_> {
    fn take(&mut self, wide: usize) -> u32 {
        let mut n = 0;
        for at in self.at..self.at + wide {
            let byte = self.bytes.get(at / 8).copied().unwrap_or(0);
            n = n << 1 | u32::from(byte >> (7 - at % 8) & 1);
        }
        self.at += wide;
        n
    }
}

/// What a record is held to.
struct Head {
    edition: u32,
    width: u32,
    height: u32,
    layers: u32,
}

/// The first rule of the sheet that bytes are seen to break.
pub fn fault(bytes: &[u8]) -> Option<String> {
    if bytes.len() < 8 {
        return Some(format!(
            "a head has 8 bytes, and {} are there: not a sheet, or cut short",
            bytes.len()
        ));
    }
    let mut bits = Bits { bytes, at: 0 };
    let [edition, wide, high, layers, count, zero] = [4, 13, 13, 4, 20, 10].map(|w| bits.take(w));
    if !(1..=2).contains(&edition) {
        return Some(format!(
            "its edition is {edition}, and 1 and 2 are read: not a sheet, or one of another edition"
        ));
    }
    if layers == 0 {
        return Some("its head names no layer".into());
    }
    if zero != 0 {
        return Some("one of the ten bits at the end of the head is not zero".into());
    }
    let long = 8 + 154 * count as usize;
    if bytes.len() != long {
        return Some(format!(
            "{} is {long} bytes long, and this has {}: cut short, or the count is wrong",
            match count {
                1 => "a sheet of 1 record".into(),
                n => format!("a sheet of {n} records"),
            },
            bytes.len()
        ));
    }
    let head = Head {
        edition,
        width: wide + 1,
        height: high + 1,
        layers,
    };
    for (k, record) in bytes[8..].chunks_exact(154).enumerate() {
        if let Some(what) = record_fault(record, &head) {
            return Some(format!("record {k}: {what}"));
        }
    }
    None
}

fn record_fault(record: &[u8], head: &Head) -> Option<String> {
    let mut bits = Bits {
        bytes: record,
        at: 0,
    };
    let [row, column, _octave, layer, _code, spare] = [13, 13, 4, 4, 8, 6].map(|w| bits.take(w));
    let floats = [(); 5].map(|()| bits.take(32));
    if row >= head.height {
        return Some(format!(
            "row {row} is not below the height, {}",
            head.height
        ));
    }
    if column >= head.width {
        return Some(format!(
            "column {column} is not below the width, {}",
            head.width
        ));
    }
    if !(1..=head.layers).contains(&layer) {
        return Some(format!("layer {layer} is not 1 to {}", head.layers));
    }
    if let Some(what) = spare_fault(head.edition, spare, &record[26..]) {
        return Some(what.into());
    }
    for (name, b) in ["x", "y", "size", "response", "angle"]
        .into_iter()
        .zip(floats)
    {
        let v = f32::from_bits(b);
        if b >> 31 == 1 || !v.is_finite() {
            return Some(format!(
                "{name} is {v}, and must be finite with its sign bit clear"
            ));
        }
        if name == "size" && v == 0.0 {
            return Some("size is 0".into());
        }
        if name == "angle" && v >= 360.0 {
            return Some(format!("angle {v} is not below 360"));
        }
    }
    None
}

/// The six bits behind the code: zeros in edition 1, the blank bit and five zeros in edition 2.
fn spare_fault(edition: u32, spare: u32, values: &[u8]) -> Option<&'static str> {
    let blank = spare >> 5 == 1;
    if edition == 1 {
        return (spare != 0).then_some("one of its six zero bits is set");
    }
    if spare & 31 != 0 {
        return Some("one of the five zero bits behind its blank bit is set");
    }
    (blank && values.iter().any(|v| *v != 0))
        .then_some("its blank bit is set, and not all of its 128 values are zero")
}

#[cfg(test)]
mod tests {
    use super::*;
    use bargeclover::{Blank, Record, Sheet, read_sheet, write_sheet};
    use cases::{Rng, sheet};

    #[test]
    fn a_fault_is_found_exactly_where_the_library_refuses() {
        let mut rng = Rng::new(5);
        let (mut sound, mut broken) = (0, 0);
        for _ in 0..4000 {
            let mut bytes = sheet::written(&sheet::accepted(&mut rng, 3));
            for _ in 0..rng.below(3) {
                sheet::damage_sheet(&mut rng, &mut bytes);
            }
            match read_sheet(&bytes) {
                Ok(_) => {
                    assert_eq!(fault(&bytes), None);
                    sound += 1;
                }
                Err(_) => {
                    assert!(fault(&bytes).is_some(), "{bytes:?}");
                    broken += 1;
                }
            }
        }
        assert!(sound > 500 && broken > 500, "{sound} {broken}");
    }

    /// A sheet of one record with 128 zeros.
    fn zeros(edition: u32, blank: Blank) -> Vec<u8> {
        let record = Record {
            layer: 1,
            size: 4.0,
            blank,
            ..Record::from_words(&[0; Record::WORDS])
        };
        let sheet = Sheet {
            edition,
            width: 9,
            height: 9,
            layers: 3,
            records: vec![record],
        };
        write_sheet(&sheet).unwrap()
    }

    /// The byte of a record's last code bits and its six spare ones.
    const SPARE: usize = 8 + 5;

    #[test]
    fn the_bits_of_either_edition() {
        let hold = |bytes: &[u8], words: Option<&str>| {
            assert_eq!(read_sheet(bytes).is_ok(), words.is_none());
            let found = fault(bytes);
            match words {
                None => assert_eq!(found, None),
                Some(w) => assert!(found.as_deref().is_some_and(|f| f.contains(w)), "{found:?}"),
            }
        };
        for edition in 0..16u8 {
            let mut bytes = zeros(2, Blank::No);
            bytes[0] = edition << 4 | bytes[0] & 15;
            let known = edition == 1 || edition == 2;
            let words = format!("its edition is {edition}, and 1 and 2 are read");
            hold(&bytes, (!known).then_some(words.as_str()));
        }
        for bit in 0..6 {
            let mut first = zeros(1, Blank::Unknown);
            first[SPARE] |= 1 << bit;
            hold(&first, Some("record 0: one of its six zero bits is set"));
            let mut second = zeros(2, Blank::No);
            second[SPARE] |= 1 << bit;
            let five = "record 0: one of the five zero bits behind its blank bit is set";
            hold(&second, (bit < 5).then_some(five));
        }
        for (at, blank) in [(0, Blank::Yes), (127, Blank::Yes), (64, Blank::No)] {
            let mut bytes = zeros(2, blank);
            bytes[8 + 26 + at] = 1;
            let words = "record 0: its blank bit is set, and not all of its 128 values are zero";
            hold(&bytes, (blank == Blank::Yes).then_some(words));
        }
    }
}
