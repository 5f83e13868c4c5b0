//! Frames: PGM files, binary (P5) and plain (P2), of 8 and 16 bits.

use std::fmt;

/// A frame as the library wants it: samples from 0 to 255, row after row.
#[derive(Clone, Debug, PartialEq)]
pub struct Frame {
    pub width: usize,
    pub height: usize,
    pub samples: Vec<f32>,
}

/// What is wrong with a PGM file.
#[derive(Clone, Debug, PartialEq, Eq)]
pub enum Fault {
    NotPgm,
    Header(&'static str),
    Side(usize),
    Short {
        have: usize,
        need: usize,
    },
    Long {
        extra: usize,
    },
    Plain {
        row: usize,
        column: usize,
    },
    Above {
        row: usize,
        column: usize,
        value: usize,
        top: usize,
    },
}

impl fmt::Display for Fault {
    fn fmt(&self, f: &mut fmt::Formatter<'_>) -> fmt::Result {
        match self {
            Fault::NotPgm => write!(
                f,
                "not a PGM picture: it begins with neither P5 nor P2; give a grey picture, as `convert IN.tif -colorspace Gray OUT.pgm` makes it"
            ),
            Fault::Header(what) => write!(f, "the PGM head is broken: {what}"),
            Fault::Side(side) => write!(
                f,
                "number 1: a side of {side} cells, where 1 to {MOST} are taken; cut the frame or halve it"
            ),
            Fault::Short { have, need } => write!(
                f,
                "the picture is cut short: its head asks for {need} samples, and {have} are there; copy the file again"
            ),
            Fault::Long { extra } => write!(
                f,
                "{extra} bytes follow the last sample: the head's width and height are not the picture's, or the file holds more than one"
            ),
            Fault::Plain { row, column } => {
                write!(f, "the sample at row {row}, column {column} is no number")
            }
            Fault::Above {
                row,
                column,
                value,
                top,
            } => write!(
                f,
                "the sample at row {row}, column {column} is {value}, and the head's largest is {top}"
            ),
        }
    }
}

/// The longest side that the library takes; the file is refused before room is made for it.
const MOST: usize = 8192;

/// Reads the words of a PGM head and of a plain picture.
struct Words<'a> {
    bytes: &'a [u8],
    at: usize,
}

impl Words<'_> {
    /// Over white space and comments.
    fn skip(&mut self) {
        while let Some(b) = self.bytes.get(self.at) {
            if *b == b'#' {
                while self.bytes.get(self.at).is_some_and(|b| *b != b'\n') {
                    self.at += 1;
                }
            } else if b.is_ascii_whitespace() || *b == 0x0b {
                self.at += 1;
            } else {
                return;
            }
        }
    }

    /// The next number, none where there is no digit, cut off far above every number that is accepted.
    fn number(&mut self) -> Option<usize> {
        self.skip();
        let start = self.at;
        let mut n = 0usize;
        while let Some(d) = self.bytes.get(self.at).filter(|b| b.is_ascii_digit()) {
            n = (n * 10 + usize::from(d - b'0')).min(1 << 32);
            self.at += 1;
        }
        (self.at > start).then_some(n)
    }
}

/// The head's numbers, and where the samples begin.
struct Head {
    plain: bool,
    width: usize,
    height: usize,
    top: usize,
    at: usize,
}

impl Head {
    /// That the sample at a place of the list is larger than the head's largest.
    fn above(&self, k: usize, value: usize) -> Fault {
        Fault::Above {
            row: k / self.width,
            column: k % self.width,
            value,
            top: self.top,
        }
    }
}

fn head(bytes: &[u8]) -> Result<Head, Fault> {
    let plain = match bytes {
        [b'P', b'5', ..] => false,
        [b'P', b'2', ..] => true,
        _ => return Err(Fault::NotPgm),
    };
    if !bytes
        .get(2)
        .is_some_and(|b| b.is_ascii_whitespace() || *b == b'#')
    {
        return Err(Fault::NotPgm);
    }
    let mut words = Words { bytes, at: 2 };
    let mut next = |what| words.number().ok_or(Fault::Header(what));
    let width = next("no width")?;
    let height = next("no height")?;
    let top = next("no largest sample")?;
    for side in [width, height] {
        if !(1..=MOST).contains(&side) {
            return Err(Fault::Side(side));
        }
    }
    if !(1..=65535).contains(&top) {
        return Err(Fault::Header("its largest sample is not 1 to 65535"));
    }
    let mut at = words.at;
    if !plain {
        // one blank and no more: the next byte is the first sample's
        if !bytes.get(at).is_some_and(u8::is_ascii_whitespace) {
            return Err(Fault::Header("no blank before the samples"));
        }
        at += 1;
    }
    Ok(Head {
        plain,
        width,
        height,
        top,
        at,
    })
}

/// The samples of a plain picture; the file has at least a byte for each, so no more room is made than the file is long.
fn plain(h: &Head, bytes: &[u8]) -> Result<Vec<u16>, Fault> {
    let need = h.width * h.height;
    let mut words = Words { bytes, at: h.at };
    let mut all = Vec::with_capacity(need.min(bytes.len()));
    while all.len() < need {
        match words.number() {
            Some(n) => {
                let value = u16::try_from(n).ok();
                all.push(value.ok_or_else(|| h.above(all.len(), n))?);
            }
            None if words.at >= bytes.len() => {
                return Err(Fault::Short {
                    have: all.len(),
                    need,
                });
            }
            None => {
                return Err(Fault::Plain {
                    row: all.len() / h.width,
                    column: all.len() % h.width,
                });
            }
        }
    }
    words.skip();
    match bytes.len() - words.at {
        0 => Ok(all),
        extra => Err(Fault::Long { extra }),
    }
}

/// The samples of a binary picture, one byte each or, where the largest is above 255, two, the high one first.
fn binary(h: &Head, bytes: &[u8]) -> Result<Vec<u16>, Fault> {
    let need = h.width * h.height;
    let body = &bytes[h.at..];
    let each = if h.top < 256 { 1 } else { 2 };
    if body.len() < need * each {
        return Err(Fault::Short {
            have: body.len() / each,
            need,
        });
    }
    let (body, rest) = body.split_at(need * each);
    if !rest.iter().all(u8::is_ascii_whitespace) {
        return Err(Fault::Long { extra: rest.len() });
    }
    Ok(if each == 1 {
        body.iter().map(|b| u16::from(*b)).collect()
    } else {
        let (pairs, _) = body.as_chunks();
        pairs.iter().map(|p| u16::from_be_bytes(*p)).collect()
    })
}

/// A frame from the bytes of a PGM file. Samples are scaled so that the head's largest becomes 255; with 255 they stay as they are.
pub fn read(bytes: &[u8]) -> Result<Frame, Fault> {
    let h = head(bytes)?;
    let values = if h.plain {
        plain(&h, bytes)?
    } else {
        binary(&h, bytes)?
    };
    if let Some(k) = values.iter().position(|v| usize::from(*v) > h.top) {
        return Err(h.above(k, values[k].into()));
    }
    let scaled = |v: u16| (f64::from(v) * 255.0 / h.top as f64) as f32;
    Ok(Frame {
        width: h.width,
        height: h.height,
        samples: values.into_iter().map(scaled).collect(),
    })
}

#[cfg(test)]
mod tests {
    use super::*;

    fn samples(bytes: &[u8]) -> Result<Vec<f32>, Fault> {
        read(bytes).map(|f| f.samples)
    }

    #[test]
    fn the_four_kinds_say_the_same() {
        let eight = samples(b"P5\n2 2\n255\n\x00\x01\xfe\xff").unwrap();
        assert_eq!(eight, [0.0, 1.0, 254.0, 255.0]);
        assert_eq!(samples(b"P2\n2 2\n255\n0 1\n254 255\n").unwrap(), eight);
        // 257 times as large: 65,535 is 257 x 255
        let sixteen = samples(b"P5 2 2 65535\n\x00\x00\x01\x01\xfe\xfe\xff\xff").unwrap();
        assert_eq!(sixteen, eight);
        assert_eq!(samples(b"P2 2 2 65535 0 257 65278 65535").unwrap(), eight);
        assert_eq!(samples(b"P5 1 1 1 \x01").unwrap(), [255.0]);
    }

    #[test]
    fn comments_and_blanks() {
        let bytes = b"P5 # a comment\n#another\n 3\t1 # wide, high\r\n255\n#!\n";
        assert_eq!(samples(bytes).unwrap(), [35.0, 33.0, 10.0]);
        assert_eq!(samples(b"P2#c\n1 1 9 #c\n9#c").unwrap(), [255.0]);
    }

    #[test]
    fn width_and_height_are_not_swapped() {
        let f = read(b"P5 3 1 255 abc").unwrap();
        assert_eq!((f.width, f.height), (3, 1));
    }

    #[test]
    fn broken_ones() {
        let refused = |bytes: &[u8]| read(bytes).unwrap_err();
        assert_eq!(refused(b""), Fault::NotPgm);
        assert_eq!(refused(b"P6 1 1 255 abc"), Fault::NotPgm);
        assert_eq!(refused(b"P55 1 1 255 a"), Fault::NotPgm);
        assert_eq!(refused(b"P5"), Fault::NotPgm);
        assert_eq!(refused(b"P5 x"), Fault::Header("no width"));
        assert_eq!(refused(b"P5 1"), Fault::Header("no height"));
        assert_eq!(refused(b"P5 1 1 -"), Fault::Header("no largest sample"));
        assert_eq!(
            refused(b"P5 1 1 65536 a"),
            Fault::Header("its largest sample is not 1 to 65535")
        );
        assert_eq!(refused(b"P5 0 1 255 a"), Fault::Side(0));
        assert_eq!(refused(b"P5 8193 1 255 a"), Fault::Side(8193));
        assert_eq!(
            refused(b"P5 99999999999999999999999999 1 255 a"),
            Fault::Side(1 << 32)
        );
        assert_eq!(
            refused(b"P5 1 1 255"),
            Fault::Header("no blank before the samples")
        );
        assert_eq!(
            refused(b"P5 8192 8192 65535 abc"),
            Fault::Short {
                have: 1,
                need: 67108864
            }
        );
        assert_eq!(refused(b"P2 2 1 9 4"), Fault::Short { have: 1, need: 2 });
        assert_eq!(
            refused(b"P2 2 2 9 4 4 4 x"),
            Fault::Plain { row: 1, column: 1 }
        );
        assert_eq!(refused(b"P2 1 1 9 4 4"), Fault::Long { extra: 1 });
        assert_eq!(
            refused(b"P2 1 1 65535 99999999999"),
            Fault::Above {
                row: 0,
                column: 0,
                value: 1 << 32,
                top: 65535
            }
        );
        assert_eq!(refused(b"P5 1 1 255 ab"), Fault::Long { extra: 1 });
        assert_eq!(
            refused(b"P5 2 1 9 \x04\x0a"),
            Fault::Above {
                row: 0,
                column: 1,
                value: 10,
                top: 9
            }
        );
    }
}
