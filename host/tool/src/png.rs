//! A small PNG encoder: 8-bit grey or RGB, rows filtered, one deflate block with the fixed codes.

/// 1 for grey, 3 for red, green and blue.
#[derive(Clone, Copy, Debug, PartialEq, Eq)]
pub enum Kind {
    Grey,
    Rgb,
}

impl Kind {
    fn bytes(self) -> usize {
        match self {
            Kind::Grey => 1,
            Kind::Rgb => 3,
        }
    }
}

/// The file of a picture; `samples` has width × height × bytes a cell, row after row, and both sides are above 0.
pub fn encode(width: usize, height: usize, kind: Kind, samples: &[u8]) -> Vec<u8> {
    let mut out = b"\x89PNG\r\n\x1a\n".to_vec();
    let mut head = Vec::new();
    head.extend((width as u32).to_be_bytes());
    head.extend((height as u32).to_be_bytes());
    let colour = match kind {
        Kind::Grey => 0,
        Kind::Rgb => 2,
    };
    head.extend([8, colour, 0, 0, 0]);
    chunk(&mut out, b"IHDR", &head);
    let rows = filtered(width * kind.bytes(), kind.bytes(), samples);
    chunk(&mut out, b"IDAT", &zlib(&rows));
    chunk(&mut out, b"IEND", &[]);
    out
}

fn chunk(out: &mut Vec<u8>, name: &[u8; 4], body: &[u8]) {
    out.extend((body.len() as u32).to_be_bytes());
    let start = out.len();
    out.extend(name);
    out.extend(body);
    let sum = crc(&out[start..]);
    out.extend(sum.to_be_bytes());
}

/// The cyclic redundancy check of PNG.
fn crc(bytes: &[u8]) -> u32 {
    let mut table = [0u32; 256];
    for (k, t) in table.iter_mut().enumerate() {
        *t = (0..8).fold(k as u32, |c, _| {
            if c & 1 == 1 {
                c >> 1 ^ 0xedb8_8320
            } else {
                c >> 1
            }
        });
    }
    !bytes
        .iter()
        .fold(!0, |c, b| table[(c as u8 ^ b) as usize] ^ c >> 8)
}

/// Adler's sum of zlib.
fn adler(bytes: &[u8]) -> u32 {
    let (mut a, mut b) = (1u32, 0u32);
    // 5,552 is the most bytes after which neither sum has left 32 bits
    for part in bytes.chunks(5552) {
        for v in part {
            a += u32::from(*v);
            b += a;
        }
        a %= 65521;
        b %= 65521;
    }
    b << 16 | a
}

fn paeth(a: u8, b: u8, c: u8) -> u8 {
    let [x, y, z] = [a, b, c].map(i16::from);
    let p = x + y - z;
    let (pa, pb, pc) = ((p - x).abs(), (p - y).abs(), (p - z).abs());
    if pa <= pb && pa <= pc {
        a
    } else if pb <= pc {
        b
    } else {
        c
    }
}

/// One row by one of the five filters; `back` is the distance to the cell on the left.
fn filter(kind: u8, row: &[u8], above: &[u8], back: usize, out: &mut Vec<u8>) {
    out.push(kind);
    for (k, v) in row.iter().enumerate() {
        let (left, corner) = match k.checked_sub(back) {
            Some(l) => (row[l], above[l]),
            None => (0, 0),
        };
        let guess = match kind {
            1 => left,
            2 => above[k],
            3 => ((u16::from(left) + u16::from(above[k])) / 2) as u8,
            4 => paeth(left, above[k], corner),
            _ => 0,
        };
        out.push(v.wrapping_sub(guess));
    }
}

/// All rows, each by the filter that leaves the smallest numbers.
fn filtered(wide: usize, back: usize, samples: &[u8]) -> Vec<u8> {
    let mut out = Vec::with_capacity(samples.len() + samples.len() / wide);
    let nothing = vec![0; wide];
    let mut above = nothing.as_slice();
    let mut tried = Vec::with_capacity(wide + 1);
    for row in samples.chunks_exact(wide) {
        let mut best: Option<(u64, Vec<u8>)> = None;
        for kind in 0..5 {
            tried.clear();
            filter(kind, row, above, back, &mut tried);
            let cost = tried[1..]
                .iter()
                .map(|v| u64::from((*v as i8).unsigned_abs()))
                .sum();
            if best.as_ref().is_none_or(|b| cost < b.0) {
                best = Some((cost, tried.clone()));
            }
        }
        out.extend(best.map(|b| b.1).unwrap_or_default());
        above = row;
    }
    out
}

/// Bits, least significant first.
#[derive(Default)]
struct Bits {
    bytes: Vec<u8>,
    held: u64,
    many: u32,
}

impl Bits {
    fn put(&mut self, value: u32, wide: u32) {
        self.held |= u64::from(value) << self.many;
        self.many += wide;
        while self.many >= 8 {
            self.bytes.push(self.held as u8);
            self.held >>= 8;
            self.many -= 8;
        }
    }

    /// A code, its first bit first.
    fn code(&mut self, code: u32, wide: u32) {
        self.put(code.reverse_bits() >> (32 - wide), wide);
    }

    /// A literal or a length by deflate's fixed codes.
    fn symbol(&mut self, s: u32) {
        match s {
            0..144 => self.code(0x30 + s, 8),
            144..256 => self.code(0x190 + s - 144, 9),
            256..280 => self.code(s - 256, 7),
            _ => self.code(0xc0 + s - 280, 8),
        }
    }

    fn whole(mut self) -> Vec<u8> {
        if self.many > 0 {
            self.put(0, 8 - self.many);
        }
        self.bytes
    }
}

/// The code of a number, how many extra bits it has, and what they hold. Deflate's codes come in groups of `each` with equally
/// many extra bits; the first two groups have none.
fn code_of(value: u32, least: u32, each: u32) -> (u32, u32, u32) {
    let n = value - least;
    if n < 2 * each {
        return (n, 0, 0);
    }
    let extra = n.ilog2() - each.ilog2();
    let code = each * extra + (n >> extra);
    (code, extra, n & ((1 << extra) - 1))
}

const LONGEST: usize = 258;
const FARTHEST: usize = 32768;
const SHORTEST: usize = 3;

fn length(bits: &mut Bits, n: usize) {
    if n == LONGEST {
        bits.symbol(285);
        return;
    }
    let (code, extra, rest) = code_of(n as u32, 3, 4);
    bits.symbol(257 + code);
    bits.put(rest, extra);
}

fn distance(bits: &mut Bits, n: usize) {
    let (code, extra, rest) = code_of(n as u32, 1, 2);
    bits.code(code, 5);
    bits.put(rest, extra);
}

/// The bytes in zlib's coat, as one block with the fixed codes. What stood before within reach is named again by distance and
/// length: of a few earlier places with the same three bytes the longest match is taken.
fn zlib(bytes: &[u8]) -> Vec<u8> {
    const TRIES: usize = 24;
    const SLOTS: usize = 1 << 15;
    let slot = |at: usize| {
        let three = u32::from_le_bytes([bytes[at], bytes[at + 1], bytes[at + 2], 0]);
        (three.wrapping_mul(0x9e37_79b1) >> 17) as usize
    };
    let mut bits = Bits::default();
    bits.put(0x78, 8);
    bits.put(0x01, 8);
    bits.put(1, 1);
    bits.put(1, 2);
    // places are counted from 1, so that 0 is none
    let mut newest = vec![0u32; SLOTS];
    let mut older = vec![0u32; bytes.len()];
    let mut at = 0;
    while at < bytes.len() {
        let mut best = (0, 0);
        if at + SHORTEST <= bytes.len() {
            let most = LONGEST.min(bytes.len() - at);
            let mut place = newest[slot(at)] as usize;
            for _ in 0..TRIES {
                if place == 0 || at - (place - 1) > FARTHEST {
                    break;
                }
                let from = place - 1;
                let same = (0..most)
                    .take_while(|k| bytes[from + k] == bytes[at + k])
                    .count();
                if same > best.0 {
                    best = (same, at - from);
                }
                if same == most {
                    break;
                }
                place = older[from] as usize;
            }
        }
        let step = if best.0 >= SHORTEST {
            length(&mut bits, best.0);
            distance(&mut bits, best.1);
            best.0
        } else {
            bits.symbol(bytes[at].into());
            1
        };
        for (k, o) in older.iter_mut().enumerate().skip(at).take(step) {
            if k + SHORTEST <= bytes.len() {
                let s = slot(k);
                *o = newest[s];
                newest[s] = k as u32 + 1;
            }
        }
        at += step;
    }
    bits.symbol(256);
    let mut out = bits.whole();
    out.extend(adler(bytes).to_be_bytes());
    out
}

#[cfg(test)]
mod tests {
    use super::*;

    /// Takes a file of this encoder apart again, by PNG's and deflate's rules and not by the code above.
    struct Taken<'a> {
        bytes: &'a [u8],
        at: usize,
    }

    impl Taken<'_> {
        fn bit(&mut self) -> usize {
            let b = self.bytes[self.at / 8] >> (self.at % 8) & 1;
            self.at += 1;
            b.into()
        }

        fn number(&mut self, wide: usize) -> usize {
            (0..wide).map(|k| self.bit() << k).sum()
        }

        fn symbol(&mut self) -> usize {
            let mut c = (0..7).fold(0, |c, _| c << 1 | self.bit());
            if c < 24 {
                return 256 + c;
            }
            c = c << 1 | self.bit();
            match c {
                0x30..0xc0 => c - 0x30,
                0xc0..0xc8 => c - 0xc0 + 280,
                _ => (c << 1 | self.bit()) - 0x190 + 144,
            }
        }
    }

    fn inflated(z: &[u8]) -> Vec<u8> {
        const LENGTHS: [(usize, usize); 29] = [
            (3, 0),
            (4, 0),
            (5, 0),
            (6, 0),
            (7, 0),
            (8, 0),
            (9, 0),
            (10, 0),
            (11, 1),
            (13, 1),
            (15, 1),
            (17, 1),
            (19, 2),
            (23, 2),
            (27, 2),
            (31, 2),
            (35, 3),
            (43, 3),
            (51, 3),
            (59, 3),
            (67, 4),
            (83, 4),
            (99, 4),
            (115, 4),
            (131, 5),
            (163, 5),
            (195, 5),
            (227, 5),
            (258, 0),
        ];
        const DISTANCES: [(usize, usize); 30] = [
            (1, 0),
            (2, 0),
            (3, 0),
            (4, 0),
            (5, 1),
            (7, 1),
            (9, 2),
            (13, 2),
            (17, 3),
            (25, 3),
            (33, 4),
            (49, 4),
            (65, 5),
            (97, 5),
            (129, 6),
            (193, 6),
            (257, 7),
            (385, 7),
            (513, 8),
            (769, 8),
            (1025, 9),
            (1537, 9),
            (2049, 10),
            (3073, 10),
            (4097, 11),
            (6145, 11),
            (8193, 12),
            (12289, 12),
            (16385, 13),
            (24577, 13),
        ];
        assert_eq!(z[0], 0x78);
        assert_eq!((usize::from(z[0]) * 256 + usize::from(z[1])) % 31, 0);
        let mut t = Taken { bytes: z, at: 16 };
        assert_eq!((t.number(1), t.number(2)), (1, 1));
        let mut out: Vec<u8> = Vec::new();
        loop {
            match t.symbol() {
                256 => break,
                s @ 0..256 => out.push(s as u8),
                s => {
                    let (least, extra) = LENGTHS[s - 257];
                    let long = least + t.number(extra);
                    let code = (0..5).fold(0, |c, _| c << 1 | t.bit());
                    let (least, extra) = DISTANCES[code];
                    let far = least + t.number(extra);
                    for _ in 0..long {
                        out.push(out[out.len() - far]);
                    }
                }
            }
        }
        let end = t.at.div_ceil(8);
        let (a, b) = out.iter().fold((1u64, 0u64), |(a, b), v| {
            let a = (a + u64::from(*v)) % 65521;
            (a, (a + b) % 65521)
        });
        assert_eq!(z[end..], ((b << 16 | a) as u32).to_be_bytes());
        out
    }

    /// Width, height, bytes a cell and samples.
    fn decoded(file: &[u8]) -> (usize, usize, usize, Vec<u8>) {
        assert_eq!(&file[..8], b"\x89PNG\r\n\x1a\n");
        let (mut at, mut chunks) = (8, Vec::new());
        while at < file.len() {
            let word = |at: usize| u32::from_be_bytes(file[at..at + 4].try_into().unwrap());
            let long = word(at) as usize;
            let named = &file[at + 4..at + 8 + long];
            let mut c = !0u32;
            for b in named {
                c ^= u32::from(*b);
                for _ in 0..8 {
                    c = (c >> 1) ^ ((c & 1) * 0xedb8_8320);
                }
            }
            assert_eq!(word(at + 8 + long), !c);
            chunks.push((&named[..4], &named[4..]));
            at += 12 + long;
        }
        assert_eq!(
            chunks.iter().map(|c| c.0).collect::<Vec<_>>(),
            [b"IHDR", b"IDAT", b"IEND"]
        );
        let h = chunks[0].1;
        let side = |at: usize| u32::from_be_bytes(h[at..at + 4].try_into().unwrap()) as usize;
        let (w, high) = (side(0), side(4));
        let each = if h[9] == 2 { 3 } else { 1 };
        assert_eq!(h[8], 8);
        let rows = inflated(chunks[1].1);
        let wide = w * each;
        assert_eq!(rows.len(), high * (wide + 1));
        let mut out = vec![0u8; high * wide];
        for y in 0..high {
            let kind = rows[y * (wide + 1)];
            for k in 0..wide {
                let get = |dy: usize, dk: usize| {
                    if y < dy || k < dk {
                        0
                    } else {
                        out[(y - dy) * wide + k - dk]
                    }
                };
                let (a, b, c) = (get(0, each), get(1, 0), get(1, each));
                let guess = match kind {
                    0 => 0,
                    1 => a,
                    2 => b,
                    3 => ((usize::from(a) + usize::from(b)) / 2) as u8,
                    4 => paeth(a, b, c),
                    _ => panic!("filter {kind}"),
                };
                out[y * wide + k] = rows[y * (wide + 1) + 1 + k].wrapping_add(guess);
            }
        }
        (w, high, each, out)
    }

    #[test]
    fn what_is_encoded_is_decoded() {
        let mut rng = cases::Rng::new(11);
        for _ in 0..300 {
            let (w, h) = (rng.from_to(1, 60), rng.from_to(1, 40));
            let kind = rng.pick(&[Kind::Grey, Kind::Rgb]);
            let top = rng.pick(&[1, 2, 5, 256]);
            let mut v = 0;
            let samples: Vec<u8> = (0..w * h * kind.bytes())
                .map(|_| {
                    if rng.one_in(3) {
                        v = rng.below(top) as u8;
                    }
                    v
                })
                .collect();
            let file = encode(w, h, kind, &samples);
            assert_eq!(decoded(&file), (w, h, kind.bytes(), samples));
        }
    }

    #[test]
    fn long_runs_and_far_matches() {
        let mut rng = cases::Rng::new(12);
        let mut bytes = vec![7; 1000];
        bytes.extend((0..40000).map(|_| rng.word() as u8));
        let again = bytes.clone();
        bytes.extend(&again[20000..]);
        bytes.extend(&again[..5000]);
        assert_eq!(inflated(&zlib(&bytes)), bytes);
        assert_eq!(inflated(&zlib(&[])), []);
        assert!(zlib(&vec![0; 100_000]).len() < 1000);
    }

    #[test]
    fn the_sums_are_those_of_the_standards() {
        assert_eq!(crc(b"123456789"), 0xcbf4_3926);
        assert_eq!(adler(b"Wikipedia"), 0x11e6_0398);
    }
}
