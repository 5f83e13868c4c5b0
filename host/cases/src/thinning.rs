//! Even cover a second time, by vectors, a sort and a plain recursion, with its refusals; and lists of keypoints that try it, whole
//! and damaged. The published Rust has another quota, so this is what the library's thinning is held to.

use crate::Rng;
use crate::detection::BEFORE;

/// The words of a keypoint, of which x, y and the response are read.
pub const WORDS: usize = 10;
const X: usize = 0;
const Y: usize = 1;
const RESPONSE: usize = 3;

/// What the library is handed. A damaged case may have any number anywhere.
#[derive(Clone, Debug)]
pub struct Case {
    pub width: usize,
    pub height: usize,
    pub words: Vec<u32>,
    pub quota: usize,
    pub depth: u32,
}

impl Case {
    /// Its whole keypoints.
    pub fn keypoints(&self) -> &[[u32; WORDS]] {
        self.words.as_chunks().0
    }
}

/// Why a case is refused before its room is looked at; where several hold, the first.
#[derive(Clone, Copy, Debug, PartialEq, Eq)]
pub enum Reason {
    Width,
    Height,
    Quota,
    Depth,
    Part,
    X,
    Y,
    Response,
}

impl Reason {
    pub const ALL: [Reason; 8] = [
        Reason::Width,
        Reason::Height,
        Reason::Quota,
        Reason::Depth,
        Reason::Part,
        Reason::X,
        Reason::Y,
        Reason::Response,
    ];

    pub fn number(self) -> u32 {
        match self {
            Reason::Width | Reason::Height => 1,
            _ => 5,
        }
    }
}

fn float(keypoint: &[u32; WORDS], field: usize) -> f32 {
    f32::from_bits(keypoint[field])
}

/// What is wrong with a keypoint.
fn wrong(c: &Case, k: &[u32; WORDS]) -> Option<Reason> {
    let inside = |field, side: usize| (0.0..side as f32).contains(&float(k, field));
    if !inside(X, c.width) {
        Some(Reason::X)
    } else if !inside(Y, c.height) {
        Some(Reason::Y)
    } else if !float(k, RESPONSE).is_finite() {
        Some(Reason::Response)
    } else {
        None
    }
}

/// None where the case is accepted. More than 2^32 keypoints fit in no memory here, so that line is left out.
pub fn reason(c: &Case) -> Option<Reason> {
    let side = |n: usize| !(1..=8192).contains(&n);
    let lines = [
        (Reason::Width, side(c.width)),
        (Reason::Height, side(c.height)),
        (Reason::Quota, c.quota == 0),
        (Reason::Depth, c.depth > 12),
        (Reason::Part, !c.words.len().is_multiple_of(WORDS)),
    ];
    let first = lines.iter().find(|l| l.1).map(|l| l.0);
    first.or_else(|| c.keypoints().iter().find_map(|k| wrong(c, k)))
}

/// From the first of each pair of sides to below the second.
#[derive(Clone, Copy)]
struct Region {
    across: (usize, usize),
    down: (usize, usize),
}

fn halves((from, to): (usize, usize)) -> [(usize, usize); 2] {
    let cut = from + (to - from) / 2;
    [(from, cut), (cut, to)]
}

/// The members of a region that are kept, in any order; the members come in the list's order.
fn kept_of(
    list: &[[u32; WORDS]],
    mut members: Vec<u32>,
    region: Region,
    quota: usize,
    depth: u32,
) -> Vec<u32> {
    if members.len() <= quota {
        return members;
    }
    let field = |p: u32, field| float(&list[p as usize], field);
    if quota < 4 || depth == 0 {
        // the sort leaves equal ones as they stand
        members.sort_by(|&a, &b| field(b, RESPONSE).partial_cmp(&field(a, RESPONSE)).unwrap());
        members.truncate(quota);
        return members;
    }
    let (across, down) = (halves(region.across), halves(region.down));
    let (right, lower) = (across[1].0 as f32, down[1].0 as f32);
    let mut quarters = [const { Vec::new() }; 4];
    for p in members {
        let column = usize::from(field(p, X) >= right);
        let row = usize::from(field(p, Y) >= lower);
        quarters[2 * row + column].push(p);
    }
    let mut all = Vec::new();
    for (k, members) in quarters.into_iter().enumerate() {
        let quarter = Region {
            across: across[k % 2],
            down: down[k / 2],
        };
        let share = (quota + 3 - k) / 4;
        all.extend(kept_of(list, members, quarter, share, depth - 1));
    }
    all
}

/// The positions that an accepted case keeps, ascending.
pub fn kept(c: &Case) -> Vec<u32> {
    let list = c.keypoints();
    let whole = Region {
        across: (0, c.width),
        down: (0, c.height),
    };
    let members = (0..list.len() as u32).collect();
    let mut all = kept_of(list, members, whole, c.quota, c.depth);
    all.sort_unstable();
    all
}

/// The answer that is right for so many words lent: the number, the count, and all the lent words afterwards.
pub fn expected(c: &Case, room: usize) -> (u32, usize, Vec<u32>) {
    let mut out = vec![BEFORE; room];
    if let Some(reason) = reason(c) {
        return (reason.number(), 0, out);
    }
    let all = kept(c);
    if all.len() > room {
        return (7, all.len(), out);
    }
    out[..all.len()].copy_from_slice(&all);
    (0, all.len(), out)
}

/// Where the keypoints of a list lie.
#[derive(Clone, Copy, Debug, PartialEq, Eq)]
pub enum Places {
    Spread,
    /// Toward a corner, ever more of them.
    Crowded,
    /// A crowd of a few cells somewhere, and a few elsewhere.
    Town,
    /// On whole numbers.
    Cells,
    /// On cuts, and just before them.
    Cuts,
    /// At the frame's edges: zeros of both signs, the least numbers, and the largest below the width and the height.
    Edges,
    /// All at one place.
    Heap,
}

impl Places {
    pub const ALL: [Places; 7] = [
        Places::Spread,
        Places::Crowded,
        Places::Town,
        Places::Cells,
        Places::Cuts,
        Places::Edges,
        Places::Heap,
    ];
}

/// How strong the keypoints of a list are.
#[derive(Clone, Copy, Debug, PartialEq, Eq)]
pub enum Responses {
    Usual,
    Equal,
    /// A few numbers of both signs, and zeros of both signs.
    Few,
    Negative,
    /// Subnormal numbers of both signs.
    Least,
    /// Any finite pattern.
    Any,
    /// Growing, or falling, along the list.
    Sorted,
}

impl Responses {
    pub const ALL: [Responses; 7] = [
        Responses::Usual,
        Responses::Equal,
        Responses::Few,
        Responses::Negative,
        Responses::Least,
        Responses::Any,
        Responses::Sorted,
    ];
}

/// A number of the side's range, from 0 to below 1 of it; what rounds up to the side is the number before it.
fn along(part: f64, side: usize) -> f32 {
    ((part * side as f64) as f32).min((side as f32).next_down())
}

/// A cut of a side: halved so often, at each half going on in one of the two.
fn cut(r: &mut Rng, side: usize) -> usize {
    let mut range = (0, side);
    for _ in 0..r.below(14) {
        range = halves(range)[r.below(2)];
    }
    halves(range)[1].0
}

/// On a cut or just before it, if that lies in the frame.
fn on_a_cut(r: &mut Rng, side: usize) -> f32 {
    let at = cut(r, side) as f32;
    let at = if r.one_in(3) { at.next_down() } else { at };
    at.clamp(0.0, (side as f32).next_down())
}

fn edge(r: &mut Rng, side: usize) -> f32 {
    let least = f32::from_bits(r.from_to(1, 3) as u32);
    let last = (side as f32).next_down();
    let half = (side / 2) as f32;
    r.pick(&[
        0.0,
        -0.0,
        least,
        last,
        last.next_down(),
        half,
        side as f32 - 1.0,
    ])
}

/// The places of so many keypoints.
fn places(r: &mut Rng, kind: Places, many: usize, [w, h]: [usize; 2]) -> Vec<[f32; 2]> {
    let town = [r.unit(), r.unit()];
    let wide = r.pick(&[0.0, 0.001, 0.01, 0.1]);
    let heap = [along(r.unit(), w), along(r.unit(), h)];
    let mut place = || match kind {
        Places::Spread => [along(r.unit(), w), along(r.unit(), h)],
        Places::Crowded => {
            let a = r.unit();
            [along(a * a * a, w), along(a * r.unit(), h)]
        }
        Places::Town if r.one_in(10) => [along(r.unit(), w), along(r.unit(), h)],
        Places::Town => {
            let [x, y] = town.map(|t| t * (1.0 - wide) + wide * r.unit());
            [along(x, w), along(y, h)]
        }
        Places::Cells => [r.below(w) as f32, r.below(h) as f32],
        Places::Cuts => [on_a_cut(r, w), on_a_cut(r, h)],
        Places::Edges => [edge(r, w), edge(r, h)],
        Places::Heap => heap,
    };
    (0..many).map(|_| place()).collect()
}

fn responses(r: &mut Rng, kind: Responses, many: usize) -> Vec<f32> {
    let equal = r.pick(&[0.0, -0.0, 0.04, -3.5, f32::MAX, f32::MIN]);
    let grows = r.one_in(2);
    let sign = |r: &mut Rng| (r.word() as u32) & 0x8000_0000;
    let mut response = |k: usize| match kind {
        Responses::Usual => (0.1 * r.unit()) as f32,
        Responses::Equal => equal,
        Responses::Few => r.pick(&[0.0, -0.0, 0.25, 0.5, -0.25, 0.25]),
        Responses::Negative => -(r.unit() as f32),
        Responses::Least => f32::from_bits(r.below(0x0080_0000) as u32 >> r.below(23) | sign(r)),
        Responses::Any => f32::from_bits(r.below(0x7f80_0000) as u32 | sign(r)),
        Responses::Sorted if grows => k as f32 - 100.0,
        Responses::Sorted => 100.0 - k as f32,
    };
    (0..many).map(&mut response).collect()
}

/// A list of so many keypoints; every word that is not read is any.
pub fn list(
    r: &mut Rng,
    many: usize,
    sides: [usize; 2],
    at: Places,
    strong: Responses,
) -> Vec<u32> {
    let places = places(r, at, many, sides);
    let responses = responses(r, strong, many);
    let mut words = Vec::with_capacity(many * WORDS);
    for ([x, y], response) in places.into_iter().zip(responses) {
        let mut k: [u32; WORDS] = std::array::from_fn(|_| r.word() as u32);
        k[X] = x.to_bits();
        k[Y] = y.to_bits();
        k[RESPONSE] = response.to_bits();
        words.extend(k);
    }
    words
}

/// About so many positions are held at once; a longer list is gone over again and again.
pub const HELD: usize = 6496;

fn many(r: &mut Rng) -> usize {
    match r.below(4096) {
        0..6 => r.from_to(HELD - 2, HELD + 2),
        6..14 => r.from_to(HELD, 5 * HELD),
        14..80 => r.from_to(300, 2000),
        80..400 => r.pick(&[0, 1, 2]),
        400..1200 => r.from_to(50, 300),
        _ => r.from_to(1, 50),
    }
}

fn side(r: &mut Rng) -> usize {
    match r.below(8) {
        0 => 1,
        1 => 8192,
        2 => r.from_to(2, 9),
        3 => 2 * r.below(4096) + 1,
        4 => 1 << r.below(14),
        _ => r.from_to(1, 8192),
    }
}

fn quota(r: &mut Rng, many: usize) -> usize {
    match r.below(10) {
        0..3 => r.from_to(1, 5),
        3 => (many + r.below(3)).saturating_sub(1).max(1),
        4 => ((1 << (2 * r.below(6))) + r.below(3)).max(2) - 1,
        5 => r.pick(&[usize::MAX, usize::MAX - 1, 1 << 32, (1 << 32) + 1, 1 << 63]),
        _ => r.from_to(1, many.max(1)),
    }
}

fn depth(r: &mut Rng) -> u32 {
    match r.below(6) {
        0 => 0,
        1 => 12,
        2 => 1,
        _ => r.below(13) as u32,
    }
}

/// An accepted case with such a list.
pub fn accepted(r: &mut Rng, at: Places, strong: Responses) -> Case {
    let (width, height) = (side(r), side(r));
    let many = many(r);
    Case {
        width,
        height,
        words: list(r, many, [width, height], at, strong),
        quota: quota(r, many),
        depth: depth(r),
    }
}

/// A pattern that is no finite number.
fn no_number(r: &mut Rng) -> u32 {
    let digits = r.word() as u32;
    r.pick(&[
        0x7f80_0000,
        0xff80_0000,
        0x7fc0_0000,
        0x7f80_0001,
        0x7f80_0000 | digits,
    ])
}

/// A place about an end of the side's range, most often outside.
fn beyond(r: &mut Rng, side: usize) -> u32 {
    let end = side as f32;
    let least = -f32::from_bits(1);
    let ends = [
        end,
        end,
        end.next_up(),
        end.next_down(),
        least,
        least,
        -0.0,
        -1.0,
        2.0 * end,
    ];
    if r.one_in(4) {
        no_number(r)
    } else {
        r.pick(&ends).to_bits()
    }
}

/// One thing about the case is changed; it may still be accepted.
pub fn damage(r: &mut Rng, c: &mut Case) {
    let off = [0, 0, 8193, 8193, 8192, 10_000, 1 << 32, usize::MAX];
    match r.below(8) {
        0 => c.width = r.pick(&off),
        1 => c.height = r.pick(&off),
        2 => c.quota = 0,
        3 => c.depth = r.pick(&[13, 13, 14, 12, 255, 1 << 31, u32::MAX]),
        4 => {
            let part = r.from_to(1, WORDS - 1);
            let cut = c.words.len().saturating_sub(part);
            if r.one_in(2) {
                c.words.truncate(cut);
            } else {
                c.words.extend(vec![0; part]);
            }
        }
        which => spoil(r, c, which - 5),
    }
}

/// A keypoint's x, y or response is put out of its range; often the first's or the last's.
fn spoil(r: &mut Rng, c: &mut Case, which: usize) {
    let many = c.keypoints().len();
    if many == 0 {
        c.words = vec![0; WORDS];
    }
    let last = many.max(1) - 1;
    let any = r.below(last + 1);
    let at = WORDS * r.pick(&[0, last, any]);
    match which {
        0 => c.words[at + X] = beyond(r, c.width),
        1 => c.words[at + Y] = beyond(r, c.height),
        _ => c.words[at + RESPONSE] = no_number(r),
    }
}

/// What can be lent for a case's answer of so many: exactly the room, more, one too few, none, or any.
pub fn room(r: &mut Rng, c: &Case, need: usize) -> usize {
    let all = c.keypoints().len();
    match r.below(6) {
        0 => need,
        1 => need + r.below(20),
        2 => need.saturating_sub(1),
        3 => 0,
        4 => r.below(all + 3),
        // where it can't be too little
        _ => c.quota.min(all),
    }
}
