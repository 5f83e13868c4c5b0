//! What becomes of a candidate, told in steps: which test drops it, or how many moves it makes. Written from rules D3 to D14
//! for counting alone, so that a run can say that its stacks met every case; the judge of answers is the published Rust.

use bargeclover::{Settings, Stack};

#[derive(Clone, Copy, Debug, PartialEq, Eq, PartialOrd, Ord)]
pub enum Fate {
    /// Kept after so many moves.
    Kept(u32),
    Determinant0,
    /// An offset above 715,827,882.
    Far,
    OutOfLayers,
    OutOfBorder,
    FiveMoves,
    /// Five moves, with an offset that was not-a-number.
    FiveMovesNan,
    Contrast,
    /// The determinant of the plane's bend is not above 0.
    Saddle,
    Edge,
}

impl Fate {
    pub const ALL: [Fate; 14] = [
        Fate::Kept(0),
        Fate::Kept(1),
        Fate::Kept(2),
        Fate::Kept(3),
        Fate::Kept(4),
        Fate::Determinant0,
        Fate::Far,
        Fate::OutOfLayers,
        Fate::OutOfBorder,
        Fate::FiveMoves,
        Fate::FiveMovesNan,
        Fate::Contrast,
        Fate::Saddle,
        Fate::Edge,
    ];
}

/// The fates of the candidates of one layer, in reading order.
pub fn fates(stack: &Stack, layer: usize, s: &Settings) -> Vec<Fate> {
    let mut all = Vec::new();
    let threshold = (0.5 * s.contrast / s.layers as f64 * 255.0).floor() as f32;
    for row in 5..stack.height.saturating_sub(5) {
        for column in 5..stack.width.saturating_sub(5) {
            let cell = Cell {
                stack,
                plane: layer,
                row,
                column,
            };
            let v = cell.at(0, 0, 0);
            let beaten = |n: f32| if v > 0.0 { n > v } else { n < v };
            let mut around = (0..27).map(|k| cell.at(k / 9 - 1, k / 3 % 3 - 1, k % 3 - 1));
            if v.abs() > threshold && !around.any(beaten) {
                all.push(cell.fate(s));
            }
        }
    }
    all
}

struct Cell<'a> {
    stack: &'a Stack<'a>,
    plane: usize,
    row: usize,
    column: usize,
}

impl Cell<'_> {
    fn at(&self, dp: isize, dr: isize, dc: isize) -> f32 {
        let s = self.stack;
        let plane = self.plane.wrapping_add_signed(dp);
        let row = self.row.wrapping_add_signed(dr);
        s.samples[(plane * s.height + row) * s.width + self.column.wrapping_add_signed(dc)]
    }

    fn slope(&self) -> [f32; 3] {
        let d = |a: f32, b: f32| (a - b) * (1.0 / 255.0 * 0.5);
        [
            d(self.at(0, 0, 1), self.at(0, 0, -1)),
            d(self.at(0, 1, 0), self.at(0, -1, 0)),
            d(self.at(1, 0, 0), self.at(-1, 0, 0)),
        ]
    }

    /// xx, yy, ss, xy, xs, ys.
    fn bend(&self) -> [f32; 6] {
        let v2 = self.at(0, 0, 0) * 2.0;
        let curve = |a: f32, b: f32| (a + b - v2) * (1.0 / 255.0);
        let twist = |a: f32, b: f32, c: f32, d: f32| (a - b - c + d) * (1.0 / 255.0 * 0.25);
        [
            curve(self.at(0, 0, 1), self.at(0, 0, -1)),
            curve(self.at(0, 1, 0), self.at(0, -1, 0)),
            curve(self.at(1, 0, 0), self.at(-1, 0, 0)),
            twist(
                self.at(0, 1, 1),
                self.at(0, 1, -1),
                self.at(0, -1, 1),
                self.at(0, -1, -1),
            ),
            twist(
                self.at(1, 0, 1),
                self.at(1, 0, -1),
                self.at(-1, 0, 1),
                self.at(-1, 0, -1),
            ),
            twist(
                self.at(1, 1, 0),
                self.at(1, -1, 0),
                self.at(-1, 1, 0),
                self.at(-1, -1, 0),
            ),
        ]
    }

    fn fate(mut self, s: &Settings) -> Fate {
        let mut nan = false;
        for moves in 0..5 {
            let [xx, yy, ss, xy, xs, ys] = self.bend();
            let [dx, dy, ds] = self.slope();
            let det = outer(
                [xx, cross(yy, ss, ys, ys)],
                [xy, cross(xy, ss, xs, ys)],
                [xs, cross(xy, ys, xs, yy)],
            );
            if det == 0.0 {
                return Fate::Determinant0;
            }
            let (a, b, e) = (
                cross(dy, ss, ys, ds),
                cross(dy, ys, yy, ds),
                cross(xy, ds, dy, xs),
            );
            let d = 1.0 / det;
            let o = [
                -(d * outer([xx, -b], [xy, e], [dx, cross(xy, ys, yy, xs)])),
                -(d * outer([xx, a], [dx, cross(xy, ss, ys, xs)], [xs, e])),
                -(d * outer([dx, cross(yy, ss, ys, ys)], [xy, a], [xs, b])),
            ];
            nan |= o.iter().any(|x| x.is_nan());
            if o.iter().all(|x| x.abs() < 0.5) {
                return self.end(s, o, moves);
            }
            if o.iter().any(|x| x.abs() > 715_827_882.0) {
                return Fate::Far;
            }
            let to = |v: usize, x: f32| v as i64 + i64::from(x.round_ties_even() as i32);
            let (p, r, c) = (
                to(self.plane, o[0]),
                to(self.row, o[1]),
                to(self.column, o[2]),
            );
            if p < 1 || p > s.layers as i64 {
                return Fate::OutOfLayers;
            }
            let inside = |v: i64, side: usize| 5 <= v && v < side as i64 - 5;
            if !inside(r, self.stack.height) || !inside(c, self.stack.width) {
                return Fate::OutOfBorder;
            }
            (self.plane, self.row, self.column) = (p as usize, r as usize, c as usize);
        }
        if nan {
            Fate::FiveMovesNan
        } else {
            Fate::FiveMoves
        }
    }

    fn end(&self, s: &Settings, o: [f32; 3], moves: u32) -> Fate {
        let [dx, dy, ds] = self.slope();
        let t = ds.mul_add(o[0], dy.mul_add(o[1], dx * o[2]));
        let contrast = self.at(0, 0, 0).mul_add(1.0 / 255.0, t * 0.5);
        if contrast.abs() * (s.layers as f32) < s.contrast as f32 {
            return Fate::Contrast;
        }
        let [xx, yy, _, xy, _, _] = self.bend();
        let (trace, det, edge) = (xx + yy, cross(xx, yy, xy, xy), s.edge as f32);
        if det <= 0.0 {
            return Fate::Saddle;
        }
        if trace * trace * edge >= (edge + 1.0) * (edge + 1.0) * det {
            return Fate::Edge;
        }
        Fate::Kept(moves)
    }
}

/// a b - c d, the second product rounded.
fn cross(a: f32, b: f32, c: f32, d: f32) -> f32 {
    a.mul_add(b, -(c * d))
}

/// p - q + r, each a product of two.
fn outer(p: [f32; 2], q: [f32; 2], r: [f32; 2]) -> f32 {
    r[0].mul_add(r[1], p[0].mul_add(p[1], -(q[0] * q[1])))
}
