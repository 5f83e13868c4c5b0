//! A picture in red, green and blue, on which rings, lines and letters are drawn with soft edges.

use crate::font;
use crate::png::{self, Kind};

pub type Colour = [u8; 3];

pub struct Canvas {
    pub width: usize,
    pub height: usize,
    cells: Vec<u8>,
}

/// How a stroke looks: half its width, its colour, how much it covers.
#[derive(Clone, Copy, Debug)]
pub struct Stroke {
    pub half: f32,
    pub colour: Colour,
    pub cover: f32,
}

/// A letter's cell, with a gap.
const LETTER: usize = 6;

impl Canvas {
    pub fn new(width: usize, height: usize, colour: Colour) -> Canvas {
        Canvas {
            width,
            height,
            cells: colour.repeat(width * height),
        }
    }

    pub fn to_png(&self) -> Vec<u8> {
        png::encode(self.width, self.height, Kind::Rgb, &self.cells)
    }

    pub fn set(&mut self, x: usize, y: usize, colour: Colour) {
        let at = 3 * (y * self.width + x);
        self.cells[at..at + 3].copy_from_slice(&colour);
    }

    fn blend(&mut self, x: usize, y: usize, colour: Colour, cover: f32) {
        let at = 3 * (y * self.width + x);
        for (c, new) in self.cells[at..at + 3].iter_mut().zip(colour) {
            let old = f32::from(*c);
            *c = (old + (f32::from(new) - old) * cover).round() as u8;
        }
    }

    /// Blends every cell that lies near enough to a shape, whose distance to a place is given; the shape lies within a box.
    fn near(
        &mut self,
        [left, top, right, bottom]: [f32; 4],
        stroke: Stroke,
        away: impl Fn(f32, f32) -> Option<f32>,
    ) {
        let more = stroke.half + 1.0;
        let from = |v: f32| (v - more).floor().max(0.0) as usize;
        let to = |v: f32, side: usize| ((v + more).ceil().max(0.0) as usize).min(side);
        for y in from(top)..to(bottom, self.height) {
            for x in from(left)..to(right, self.width) {
                // the middle of the cell
                let d = away(x as f32 + 0.5, y as f32 + 0.5);
                let cover = d.map_or(0.0, |d| (stroke.half + 0.5 - d).clamp(0.0, 1.0));
                if cover > 0.0 {
                    self.blend(x, y, stroke.colour, cover * stroke.cover);
                }
            }
        }
    }

    pub fn line(&mut self, (x0, y0): (f32, f32), (x1, y1): (f32, f32), stroke: Stroke) {
        let (dx, dy) = (x1 - x0, y1 - y0);
        let square = (dx * dx + dy * dy).max(1e-9);
        let frame = [x0.min(x1), y0.min(y1), x0.max(x1), y0.max(y1)];
        self.near(frame, stroke, |x, y| {
            let t = (((x - x0) * dx + (y - y0) * dy) / square).clamp(0.0, 1.0);
            Some((x - x0 - t * dx).hypot(y - y0 - t * dy))
        });
    }

    /// A ring, whole or of dashes.
    pub fn ring(&mut self, (cx, cy): (f32, f32), radius: f32, dashes: bool, stroke: Stroke) {
        let frame = [cx - radius, cy - radius, cx + radius, cy + radius];
        let many = (radius * 0.9).round().clamp(6.0, 60.0);
        self.near(frame, stroke, |x, y| {
            let gap = dashes && {
                let turn = (y - cy).atan2(x - cx) / std::f32::consts::TAU * many;
                turn - turn.floor() > 0.55
            };
            (!gap).then(|| ((x - cx).hypot(y - cy) - radius).abs())
        });
    }

    /// Small letters and digits; answers where the text ends.
    pub fn text(&mut self, x: usize, y: usize, zoom: usize, colour: Colour, words: &str) -> usize {
        for (k, c) in words.chars().enumerate() {
            for (row, bits) in font::rows(c).into_iter().enumerate() {
                for column in (0..5).filter(|c| bits >> (4 - c) & 1 == 1) {
                    let left = x + (k * LETTER + column) * zoom;
                    for (py, px) in (0..zoom).flat_map(|a| (0..zoom).map(move |b| (a, b))) {
                        let (px, py) = (left + px, y + row * zoom + py);
                        if px < self.width && py < self.height {
                            self.set(px, py, colour);
                        }
                    }
                }
            }
        }
        x + text_width(words, zoom)
    }
}

/// How wide a text is.
pub fn text_width(words: &str, zoom: usize) -> usize {
    words.chars().count() * LETTER * zoom
}
