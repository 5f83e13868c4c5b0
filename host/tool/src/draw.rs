//! The frame with its keypoints on it: a circle as large as the keypoint's size, a line in its direction, a colour for each octave.
//! Records whose 128 values are all zero are white, each kind with its own look. Of thinned keypoints those that are kept are circles of
//! one colour and the others dots of another, over the lines where regions were cut. Of a sheet that was checked the record in which it
//! differs is drawn once more, over all others.

use crate::canvas::{Canvas, Colour, Stroke, text_width};
use crate::cover::{Line, Thinned};
use crate::difference::Difference;
use crate::look::{COLOURS, DIFFERS, Look, ZERO, colour, differs, look};
use crate::patch::Patch;
use crate::pgm::Frame;
use crate::table::Mark;

/// Blue and orange are told apart by every eye.
pub const KEPT: Colour = COLOURS[0];
pub const DROPPED: Colour = [255, 140, 40];
pub const CUT: Colour = [255, 255, 255];
const UNDER: Colour = [12, 16, 22];
const WORDS: Colour = [226, 230, 235];

/// A mark in the frame's cells: a cell's middle is half a cell from its corner.
#[derive(Clone, Copy, Debug, PartialEq)]
pub struct Place {
    pub x: f32,
    pub y: f32,
    pub radius: f32,
    /// Where the line of direction ends.
    pub end: (f32, f32),
}

/// Where a place of octave 0 lies on the frame. A doubled frame's cell d lies at d / 2 − 1/4 of the frame.
pub fn on_frame((x, y): (f32, f32), doubled: bool) -> (f32, f32) {
    let at = |v: f32| if doubled { v / 2.0 - 0.25 } else { v } + 0.5;
    (at(x), at(y))
}

/// The radius of a keypoint of this size.
pub fn radius(size: f32, doubled: bool) -> f32 {
    size / if doubled { 4.0 } else { 2.0 }
}

pub fn place(m: &Mark, doubled: bool) -> Place {
    let radius = radius(m.size, doubled);
    let (sin, cos) = m.angle.to_radians().sin_cos();
    let (x, y) = on_frame((m.x, m.y), doubled);
    Place {
        x,
        y,
        radius,
        end: (x + radius * cos, y + radius * sin),
    }
}

/// Large ones first, so that small ones are seen on them.
pub fn in_order(marks: &[Mark]) -> Vec<&Mark> {
    let mut all: Vec<&Mark> = marks.iter().collect();
    all.sort_by(|a, b| b.size.total_cmp(&a.size));
    all
}

/// A line of the legend: a sign and words, or only words.
#[derive(Clone, Debug, PartialEq)]
pub enum Entry {
    Words(String),
    Octave(u32, String),
    Patch(Patch, String),
    Kept(String),
    Dropped(String),
    Cut(String),
    /// A record that differs, or one that is missing.
    Differs(bool, String),
}

impl Entry {
    pub fn words(&self) -> &str {
        match self {
            Entry::Words(w)
            | Entry::Octave(_, w)
            | Entry::Patch(_, w)
            | Entry::Kept(w)
            | Entry::Dropped(w)
            | Entry::Cut(w)
            | Entry::Differs(_, w) => w,
        }
    }

    /// The colour of its sign; that of the words where it has none.
    pub fn colour(&self) -> Colour {
        match self {
            Entry::Words(_) => WORDS,
            Entry::Octave(octave, _) => colour(*octave),
            Entry::Patch(..) => ZERO,
            Entry::Kept(_) => KEPT,
            Entry::Dropped(_) => DROPPED,
            Entry::Cut(_) => CUT,
            Entry::Differs(..) => DIFFERS,
        }
    }
}

pub fn legend(marks: &[Mark]) -> Vec<Entry> {
    let mut all = vec![Entry::Words(match marks.len() {
        1 => "1 oriented keypoint".into(),
        n => format!("{n} oriented keypoints"),
    })];
    for octave in 0..16 {
        let many = marks.iter().filter(|m| m.octave == octave).count();
        if many > 0 {
            all.push(Entry::Octave(octave, format!("octave {octave}: {many}")));
        }
    }
    // the letters of a picture have no brackets
    for (patch, about) in [
        (Patch::Level, "read, all zero"),
        (Patch::Blank, "no cell read"),
        (Patch::Unknown, "level or blank"),
    ] {
        let many = marks.iter().filter(|m| m.patch == Some(patch)).count();
        if many > 0 {
            let words = format!("{}: {many}, {about}", patch.name());
            all.push(Entry::Patch(patch, words));
        }
    }
    all
}

/// The legend of a sheet that was checked.
pub fn legend_of_checked(marks: &[Mark], difference: Option<&Difference>) -> Vec<Entry> {
    let mut all = legend(marks);
    all.push(match difference {
        None => Entry::Words("as the rules give it".into()),
        Some(d) if d.mark().is_none() => Entry::Words(d.words()),
        Some(d) => Entry::Differs(d.is_missing(), d.words()),
    });
    all
}

/// The legend of thinned keypoints with so many lines of cuts.
pub fn legend_of_thinned(t: &Thinned, cuts: usize) -> Vec<Entry> {
    let tally = t.tally();
    let mut all = vec![
        Entry::Kept(format!("kept: {} of {}", tally.kept, tally.found)),
        Entry::Dropped(format!("dropped: {}", tally.found - tally.kept)),
    ];
    if cuts > 0 {
        all.push(Entry::Cut("cuts".into()));
    }
    let fields = format!(
        "of 64 fields with a keypoint: {} before, {} after",
        tally.before, tally.after
    );
    all.push(Entry::Words(fields));
    all
}

/// A frame's samples, dimmed and brought closer together, so that colours stand out on them.
pub fn shade(v: f32) -> u8 {
    (22.0 + 0.72 * v.clamp(0.0, 255.0)).round() as u8
}

/// The zoom that makes the longer side about 1,280 cells, 1 to 8.
pub fn natural_zoom(frame: &Frame) -> usize {
    (1280 / frame.width.max(frame.height).max(1)).clamp(1, 8)
}

fn background(frame: &Frame, zoom: usize, below: usize) -> Canvas {
    let (width, height) = (frame.width * zoom, frame.height * zoom);
    let mut canvas = Canvas::new(width, height + below, UNDER);
    for y in 0..height {
        let row = &frame.samples[y / zoom * frame.width..];
        for x in 0..width {
            let g = shade(row[x / zoom]);
            // a cold tint, as of film on a light table
            canvas.set(x, y, [g.saturating_sub(g / 12), g, g.saturating_add(4)]);
        }
    }
    canvas
}

fn draw_marks(canvas: &mut Canvas, marks: &[Mark], doubled: bool, zoom: f32) {
    for m in in_order(marks) {
        draw_mark(canvas, &look(m.patch, m.octave), &place(m, doubled), zoom);
    }
}

fn draw_mark(canvas: &mut Canvas, look: &Look, p: &Place, zoom: f32) {
    let half = look.bold * if zoom < 2.0 { 0.5 } else { 0.85 };
    let middle = (p.x * zoom, p.y * zoom);
    let end = (p.end.0 * zoom, p.end.1 * zoom);
    let radius = (p.radius * zoom).max(look.least);
    let under = Stroke {
        half: half + 1.1,
        colour: UNDER,
        cover: 0.55,
    };
    let over = Stroke {
        half,
        colour: look.colour,
        cover: 1.0,
    };
    for stroke in [under, over] {
        draw_look(canvas, middle, radius, look, stroke);
        canvas.line(middle, end, stroke);
    }
}

/// The circle of a mark, and what is in it.
fn draw_look(canvas: &mut Canvas, middle: (f32, f32), radius: f32, look: &Look, stroke: Stroke) {
    canvas.ring(middle, radius, look.dashed, stroke);
    let at = |(x, y): (f32, f32)| (middle.0 + radius * x, middle.1 + radius * y);
    for [from, to] in look.inside {
        canvas.line(at(*from), at(*to), stroke);
    }
}

/// Where each entry of the legend begins, its rows, and the height of a row.
struct Layout {
    places: Vec<(usize, usize)>,
    rows: usize,
    zoom: usize,
}

const SWATCH: usize = 12;

fn layout(entries: &[Entry], width: usize) -> Layout {
    let zoom = (width / 450).clamp(1, 4);
    let gap = 14 * zoom;
    let (mut x, mut rows, mut places) = (gap, 1, Vec::new());
    for e in entries {
        let swatch = if matches!(e, Entry::Words(_)) {
            0
        } else {
            SWATCH * zoom
        };
        let wide = swatch + text_width(e.words(), zoom);
        if x + wide > width && x > gap {
            x = gap;
            rows += 1;
        }
        places.push((x, rows - 1));
        x += wide + gap;
    }
    Layout { places, rows, zoom }
}

impl Layout {
    fn row(&self) -> usize {
        15 * self.zoom
    }

    fn height(&self) -> usize {
        self.rows * self.row() + 3 * self.zoom
    }
}

fn draw_legend(canvas: &mut Canvas, entries: &[Entry], l: &Layout, top: usize) {
    for (e, (x, row)) in entries.iter().zip(&l.places) {
        let (mut x, y) = (*x, top + row * l.row() + 5 * l.zoom);
        if !matches!(e, Entry::Words(_)) {
            let z = l.zoom as f32;
            draw_sign(canvas, e, (x as f32 + 4.0 * z, y as f32 + 3.5 * z), z);
            x += SWATCH * l.zoom;
        }
        canvas.text(x, y, l.zoom, WORDS, e.words());
    }
}

/// The sign of an entry of the legend, about a middle.
fn draw_sign(canvas: &mut Canvas, e: &Entry, middle: (f32, f32), z: f32) {
    let s = Stroke {
        half: 0.6 * z,
        colour: e.colour(),
        cover: 1.0,
    };
    let (x, y) = middle;
    match e {
        Entry::Words(_) => {}
        Entry::Octave(..) => {
            canvas.ring(middle, 3.5 * z, false, s);
            canvas.line(middle, (x + 3.5 * z, y), s);
        }
        Entry::Patch(patch, _) => draw_look(canvas, middle, 3.5 * z, &look(Some(*patch), 0), s),
        Entry::Differs(missing, _) => draw_look(canvas, middle, 2.2 * z, &differs(*missing), s),
        Entry::Kept(_) => canvas.ring(middle, 3.5 * z, false, s),
        Entry::Dropped(_) => dot(canvas, middle, 1.6 * z, s),
        Entry::Cut(_) => canvas.line((x - 3.5 * z, y), (x + 3.5 * z, y), s),
    }
}

fn dot(canvas: &mut Canvas, middle: (f32, f32), radius: f32, stroke: Stroke) {
    let half = radius;
    canvas.line(middle, middle, Stroke { half, ..stroke });
}

/// The frame, what is drawn on it, and the legend below, as a PNG file.
fn page(frame: &Frame, zoom: usize, entries: &[Entry], draw: impl FnOnce(&mut Canvas)) -> Vec<u8> {
    let l = layout(entries, frame.width * zoom);
    let mut canvas = background(frame, zoom, l.height());
    draw(&mut canvas);
    // what a circle near the lower edge drew below the frame is wiped out
    let top = frame.height * zoom;
    for y in top..canvas.height {
        for x in 0..canvas.width {
            canvas.set(x, y, UNDER);
        }
    }
    draw_legend(&mut canvas, entries, &l, top);
    canvas.to_png()
}

/// The picture as a PNG file.
pub fn to_png(frame: &Frame, marks: &[Mark], doubled: bool, zoom: usize) -> Vec<u8> {
    page(frame, zoom, &legend(marks), |canvas| {
        draw_marks(canvas, marks, doubled, zoom as f32);
    })
}

/// The same of a sheet that was checked.
pub fn checked_to_png(
    frame: &Frame,
    marks: &[Mark],
    difference: Option<&Difference>,
    doubled: bool,
    zoom: usize,
) -> Vec<u8> {
    let entries = legend_of_checked(marks, difference);
    page(frame, zoom, &entries, |canvas| {
        let zoom = zoom as f32;
        draw_marks(canvas, marks, doubled, zoom);
        if let Some(d) = difference
            && let Some(m) = d.mark()
        {
            draw_mark(canvas, &differs(d.is_missing()), &place(m, doubled), zoom);
        }
    })
}

/// Kept and dropped keypoints, as a PNG file.
pub fn thinned_to_png(frame: &Frame, t: &Thinned, doubled: bool, zoom: usize) -> Vec<u8> {
    let cuts = t.cuts();
    page(frame, zoom, &legend_of_thinned(t, cuts.len()), |canvas| {
        draw_thinned(canvas, t, &cuts, doubled, zoom as f32);
    })
}

/// Cuts first, and kept ones last, so that these are seen.
fn draw_thinned(canvas: &mut Canvas, t: &Thinned, cuts: &[Line], doubled: bool, zoom: f32) {
    let on = |place: (f32, f32)| {
        let (x, y) = on_frame(place, doubled);
        (x * zoom, y * zoom)
    };
    let stroke = |half, colour, cover| Stroke {
        half,
        colour,
        cover,
    };
    for line in cuts {
        let [from, to] = line.map(|(x, y)| on((x as f32, y as f32)));
        canvas.line(from, to, stroke(0.3, CUT, 0.6));
    }
    let half = if zoom < 2.0 { 0.5 } else { 0.85 };
    for p in t.dropped() {
        let k = &t.keypoints[p];
        let (middle, size) = (on((k.x, k.y)), 2.3 * half);
        dot(canvas, middle, size + 0.8, stroke(0.0, UNDER, 0.55));
        dot(canvas, middle, size, stroke(0.0, DROPPED, 1.0));
    }
    for k in t.kept.iter().map(|&p| &t.keypoints[p]) {
        let middle = on((k.x, k.y));
        let radius = (radius(k.size, doubled) * zoom).max(1.5);
        canvas.ring(middle, radius, false, stroke(half + 1.1, UNDER, 0.55));
        canvas.ring(middle, radius, false, stroke(half, KEPT, 1.0));
    }
}

#[cfg(test)]
mod tests {
    use super::*;

    fn mark(x: f32, patch: Option<Patch>) -> Mark {
        Mark {
            row: 9,
            column: 9,
            octave: 1,
            layer: 1,
            code: 128,
            x,
            y: 9.0,
            size: 0.25,
            response: 0.0,
            angle: 0.0,
            patch,
        }
    }

    #[test]
    fn the_legend_counts_what_has_zeros() {
        let patches = [
            Some(Patch::Blank),
            None,
            Some(Patch::Values),
            Some(Patch::Level),
            Some(Patch::Blank),
            Some(Patch::Unknown),
        ];
        let marks = patches.map(|p| mark(9.0, p));
        let all = legend(&marks);
        let words: Vec<&str> = all.iter().map(Entry::words).collect();
        assert_eq!(
            words,
            [
                "6 oriented keypoints",
                "octave 1: 6",
                "level: 1, read, all zero",
                "blank: 2, no cell read",
                "unknown: 1, level or blank",
            ]
        );
        assert_eq!(legend(&marks[1..3]).len(), 2);
    }

    #[test]
    fn four_looks() {
        let frame = Frame {
            width: 20,
            height: 20,
            samples: vec![99.0; 400],
        };
        let drawn = |p| to_png(&frame, &[mark(9.0, Some(p))], false, 4);
        // the legends differ too, so that the canvas is looked at by itself
        let alone = |p| {
            let mut canvas = background(&frame, 4, 0);
            let m = mark(9.0, Some(p));
            draw_mark(
                &mut canvas,
                &look(m.patch, m.octave),
                &place(&m, false),
                4.0,
            );
            canvas.to_png()
        };
        for (k, a) in Patch::ALL.into_iter().enumerate() {
            for b in &Patch::ALL[..k] {
                assert_ne!(look(Some(a), 1), look(Some(*b), 1));
                assert!(alone(a) != alone(*b) && drawn(a) != drawn(*b));
            }
        }
        assert_eq!(look(None, 1), look(Some(Patch::Values), 1));
    }
}
