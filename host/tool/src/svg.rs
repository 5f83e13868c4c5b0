//! The picture as SVG: the frame inside it as a grey PNG, the marks as shapes that say their fields where a pointer rests on them.

use crate::cover::Thinned;
use crate::difference::Difference;
use crate::draw::{
    CUT, DROPPED, Entry, KEPT, in_order, legend, legend_of_checked, legend_of_thinned, on_frame,
    place, radius, shade,
};
use crate::look::{Look, differs, look};
use crate::pgm::Frame;
use crate::png::{self, Kind};
use crate::table::Mark;
use std::fmt::Write;

/// The letters of base 64.
fn base64(bytes: &[u8]) -> String {
    const LETTERS: &[u8; 64] = b"ABCDEFGHIJKLMNOPQRSTUVWXYZabcdefghijklmnopqrstuvwxyz0123456789+/";
    let mut out = String::with_capacity(bytes.len().div_ceil(3) * 4);
    for part in bytes.chunks(3) {
        let n = part.iter().fold(0u32, |n, b| n << 8 | u32::from(*b)) << (8 * (3 - part.len()));
        for k in 0..4 {
            out.push(if k <= part.len() {
                LETTERS[(n >> (18 - 6 * k)) as usize & 63] as char
            } else {
                '='
            });
        }
    }
    out
}

/// How wide a line is.
const STROKE: f32 = 0.5;

fn hex([r, g, b]: [u8; 3]) -> String {
    format!("#{r:02x}{g:02x}{b:02x}")
}

/// The circle of a mark and what is in it, as a path and its look.
fn ring((x, y): (f32, f32), r: f32, look: &Look) -> (String, String) {
    let mut path = format!(
        "M{:.2} {y:.2}a{r:.2} {r:.2} 0 1 0 {:.2} 0a{r:.2} {r:.2} 0 1 0 {:.2} 0",
        x - r,
        2.0 * r,
        -2.0 * r
    );
    for [from, to] in look.inside {
        let at = |(u, v): &(f32, f32)| format!("{:.2} {:.2}", x + r * u, y + r * v);
        let _ = write!(path, "M{}L{}", at(from), at(to));
    }
    let mut words = format!("stroke=\"{}\"", hex(look.colour));
    if look.bold != 1.0 {
        let _ = write!(words, " stroke-width=\"{:.2}\"", look.bold * STROKE);
    }
    if look.dashed {
        let (dash, gap) = ((0.5 * r).min(1.5), (0.35 * r).min(1.0));
        let _ = write!(words, " stroke-dasharray=\"{dash:.2} {gap:.2}\"");
    }
    (path, words)
}

/// A mark that says these words.
fn shape(m: &Mark, look: &Look, words: &str, doubled: bool, zoom: usize) -> String {
    let p = place(m, doubled);
    let radius = p.radius.max(look.least / zoom as f32);
    let (path, stroke) = ring((p.x, p.y), radius, look);
    let line = format!("M{:.2} {:.2}L{:.2} {:.2}", p.x, p.y, p.end.0, p.end.1);
    format!("<path d=\"{path}{line}\" {stroke}><title>{words}</title></path>\n")
}

/// A mark that says its fields.
fn plain(m: &Mark, doubled: bool, zoom: usize) -> String {
    let patch = m.patch.map_or(String::new(), |p| format!(", {}", p.name()));
    let words = format!(
        "x {}, y {}, size {}, response {}, angle {}, octave {}, layer {}, row {}, column {}{patch}",
        m.x, m.y, m.size, m.response, m.angle, m.octave, m.layer, m.row, m.column
    );
    shape(m, &look(m.patch, m.octave), &words, doubled, zoom)
}

fn shapes(marks: &[Mark], doubled: bool, zoom: usize) -> String {
    let each = in_order(marks).into_iter().map(|m| plain(m, doubled, zoom));
    each.collect()
}

pub fn to_svg(frame: &Frame, marks: &[Mark], doubled: bool, zoom: usize) -> String {
    page(frame, zoom, &legend(marks), &shapes(marks, doubled, zoom))
}

/// The same of a sheet that was checked.
pub fn checked_to_svg(
    frame: &Frame,
    marks: &[Mark],
    difference: Option<&Difference>,
    doubled: bool,
    zoom: usize,
) -> String {
    let mut s = shapes(marks, doubled, zoom);
    if let Some(d) = difference
        && let Some(m) = d.mark()
    {
        s += &shape(m, &differs(d.is_missing()), &d.words(), doubled, zoom);
    }
    page(frame, zoom, &legend_of_checked(marks, difference), &s)
}

/// Kept keypoints as circles, dropped ones as dots, and the lines where regions were cut.
pub fn thinned_to_svg(frame: &Frame, t: &Thinned, doubled: bool, zoom: usize) -> String {
    let cuts = t.cuts();
    let mut s = format!("<g stroke=\"{}\" stroke-width=\"0.2\">\n", hex(CUT));
    for line in &cuts {
        let [a, b] = line.map(|(x, y)| on_frame((x as f32, y as f32), doubled));
        let _ = writeln!(s, "<path d=\"M{} {}L{} {}\"/>", a.0, a.1, b.0, b.1);
    }
    let _ = writeln!(s, "</g>\n<g stroke=\"none\" fill=\"{}\">", hex(DROPPED));
    for p in t.dropped() {
        s += &circle(t, p, 0.7, doubled);
    }
    let _ = writeln!(s, "</g>\n<g stroke=\"{}\">", hex(KEPT));
    for &p in &t.kept {
        s += &circle(t, p, radius(t.keypoints[p].size, doubled), doubled);
    }
    s += "</g>\n";
    page(frame, zoom, &legend_of_thinned(t, cuts.len()), &s)
}

/// A keypoint by its position in the list.
fn circle(t: &Thinned, position: usize, radius: f32, doubled: bool) -> String {
    let k = &t.keypoints[position];
    let (x, y) = on_frame((k.x, k.y), doubled);
    format!(
        "<circle cx=\"{x:.2}\" cy=\"{y:.2}\" r=\"{radius:.2}\"><title>keypoint {position}: x {}, y {}, size {}, response {}, octave {}, layer {}, row {}, column {}</title></circle>\n",
        k.x,
        k.y,
        k.size,
        k.response,
        k.octave & 255,
        k.octave >> 8 & 255,
        k.row,
        k.column
    )
}

/// The frame with shapes on it, and the legend below.
fn page(frame: &Frame, zoom: usize, entries: &[Entry], shapes: &str) -> String {
    let (w, h) = (frame.width, frame.height);
    let grey: Vec<u8> = frame.samples.iter().map(|v| shade(*v)).collect();
    let inside = base64(&png::encode(w, h, Kind::Grey, &grey));
    // a line of the legend for each entry, in a size that goes with the frame
    let letter = (w as f32 / 45.0).clamp(3.0, 60.0);
    let below = letter * 1.6 * entries.len() as f32 + letter;
    let high = h as f32 + below;
    let mut s = format!(
        "<svg xmlns=\"http://www.w3.org/2000/svg\" viewBox=\"0 0 {w} {high:.2}\" width=\"{}\" height=\"{:.0}\">\n\
         <rect width=\"{w}\" height=\"{high:.2}\" fill=\"#0c1016\"/>\n\
         <image width=\"{w}\" height=\"{h}\" style=\"image-rendering:pixelated\" href=\"data:image/png;base64,{inside}\"/>\n\
         <clipPath id=\"frame\"><rect width=\"{w}\" height=\"{h}\"/></clipPath>\n\
         <g fill=\"none\" stroke-width=\"{STROKE}\" pointer-events=\"all\" clip-path=\"url(#frame)\">\n{shapes}</g>\n\
         <g font-family=\"sans-serif\" font-size=\"{letter:.2}\" stroke-width=\"{STROKE}\">\n",
        w * zoom,
        high * zoom as f32,
    );
    for (k, e) in entries.iter().enumerate() {
        let (fill, words) = (hex(e.colour()), e.words());
        let y = h as f32 + letter * 1.6 * (k as f32 + 1.0);
        let sign = sign(e, (1.3 * letter, y - 0.35 * letter), 0.45 * letter);
        s += &sign;
        let _ = writeln!(
            s,
            "<text x=\"{:.2}\" y=\"{y:.2}\" fill=\"{fill}\">{words}</text>",
            if sign.is_empty() {
                letter
            } else {
                2.2 * letter
            }
        );
    }
    s += "</g>\n</svg>\n";
    s
}

/// What stands before the words of an entry: how its marks look, where their colour alone does not say it.
fn sign(e: &Entry, middle: (f32, f32), radius: f32) -> String {
    let (look, radius) = match e {
        Entry::Patch(patch, _) => (look(Some(*patch), 0), radius),
        // the square goes about it
        Entry::Differs(missing, _) => (differs(*missing), 0.6 * radius),
        _ => return String::new(),
    };
    let (path, words) = ring(middle, radius, &look);
    format!("<path d=\"{path}\" fill=\"none\" {words}/>\n")
}

#[cfg(test)]
mod tests {
    use super::*;
    use crate::patch::Patch;

    #[test]
    fn base64_as_in_its_standard() {
        for (bytes, words) in [
            ("", ""),
            ("f", "Zg=="),
            ("fo", "Zm8="),
            ("foo", "Zm9v"),
            ("foob", "Zm9vYg=="),
            ("fooba", "Zm9vYmE="),
            ("foobar", "Zm9vYmFy"),
        ] {
            assert_eq!(base64(bytes.as_bytes()), words);
        }
    }

    #[test]
    fn four_things_are_told_apart() {
        let frame = Frame {
            width: 50,
            height: 40,
            samples: vec![99.0; 2000],
        };
        let mark = |patch| Mark {
            row: 9,
            column: 9,
            octave: 0,
            layer: 1,
            code: 128,
            x: 9.0,
            y: 9.0,
            size: 0.25,
            response: 0.0,
            angle: 0.0,
            patch: Some(patch),
        };
        let marks = Patch::ALL.map(mark);
        let mut shapes: Vec<String> = marks.iter().map(|m| plain(m, false, 2)).collect();
        for (s, p) in shapes.iter().zip(Patch::ALL) {
            assert!(s.contains(&format!(", {}</title>", p.name())), "{s}");
        }
        // without their words they differ too
        for s in &mut shapes {
            s.truncate(s.find("<title>").unwrap());
        }
        shapes.sort();
        shapes.dedup();
        assert_eq!(shapes.len(), 4);
        let svg = to_svg(&frame, &marks, false, 2);
        for words in [
            "level: 1, read, all zero",
            "blank: 1, no cell read",
            "unknown: 1, level or blank",
        ] {
            assert_eq!(
                svg.matches(&format!(">{words}</text>")).count(),
                1,
                "{words}"
            );
        }
        assert_eq!(svg.matches("<path ").count(), 4 + 3);
    }
}
