//! The picture as SVG: bands from top to bottom, in each the crates from left to right as they stand on one another.

use crate::crates::{Group, depths, stands_on, steps};
use std::fmt::Write;

const WIDE: usize = 172;
const HIGH: usize = 26;
const APART: usize = 44;
const BETWEEN: usize = 10;
const LEFT: usize = 24;
const HEAD: usize = 46;

struct Spot {
    x: usize,
    y: usize,
}

/// Where the boxes of a group stand under `top`, and how high its band is.
fn spots(group: &Group, top: usize) -> (Vec<Spot>, usize) {
    let depth = depths(group);
    let mut rows = vec![0; group.crates.len() + 1];
    let mut all = Vec::new();
    for d in &depth {
        all.push(Spot {
            x: LEFT + d * (WIDE + APART),
            y: top + HEAD + rows[*d] * (HIGH + BETWEEN),
        });
        rows[*d] += 1;
    }
    let most = rows.iter().max().copied().unwrap_or(0);
    (all, HEAD + most * (HIGH + BETWEEN) + BETWEEN)
}

/// A line from one box to another. Where it passes a column it goes below the row that it came from, so that it crosses no box.
fn line(from: &Spot, to: &Spot) -> String {
    let (x0, y0) = (from.x + WIDE, from.y + HIGH / 2);
    let (x1, y1) = (to.x, to.y + HIGH / 2);
    let half = APART / 2;
    if x0 + APART >= x1 {
        return format!(
            "M{x0} {y0} C{} {y0} {} {y1} {x1} {y1}",
            x0 + half,
            x1 - half
        );
    }
    let lane = from.y + HIGH + BETWEEN / 2;
    let (quarter, a, b) = (half / 2, x0 + half, x1 - half);
    format!(
        "M{x0} {y0} C{} {y0} {} {lane} {a} {lane} H{b} C{} {lane} {} {y1} {x1} {y1}",
        x0 + quarter,
        a - quarter,
        b + quarter,
        x1 - quarter
    )
}

fn short(title: &str) -> &str {
    title.split(':').next().unwrap()
}

fn band(out: &mut String, all: &[Group], group: &Group, top: usize, wide: usize) -> usize {
    let (spots, high) = spots(group, top);
    let on: Vec<&str> = stands_on(all, group)
        .iter()
        .map(|&i| short(&all[i].title))
        .collect();
    let _ = writeln!(
        out,
        "<rect class=\"band\" x=\"8\" y=\"{top}\" width=\"{}\" height=\"{high}\" rx=\"6\"/>",
        wide - 16
    );
    let _ = writeln!(
        out,
        "<text class=\"title\" x=\"{LEFT}\" y=\"{}\">{}</text>",
        top + 19,
        group.title
    );
    if !on.is_empty() {
        let _ = writeln!(
            out,
            "<text class=\"on\" x=\"{LEFT}\" y=\"{}\">on {}</text>",
            top + 35,
            on.join(", ")
        );
    }
    for (j, i) in steps(group) {
        let _ = writeln!(out, "<path d=\"{}\"/>", line(&spots[j], &spots[i]));
    }
    for (c, at) in group.crates.iter().zip(&spots) {
        let _ = writeln!(
            out,
            "<rect class=\"box\" x=\"{}\" y=\"{}\" width=\"{WIDE}\" height=\"{HIGH}\" rx=\"4\"/>",
            at.x, at.y
        );
        let _ = writeln!(
            out,
            "<text x=\"{}\" y=\"{}\">{}</text>",
            at.x + 10,
            at.y + 17,
            c.name
        );
    }
    high
}

pub fn picture(all: &[Group]) -> String {
    let deepest = all.iter().flat_map(depths).max().unwrap_or(0);
    let wide = LEFT * 2 + (deepest + 1) * WIDE + deepest * APART;
    let mut body = String::new();
    let mut top = 8;
    for group in all {
        top += band(&mut body, all, group, top, wide) + 8;
    }
    let style = "text{font:13px sans-serif;fill:#1b2a38}.title{font-weight:bold}.on{font-size:11px;fill:#5b6b7a}\
                 .band{fill:#f2f5f7;stroke:#c9d3da}.box{fill:#fff;stroke:#5b7f99}path{fill:none;stroke:#8aa2b3}";
    format!(
        "<svg xmlns=\"http://www.w3.org/2000/svg\" width=\"{wide}\" height=\"{top}\" viewBox=\"0 0 {wide} {top}\">\n\
         <style>{style}</style>\n{body}</svg>\n"
    )
}
