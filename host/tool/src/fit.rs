//! The octave and layer that fit a point set by hand, and the raw keypoint that it becomes there. Layers rise by the same ratio from
//! octave to octave, each to the size that detection gives without an offset; the nearest to the point's size is taken.

use crate::Trouble;
use crate::pgm::Frame;
use crate::points::{Point, Points, bad_line};
use crate::pyramid::sides;
use bargeclover::{Keypoint, Settings};

/// The scales that the library takes, in an octave's cells. A size is twice its scale.
const SCALES: [f32; 2] = [0.125, 64.0];

/// What points are fitted to: a frame, which may be doubled, and the octaves made of it.
pub struct Fit {
    width: usize,
    height: usize,
    double: bool,
    sides: Vec<(usize, usize)>,
    settings: Settings,
}

impl Fit {
    /// Settings are accepted ones.
    pub fn new(frame: &Frame, settings: &Settings, double: bool) -> Fit {
        Fit {
            width: frame.width,
            height: frame.height,
            double,
            sides: sides(frame.width, frame.height, double),
            settings: *settings,
        }
    }

    /// A raw keypoint of each point, in their order; the first that has none is told by its line.
    pub fn keypoints(&self, points: &Points) -> Result<Vec<Keypoint>, Trouble> {
        let each = points.list.iter().map(|p| {
            let told = |what| bad_line(&points.file, p.line, what);
            self.keypoint(p).map_err(told)
        });
        each.collect()
    }

    fn keypoint(&self, p: &Point) -> Result<Keypoint, String> {
        for (name, v, side) in [("x", p.x, self.width), ("y", p.y, self.height)] {
            let last = side - 1;
            if !(0.0..=last as f32).contains(&v) {
                return Err(format!(
                    "{name} {v} is outside of the frame, where it is 0 to {last}"
                ));
            }
        }
        // a place of the frame is at twice it and a half in the doubled frame
        let (x, y, size) = if self.double {
            (2.0 * p.x + 0.5, 2.0 * p.y + 0.5, 2.0 * p.size)
        } else {
            (p.x, p.y, p.size)
        };
        let there = self.there(x, y);
        let Some((last, _)) = there.last() else {
            return Err("no octave is made of a frame with a side below 16 cells".into());
        };
        let nearest = there
            .iter()
            .filter(|(octave, _)| taken(size, *octave))
            .flat_map(|&(octave, cell)| {
                let layers = 1..=self.settings.layers as u32;
                layers.map(move |layer| (octave, layer, cell, self.offset(size, octave, layer)))
            })
            .min_by(|a, b| a.3.abs().total_cmp(&b.3.abs()));
        let Some((octave, layer, (column, row), offset)) = nearest else {
            let times = if self.double { 1.0 } else { 2.0 };
            return Err(format!(
                "size {} is not {} to {}, which the octaves of this frame take there",
                p.size,
                times * SCALES[0],
                times * SCALES[1] * power(*last)
            ));
        };
        // a size beyond the first or the last layer of all has no offset
        let xi = Some(offset as f32).filter(|o| o.abs() < 0.5).unwrap_or(0.0);
        let code = ((xi + 0.5) * 255.0).round_ties_even() as u32;
        Ok(Keypoint {
            x,
            y,
            size,
            response: 0.0,
            octave: octave | layer << 8 | code << 16,
            layer,
            xi,
            column,
            row,
            moves: 0,
        })
    }

    /// The octaves that have a cell at a place of octave 0, with its column and row. The first always has one.
    fn there(&self, x: f32, y: f32) -> Vec<(u32, (u32, u32))> {
        let all = (0..).zip(&self.sides).filter_map(|(octave, &(w, h))| {
            let cell = |v: f32, side: usize| {
                let at = (v / power(octave)).round_ties_even() as usize;
                (at < side).then_some(at as u32)
            };
            Some((octave, (cell(x, w)?, cell(y, h)?)))
        });
        all.collect()
    }

    /// How many layers a size lies above that of a layer.
    fn offset(&self, size: f32, octave: u32, layer: u32) -> f64 {
        let layers = self.settings.layers as f64;
        let first = 2.0 * f64::from(self.settings.sigma as f32) * f64::from(power(octave));
        layers * (f64::from(size) / first).log2() - f64::from(layer)
    }
}

fn power(octave: u32) -> f32 {
    (1u32 << octave) as f32
}

fn taken(size: f32, octave: u32) -> bool {
    let scale = size * 0.5 / power(octave);
    (SCALES[0]..=SCALES[1]).contains(&scale)
}

#[cfg(test)]
mod tests {
    use super::*;
    use crate::find::octave_of;
    use bargeclover::{Picture, Refusal, assign_orientations};

    fn fit(width: usize, height: usize, layers: usize, double: bool) -> Fit {
        let frame = Frame {
            width,
            height,
            samples: Vec::new(),
        };
        let settings = Settings {
            layers,
            ..Settings::default()
        };
        Fit::new(&frame, &settings, double)
    }

    fn point(x: f32, y: f32, size: f32) -> Point {
        Point {
            line: 3,
            x,
            y,
            size,
            angle: None,
        }
    }

    #[test]
    fn a_layer_s_own_size_has_its_octave_layer_and_no_offset() {
        for (layers, double) in [(1, false), (3, false), (5, true), (15, false)] {
            let f = fit(640, 480, layers, double);
            for octave in 0..f.sides.len() as u32 {
                for layer in 1..=layers as u32 {
                    let s = 1.6f32 * 2.0 * power(octave);
                    let size = s * (layer as f32 / layers as f32).exp2();
                    let given = if double { size / 2.0 } else { size };
                    let k = f.keypoint(&point(200.25, 100.5, given)).unwrap();
                    assert_eq!(k.size, size);
                    assert_eq!(k.octave & 0xffff, octave | layer << 8, "{size}");
                    assert_eq!((k.layer, k.moves, k.response), (layer, 0, 0.0));
                    // (0 + 0.5) * 255 is 127.5, and its even neighbour 128
                    assert!(k.xi.abs() < 1e-4 && matches!(k.octave >> 16, 127 | 128));
                    let (x, y) = if double {
                        (401.0, 201.5)
                    } else {
                        (200.25, 100.5)
                    };
                    assert_eq!((k.x, k.y), (x, y));
                    let at = |v: f32| (v / power(octave)).round_ties_even() as u32;
                    assert_eq!((k.column, k.row), (at(x), at(y)));
                }
            }
        }
    }

    #[test]
    fn what_remains_is_the_offset_and_beyond_all_layers_none() {
        let f = fit(64, 64, 3, false);
        // three octaves, of 64, 32 and 16 cells
        assert_eq!(f.sides.len(), 3);
        let at = |size| {
            let k = f.keypoint(&point(20.0, 20.0, size)).unwrap();
            (k.octave & 255, k.layer, k.xi, k.octave >> 16)
        };
        let (octave, layer, xi, code) = at(3.2 * (1.25f32 / 3.0).exp2());
        assert_eq!((octave, layer), (0, 1));
        assert!((xi - 0.25).abs() < 1e-5);
        assert_eq!(code, 191);
        // from the last layer of an octave to the first of the next
        let (octave, layer, xi, _) = at(6.4 * (0.6f32 / 3.0).exp2());
        assert_eq!((octave, layer), (1, 1));
        assert!((xi + 0.4).abs() < 1e-5);
        assert_eq!(at(0.25), (0, 1, 0.0, 128));
        assert_eq!(at(512.0), (2, 3, 0.0, 128));
    }

    #[test]
    fn an_octave_without_the_cell_is_passed_over() {
        // octave 1 has 16 columns, and 32 / 2 is the seventeenth
        let f = fit(33, 33, 3, false);
        assert_eq!(f.sides, [(33, 33), (16, 16)]);
        let octave = |x: f32| octave_of(&f.keypoint(&point(x, 8.0, 10.0)).unwrap());
        assert_eq!((octave(30.0), octave(32.0)), (1, 0));
        // the middle between two cells goes to the even one
        let k = f.keypoint(&point(9.0, 11.0, 10.0)).unwrap();
        assert_eq!((k.column, k.row), (4, 6));
    }

    #[test]
    fn what_is_refused_is_told_with_its_line() {
        let told = |f: &Fit, p: Point| {
            let points = Points {
                file: "a.csv".into(),
                list: vec![p],
            };
            let words = f.keypoints(&points).unwrap_err().to_string();
            words.strip_prefix("a.csv: line 3: ").unwrap().to_string()
        };
        let f = fit(64, 48, 3, false);
        for (x, y, words) in [
            (
                64.0,
                1.0,
                "x 64 is outside of the frame, where it is 0 to 63",
            ),
            (
                63.5,
                1.0,
                "x 63.5 is outside of the frame, where it is 0 to 63",
            ),
            (
                1.0,
                -0.5,
                "y -0.5 is outside of the frame, where it is 0 to 47",
            ),
            (
                1.0,
                1e30,
                "y 1000000000000000000000000000000 is outside of the frame, where it is 0 to 47",
            ),
        ] {
            assert_eq!(told(&f, point(x, y, 4.0)), words);
        }
        assert_eq!(
            told(&f, point(9.0, 9.0, 0.2)),
            "size 0.2 is not 0.25 to 256, which the octaves of this frame take there"
        );
        assert_eq!(
            told(&f, point(9.0, 9.0, 257.0)),
            "size 257 is not 0.25 to 256, which the octaves of this frame take there"
        );
        let doubled = fit(64, 48, 3, true);
        assert_eq!(
            told(&doubled, point(9.0, 9.0, 3e38)),
            "size 300000000000000000000000000000000000000 is not 0.125 to 256, which the octaves of this frame take there"
        );
        let small = fit(64, 15, 3, false);
        assert!(small.keypoints(&Points::default()).is_ok());
        assert_eq!(
            told(&small, point(1.0, 1.0, 4.0)),
            "no octave is made of a frame with a side below 16 cells"
        );
    }

    /// The ends of the scales are the library's own.
    #[test]
    fn scales_are_the_library_s() {
        let picture = Picture {
            samples: &[0.0],
            width: 1,
            height: 1,
        };
        let asked = |size: f32, octave: u32| {
            let k = Keypoint {
                size,
                octave: octave | 1 << 8,
                ..Keypoint::from_words(&[0; Keypoint::WORDS])
            };
            assign_orientations(&picture, &k).map(|_| ())
        };
        for octave in 0..16 {
            let (low, high) = (0.25 * power(octave), 128.0 * power(octave));
            for (size, in_range) in [
                (low, true),
                (low.next_down(), false),
                (high, true),
                (high.next_up(), false),
            ] {
                assert_eq!(taken(size, octave), in_range);
                let answer = if in_range {
                    Ok(())
                } else {
                    Err(Refusal::Field)
                };
                assert_eq!(asked(size, octave), answer);
            }
        }
    }
}
