//! Pictures of the lists of orientation and of the descriptor.

use cases::picture::Picture;

/// A picture by its cells.
pub fn made(width: usize, height: usize, sample: impl Fn(usize, usize) -> f32) -> Picture {
    let cells = (0..height).flat_map(|y| (0..width).map(move |x| (y, x)));
    Picture {
        samples: cells.map(|(y, x)| sample(y, x)).collect(),
        width,
        height,
    }
}

/// Slopes along the axes and between them, and none: by how much a cell differs from the one to its left and from the one below.
pub fn slopes() -> Vec<(f32, f32)> {
    let turns = [0.0, 1.0, -1.0];
    let each = turns.iter();
    each.flat_map(|&dx| turns.map(|dy| (dx, dy))).collect()
}

/// Shapes that are refused, with as many samples as they say.
pub fn refused() -> [Picture; 5] {
    [(0, 1), (1, 0), (0, 0), (8193, 1), (1, 8193)].map(|(w, h)| made(w, h, |_, _| 0.0))
}

/// Whether the picture has as many samples as its shape says, and few.
pub fn tellable(p: &Picture, most: usize) -> bool {
    p.width as u128 * p.height as u128 == p.samples.len() as u128 && p.samples.len() <= most
}
