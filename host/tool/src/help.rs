//! What the tool says of itself.

use crate::args::Opt;
use std::fmt::Write;

/// A command, as its help shows it.
pub struct Command {
    pub name: &'static str,
    pub files: &'static str,
    pub about: &'static str,
    pub options: &'static [&'static [Opt]],
    pub more: &'static str,
}

const fn opt(
    name: &'static str,
    letter: Option<char>,
    value: Option<&'static str>,
    about: &'static str,
) -> Opt {
    Opt {
        name,
        letter,
        value,
        about,
    }
}

const HELP: &[Opt] = &[opt("help", Some('h'), None, "show this and end")];

const SETTINGS: &[Opt] = &[
    opt(
        "contrast",
        None,
        Some("NUMBER"),
        "drop weaker extrema, 0 to 1 [0.04]",
    ),
    opt(
        "edge",
        None,
        Some("NUMBER"),
        "drop what lies along an edge, 1 to 1000 [10]",
    ),
    opt(
        "sigma",
        None,
        Some("NUMBER"),
        "blur of the first plane, 0.5 to 16 [1.6]",
    ),
    opt(
        "layers",
        None,
        Some("NUMBER"),
        "layers searched in an octave, 1 to 15 [3]",
    ),
    opt(
        "double",
        None,
        None,
        "search the frame at twice its width and height first",
    ),
];

const QUOTA: &[Opt] = &[
    opt(
        "quota",
        None,
        Some("NUMBER"),
        "keep at most so many keypoints, evenly over the frame",
    ),
    opt(
        "depth",
        None,
        Some("NUMBER"),
        "how often regions are cut for the quota, 0 to 12 [12]",
    ),
];

const QUIET: &[Opt] = &[opt("quiet", Some('q'), None, "show no progress")];

const CSV: &[Opt] = &[opt(
    "csv",
    None,
    None,
    "comma-separated lines, every number exact",
)];

macro_rules! planes {
    () => {
        "\
The frame is a PGM file (P5 or P2, 8 or 16 bits); its samples are scaled to 0 to 255. The planes that are searched are made by
this tool and are not part of what is proved; what the library does with them is.
With --double the octaves, cells, x, y and size are those of the doubled frame: octave 0 is twice as wide and high as the file.
With --quota the keypoints of all octaves are thinned before they are given their directions, by the library. A region with more than
its quota is cut into quarters, and each has a fourth of it; below 4, or when it was cut --depth times, the strongest are kept. It is
said how many are kept, and how many of 8 x 8 fields of the frame have a keypoint before and after."
    };
}

const SHEET: &[Opt] = &[
    opt(
        "output",
        Some('o'),
        Some("FILE"),
        "the sheet, or a folder for the sheets",
    ),
    opt(
        "edition",
        None,
        Some("NUMBER"),
        "the sheet's edition, 2 or 1 [2]",
    ),
    opt(
        "points",
        None,
        Some("FILE"),
        "points set by hand, which have records beside what is found",
    ),
    opt(
        "only-points",
        None,
        None,
        "search nothing: records of the points alone",
    ),
];

pub const EXTRACT: Command = Command {
    name: "extract",
    files: "FRAME.pgm..",
    about: "make a sheet of the keypoints of each frame",
    options: &[SHEET, SETTINGS, QUOTA, QUIET, HELP],
    more: concat!(
        "Where a folder is named, which has to be there, each sheet has its frame's name in it. Of several frames those that are refused\n\
         are told, and the others are made.\n\
         Edition 2 tells a level patch, which was read, from a blank one, of which no cell was read. Edition 1 leaves both unknown.\n\
         --points names a file of lines x,y,size or x,y,size,angle, of one frame. A first line may name these columns; empty lines, spaces and\n\
         Windows line ends do not matter; a line that is wrong is refused with its number. x and y are in cells of the file, 0 to its width or\n\
         height less 1, whole numbers in the middle of a cell. The size is a diameter in cells, as `bargeclover show` prints it: it decides\n\
         the octave and layer, those whose own size is nearest and whose octave has a cell there, and is kept as it is. The angle is in\n\
         degrees, clockwise from the right, 0 to below 360. Without one the point has the directions that are found for it, or 0 where there\n\
         are none, so that each point has a record. Their records come last, in the order of the lines, with a response of 0. A --quota does\n\
         not count them and drops none. With --double x and y become 2x + 1/2 and 2y + 1/2, the same places of the doubled frame, and the\n\
         size is doubled.\n",
        planes!()
    ),
};

pub const FIND: Command = Command {
    name: "find",
    files: "FRAME.pgm",
    about: "list the keypoints of a frame with their directions",
    options: &[CSV, SETTINGS, QUOTA, QUIET, HELP],
    more: planes!(),
};

pub const SHOW: Command = Command {
    name: "show",
    files: "SHEET",
    about: "print a sheet as a table",
    options: &[
        &[opt("record", Some('r'), Some("NUMBER"), "one record in full, counted from 0")],
        CSV,
        HELP,
    ],
    more: "\
The table's numbers are rounded; --csv has them exact, with the 128 values. x, y and size are in cells of octave 0, row and column
are the keypoint's cell in its own octave, the angle is in degrees, clockwise from the right. The last column tells of the patch:
  values   not all of the 128 values are zero
  level    cells of it were read, and all values are zero
  blank    no cell of it was read; all values are zero
  unknown  all values are zero, and a sheet of edition 1 can't say whether a cell was read",
};

pub const CHECK: Command = Command {
    name: "check",
    files: "SHEET..",
    about: "say whether sheets are sound, or as the rules give them",
    options: &[
        &[opt("against", None, Some("FRAME.pgm"), "check them against the frame")],
        SETTINGS,
        QUIET,
        HELP,
    ],
    more: "\
One line for each sheet: that it is sound, with its edition and how many of its records are level, blank or unknown, which
`bargeclover help show` explains; or the library's number and the first field found at fault. Ends with 0 where all are sound and
with 1 where one is not.
With --against each is held to the sheet that `bargeclover extract` makes of the frame under the same options: all records, octave by
octave, bit for bit. The planes are made by this tool, as there; the records of each octave are checked by the library. It is said that
a sheet is as the rules give it, or where it first differs: the header; a record behind one of a later octave; a field of a record,
and what the rules give there; or from which record on some are missing or left over. Records are counted from 0. Ends with 1 where a
sheet differs or is not sound. A sheet that a --quota thinned, or that has --points, is no such sheet and differs.",
};

pub const DRAW: Command = Command {
    name: "draw",
    files: "FRAME.pgm [SHEET]",
    about: "draw keypoints over their frame, as PNG or SVG",
    options: &[
        &[
            opt("output", Some('o'), Some("FILE"), "the picture, a name that ends in .png or .svg"),
            opt("zoom", Some('z'), Some("NUMBER"), "cells of the picture for each of the frame, 1 to 16"),
            opt("check", None, None, "check the SHEET, and mark its first difference"),
        ],
        SETTINGS,
        QUOTA,
        QUIET,
        HELP,
    ],
    more: "\
A circle is as large as the keypoint's size, its line shows the direction, its colour the octave. Records whose 128 values are
all zero are white: level ones have a level line through the circle, blank ones are dashed and crossed out, unknown ones dashed; they
are never drawn too small to be told apart. Without a SHEET the frame is searched, as `bargeclover find` does, and the options for that
apply.
A SHEET of the doubled frame is drawn on the frame itself.
With --quota, and without a SHEET, the keypoints that are kept are circles, those that are dropped dots, and lines show where regions
were cut.
With --check the SHEET is checked as by `bargeclover check SHEET --against FRAME.pgm`, with the options for a search but --quota and
--depth; what is said of it is said here too, and the status is the same. The record in which it first differs is red and in a square;
a record that is missing is dashed.",
};

pub const COMMANDS: &[&Command] = &[&EXTRACT, &FIND, &SHOW, &CHECK, &DRAW];

impl Command {
    /// All its options.
    pub fn known(&self) -> Vec<Opt> {
        self.options.concat()
    }

    pub fn help(&self) -> String {
        let mut s = format!(
            "bargeclover {}: {}\n\n  bargeclover {} {} [OPTIONS]\n\n",
            self.name, self.about, self.name, self.files
        );
        for o in self.known() {
            let letter = o.letter.map_or("    ".into(), |l| format!("-{l}, "));
            let value = o.value.map_or(String::new(), |v| format!(" {v}"));
            let left = format!("{letter}--{}{value}", o.name);
            let _ = writeln!(s, "  {left:<26}{}", o.about);
        }
        let _ = write!(s, "\n{}\n", self.more);
        s
    }
}

pub fn general() -> String {
    let mut s = String::from(
        "bargeclover: keypoints for tying frames of aerial film together\n\n  bargeclover COMMAND FILES [OPTIONS]\n\n",
    );
    for c in COMMANDS {
        let left = format!("{} {}", c.name, c.files);
        let _ = writeln!(s, "  {left:<26}{}", c.about);
    }
    for (left, about) in [
        (
            "help [COMMAND]",
            "what a command does and its options; also COMMAND --help",
        ),
        ("--version", "the version"),
    ] {
        let _ = writeln!(s, "  {left:<26}{about}");
    }
    s += "
A file named - is standard input or output. What is printed goes to standard output, complaints and progress to standard error.
Ends with 0 where all is done, 1 where a frame, a sheet or a setting is refused, 2 where the command is written wrongly, and 3 where
a file can't be read or written.
";
    s
}

pub fn version() -> String {
    format!("bargeclover {}\n", env!("CARGO_PKG_VERSION"))
}
