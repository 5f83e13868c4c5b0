//! Points set by hand, as they are given: a line for each, with x, y, size and perhaps an angle between commas.

use crate::Trouble;
use std::mem;

#[derive(Clone, Copy, Debug, PartialEq)]
pub struct Point {
    /// The line that it was read from, counted from 1.
    pub line: usize,
    /// In the frame's cells: a whole number is the middle of one.
    pub x: f32,
    pub y: f32,
    /// A diameter, in the frame's cells.
    pub size: f32,
    /// In degrees, clockwise from the right, 0 to below 360.
    pub angle: Option<f32>,
}

/// The points of a file, in the order of its lines.
#[derive(Clone, Debug, Default, PartialEq)]
pub struct Points {
    /// What the file is called.
    pub file: String,
    pub list: Vec<Point>,
}

/// What is wrong with a line.
pub fn bad_line(file: &str, line: usize, what: String) -> Trouble {
    Trouble::Refused(format!("{file}: line {line}: {what}"))
}

const NAMES: [&str; 4] = ["x", "y", "size", "angle"];

/// The points of a file, or its first bad line and what is wrong with it. Lines may end as on Windows, and spaces around a field do
/// not matter; empty lines are passed over, and so is a first line that names the columns.
pub fn read(file: &str, bytes: &[u8]) -> Result<Points, Trouble> {
    // spreadsheets put a mark before the text
    let bytes = bytes.strip_prefix(b"\xef\xbb\xbf").unwrap_or(bytes);
    let (mut list, mut first) = (Vec::new(), true);
    for (k, line) in bytes.split(|b| *b == b'\n').enumerate() {
        let number = k + 1;
        let told = |what: String| bad_line(file, number, what);
        let line = str::from_utf8(line).map_err(|_| told("this is no text".into()))?;
        if line.trim().is_empty() {
            continue;
        }
        let fields: Vec<&str> = line.split(',').map(str::trim).collect();
        if !(mem::take(&mut first) && names_columns(&fields)) {
            list.push(point(number, &fields).map_err(told)?);
        }
    }
    Ok(Points {
        file: file.into(),
        list,
    })
}

fn names_columns(fields: &[&str]) -> bool {
    let named = |(f, n): (&&str, &str)| f.eq_ignore_ascii_case(n);
    (3..=4).contains(&fields.len()) && fields.iter().zip(NAMES).all(named)
}

fn point(line: usize, fields: &[&str]) -> Result<Point, String> {
    let (three, angle) = match fields {
        [x, y, size] => ([*x, *y, *size], None),
        [x, y, size, angle] => ([*x, *y, *size], Some(*angle).filter(|a| !a.is_empty())),
        _ => {
            return Err(format!(
                "x, y, size and perhaps an angle are wanted between commas, and there {}",
                match fields.len() {
                    1 => "is 1 field".into(),
                    n => format!("are {n} fields"),
                }
            ));
        }
    };
    let mut numbers = [0.0; 3];
    for (n, (name, field)) in numbers.iter_mut().zip(NAMES.into_iter().zip(three)) {
        *n = number(name, field)?;
    }
    let [x, y, size] = numbers;
    if size <= 0.0 {
        return Err(format!("size {} is not above 0", three[2]));
    }
    let angle = angle.map(direction).transpose()?;
    Ok(Point {
        line,
        x,
        y,
        size,
        angle,
    })
}

fn number(name: &str, field: &str) -> Result<f32, String> {
    match field.parse::<f32>() {
        // −0 becomes 0: a sheet has no minus sign
        Ok(v) if v.is_finite() => Ok(v + 0.0),
        _ if field.is_empty() => Err(format!("{name} is missing")),
        _ => Err(format!("{name} '{field}' is no finite number")),
    }
}

fn direction(field: &str) -> Result<f32, String> {
    let angle = number("angle", field)?;
    if (0.0..360.0).contains(&angle) {
        Ok(angle)
    } else {
        Err(format!("angle {field} is not 0 to below 360"))
    }
}

#[cfg(test)]
mod tests {
    use super::*;

    fn one(line: usize, x: f32, y: f32, size: f32, angle: Option<f32>) -> Point {
        Point {
            line,
            x,
            y,
            size,
            angle,
        }
    }

    fn list(text: &str) -> Vec<Point> {
        read("a.csv", text.as_bytes()).unwrap().list
    }

    fn told(bytes: &[u8]) -> String {
        read("a.csv", bytes).unwrap_err().to_string()
    }

    #[test]
    fn every_way_to_write_points() {
        let both = vec![
            one(1, 12.5, 7.0, 4.0, None),
            one(2, 0.0, 0.0, 0.25, Some(90.0)),
        ];
        for text in [
            "12.5,7,4\n0,0,0.25,90\n",
            "12.5,7,4\n0,0,0.25,90",
            "12.5,7,4\r\n0,0,0.25,90\r\n",
            " 12.5 ,\t7, 4.0 ,\n -0, +0 ,.25,9e1 \n\n  \n",
            "\u{feff}12.5,7,4, \n0,-0.0,2.5e-1,90",
        ] {
            assert_eq!(list(text), both, "{text:?}");
            // −0 too is 0 by its bits
            assert!(list(text)[1].y.is_sign_positive());
        }
        for head in ["x,y,size", "X, Y, Size, Angle", "\r\n\nx,y,size,angle\r"] {
            let text = format!("{head}\n1,2,3\n");
            let line = text.lines().count();
            assert_eq!(list(&text), [one(line, 1.0, 2.0, 3.0, None)]);
        }
        for none in ["", "\n\n", "x,y,size\r\n"] {
            assert_eq!(list(none), []);
        }
    }

    #[test]
    fn a_bad_line_is_told_by_its_number() {
        for (text, words) in [
            (
                "1,2",
                "line 1: x, y, size and perhaps an angle are wanted between commas, and there are 2 fields",
            ),
            (
                "1;2;3",
                "line 1: x, y, size and perhaps an angle are wanted between commas, and there is 1 field",
            ),
            (
                "1,2,3\n1,2,3,4,5",
                "line 2: x, y, size and perhaps an angle are wanted between commas, and there are 5 fields",
            ),
            (
                "1,2,3\r\n\r\none,2,3\r\n",
                "line 3: x 'one' is no finite number",
            ),
            ("1,nan,3", "line 1: y 'nan' is no finite number"),
            ("1,2,inf", "line 1: size 'inf' is no finite number"),
            ("1e39,2,3", "line 1: x '1e39' is no finite number"),
            ("1,,3", "line 1: y is missing"),
            ("1,2,,90", "line 1: size is missing"),
            ("1,2,0", "line 1: size 0 is not above 0"),
            ("1,2,-0.0", "line 1: size -0.0 is not above 0"),
            ("1,2,-4", "line 1: size -4 is not above 0"),
            ("1,2,3,north", "line 1: angle 'north' is no finite number"),
            ("1,2,3,-1", "line 1: angle -1 is not 0 to below 360"),
            ("1,2,3,360", "line 1: angle 360 is not 0 to below 360"),
            (
                "1,2,3,359.999999999",
                "line 1: angle 359.999999999 is not 0 to below 360",
            ),
            ("x,y,size\nx,y,size", "line 2: x 'x' is no finite number"),
            ("1,2,3\nx,y,size", "line 2: x 'x' is no finite number"),
            ("x,y,radius", "line 1: x 'x' is no finite number"),
        ] {
            assert_eq!(told(text.as_bytes()), format!("a.csv: {words}"), "{text:?}");
        }
        assert_eq!(told(b"1,2,3\n\xff\xfe\n"), "a.csv: line 2: this is no text");
    }
}
