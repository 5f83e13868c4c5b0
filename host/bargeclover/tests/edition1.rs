//! Sheets of edition 1 that were made before there was another: frames/edition1 has them, and what was read of them then.

use bargeclover::{entries, read_sheet, write_sheet};
use std::fs;
use std::path::Path;

#[test]
fn they_are_read_as_before_but_for_the_blank_word() {
    let folder = Path::new(env!("CARGO_MANIFEST_DIR")).join("../../frames/edition1");
    let (mut records, mut unknown) = (0, 0);
    for name in ["coast", "squares", "none", "zeros"] {
        let bytes = fs::read(folder.join(format!("{name}.sheet"))).unwrap();
        let told = fs::read_to_string(folder.join(format!("{name}.words"))).unwrap();
        let mut lines = told.lines().map(|line| {
            let numbers = line.split(' ').map(|n| n.parse::<u32>().unwrap());
            numbers.collect::<Vec<u32>>()
        });
        let frame = lines.next().unwrap();
        let mut then: Vec<Vec<u32>> = lines.collect();
        for record in &mut then {
            let blank = &mut record[138];
            assert!(*blank <= 1);
            *blank *= 2;
            unknown += *blank / 2;
        }
        records += then.len();
        let then = then.concat();
        let mut now = vec![0; then.len()];
        let (number, count, edition, of_frame) = entries::read_sheet(&bytes, &mut now);
        assert_eq!((number, edition), (0, 1), "{name}");
        let [width, height, layers] = of_frame;
        assert_eq!(
            [width, height, layers, count],
            [0, 1, 2, 3].map(|k| frame[k] as usize),
            "{name}"
        );
        assert_eq!(now, then, "{name}");
        let sheet = read_sheet(&bytes).unwrap();
        assert_eq!(write_sheet(&sheet), Ok(bytes), "{name}");
    }
    assert_eq!((records, unknown), (27, 3));
}
