//! The lines of the program `point_table`, which the gate holds to `crates/point_table/stdout`, are the table of points:
//! windows and digits rising, each with the point that `to_point`, which adds up constants, has for it.

use std::fs;
use std::path::Path;
use taripomune::*;

/// How many digits each window has: the last one ends where indices do, at 2^31.
const DIGITS: [usize; 8] = [16, 16, 16, 16, 16, 16, 16, 8];

#[test]
fn every_line_has_the_point_of_its_window_and_digit() {
    let file = Path::new(env!("CARGO_MANIFEST_DIR")).join("../crates/point_table/stdout");
    let text = fs::read_to_string(file).unwrap();
    assert!(text.starts_with("0 0 1 0\n"));
    let mut lines = text.split_inclusive('\n');
    for (window, digits) in DIGITS.into_iter().enumerate() {
        for digit in 0..digits {
            let index = CirclePointIndex::new(digit * DIGITS[0].pow(window as u32)).unwrap();
            let CirclePoint { x, y } = index.to_point();
            let expected = format!("{window} {digit} {} {}\n", x.word(), y.word());
            assert_eq!(lines.next(), Some(expected.as_str()));
        }
    }
    assert_eq!(lines.next(), None);
}
