//! Lines and columns of bytes in example texts.

use bib_source::positions::Positions;
use std::test::Fail;

// Returns the line and the column of a byte offset.
fn at(text: &str, at: usize) -> (usize, usize) {
    let position = Positions::new(text).position(at);
    (position.line, position.column)
}

#[test]
fn lines_and_columns(rt: HostRuntime) -> Result<(), Fail> {
    assert!(rt; at("", 0) == (1, 1));
    assert!(rt; at("ab", 1) == (1, 2));
    assert!(rt; at("ab\ncd", 2) == (1, 3));
    assert!(rt; at("ab\ncd", 3) == (2, 1));
    assert!(rt; at("ab\n\ncd", 5) == (3, 2));
    assert!(rt; at("ab\r\ncd", 3) == (1, 4));
    assert!(rt; at("aé\u{20AC}b", 6) == (1, 4));
    assert!(rt; at("ab\n", 9) == (2, 1));
    Ok(())
}

#[test]
fn places_in_any_order(rt: HostRuntime) -> Result<(), Fail> {
    let mut positions = Positions::of_bytes(b"a\nb\nc\xFF");
    assert!(rt; positions.position(4).line == 3);
    assert!(rt; positions.position(2).line == 2);
    assert!(rt; positions.position(5).column == 2);
    Ok(())
}
