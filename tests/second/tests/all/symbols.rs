//! The readings B-23 to B-30 of document 01, "The file", 5 and 6, and "The
//! numbers", 8 and 9: symbols and comment.

use crate::common::{assert_refused, assert_taken, circuit};

/// Two inputs, one latch; the first symbol line is line 6.
const BODY: &str = "aag 3 2 1 1 0\n2\n4\n6 0\n0\n";

fn with(symbols: &str) -> String {
    format!("{BODY}{symbols}\n")
}

fn flags(symbols: &str) -> Vec<bool> {
    let inputs = circuit(with(symbols)).inputs;
    inputs.iter().map(|input| input.controllable).collect()
}

#[test]
fn b23_form() {
    assert_taken(with("i0 a"));
    assert_taken(with("l0 a\ni1 a\no0 a\ni0 a"));
    for bad in [
        "i0", "i0a", "i a", "i", "i00 a", "i01 a", "j0 a", "a0 a", "I0 a", "b0 a", "0 a", "i0x a",
        "i0,a", "ii0 a",
    ] {
        assert_refused(with(bad), 8, 6);
    }
    assert_refused(with("i2 a"), 8, 6);
    assert_refused(with("l1 a"), 8, 6);
    assert_refused(with("o1 a"), 8, 6);
    assert_refused("aag 0 0 0 1 0\n0\ni0 a\n", 8, 3);
    assert_refused("aag 0 0 0 1 0\n0\nl0 a\n", 8, 3);
}

#[test]
fn b24_spaces_in_names() {
    assert_taken(with("i0  "));
    assert_taken(with("i0  a "));
    assert_taken(with("i0 a b  c"));
    assert_eq!(flags("i0  controllable_x"), [false, false]);
    assert_eq!(flags("i0 controllable_ x"), [true, false]);
}

#[test]
fn b25_name_length() {
    assert_refused(with("i0 "), 8, 6);
    assert_taken(with(&format!("i0 {}", "n".repeat(200))));
    assert_refused(with(&format!("i0 {}", "n".repeat(201))), 8, 6);
}

#[test]
fn names_of_bytes_from_32_to_126() {
    for byte in 0..=255u8 {
        let file = [BODY.as_bytes(), b"i0 a", &[byte], b"z\n"].concat();
        match byte {
            32..=126 => assert_taken(file),
            10 => assert_refused(file, 8, 7),
            _ => assert_refused(file, 8, 6),
        }
    }
}

#[test]
fn b26_repeated_symbols() {
    assert_refused(with("i0 a\nl0 a\ni0 b"), 8, 8);
    assert_refused(with("o0 a\no0 a"), 8, 7);
    assert_taken(with("i0 a\ni1 a\nl0 a\no0 a"));
}

#[test]
fn b27_the_comment() {
    assert_taken(with("c"));
    assert_taken(format!("{BODY}c\nanything\n\n\u{7}i9"));
    assert_taken([BODY.as_bytes(), b"c\n\xff\x00\nc"].concat());
    for bad in ["c ", "cc", "c x", "C", "c\r", "c0 a"] {
        assert_refused(with(bad), 8, 6);
    }
    assert_refused(with("i0 a\nc \ni1 a"), 8, 7);
    // Symbols can't follow the comment.
    assert_eq!(flags("c\ni0 controllable_x"), [false, false]);
}

#[test]
fn b28_controllable_inputs() {
    assert_eq!(flags("i1 controllable_"), [false, true]);
    assert_eq!(flags("i1 controllable_x\ni0 controllable_"), [true, true]);
    assert_eq!(flags("l0 controllable_x\no0 controllable_x"), [false; 2]);
    for name in [
        "uncontrollable_a",
        "Controllable_a",
        "controllable",
        "controllable-a",
        "_controllable_a",
        "controllabl_ea",
    ] {
        assert_eq!(flags(&format!("i0 {name}")), [false, false], "{name}");
    }
}

#[test]
fn b29_line_numbers_go_on() {
    assert_refused("aag 4 1 1 1 2\n2\n4 2\n6\n6 2 4\n8 6 6\nx\n", 8, 7);
}

#[test]
fn b30_number_9_after_all_symbols() {
    let mut file = String::from("aag 6 6 0 1 0\n2\n4\n6\n8\n10\n12\n0\n");
    assert_refused(&file, 9, 0);
    assert_refused(file.clone() + "x\n", 8, 9);
    file.push_str("i5 controllable_\n");
    assert_taken(&file);
    file.push_str("i4 controllable_\ni4 b\n");
    assert_refused(&file, 8, 11);
}
