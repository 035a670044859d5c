//! The readings B-01 to B-12 of document 01, "The file" and "The numbers":
//! lines and numbers.

use crate::common::{assert_refused, assert_taken, P, Q};

#[test]
fn b01_bytes_without_byte_10_are_no_line() {
    assert_taken("aag 1 1 0 1 0\n2\n2\n");
    assert_refused("aag 1 1 0 1 0\n2\n2", 4, 3);
    assert_refused("aag 1 1 0 1 0\n2", 4, 2);
    assert_refused("aag 1 1 0 1 0\n2\n", 4, 3);
}

#[test]
fn b02_header_without_byte_10() {
    assert_refused("aag 0 0 0 1 0", 2, 1);
    assert_refused("aag 0 0 0 1 0 0", 2, 1);
    assert_refused("x", 2, 1);
    assert_refused("aag 1001 0 0 1 0", 2, 1);
}

#[test]
fn b03_last_body_line_without_byte_10() {
    let body = Q.strip_suffix("\ni1 controllable_hold\n").unwrap();
    assert_refused(body, 4, 8);
    assert_taken(format!("{body}\n"));
}

#[test]
fn b04_last_symbol_line_without_byte_10() {
    assert_refused(P.strip_suffix('\n').unwrap(), 8, 7);
    assert_refused("aag 0 0 0 1 0\n0\no0 a\nx", 8, 4);
}

#[test]
fn b05_comment_letter_without_byte_10() {
    assert_refused(format!("{P}c"), 8, 8);
    assert_taken(format!("{P}c\n"));
}

#[test]
fn b06_empty_lines() {
    assert_refused(format!("\n{P}"), 2, 1);
    assert_refused(P.replace("6 4\n", "\n6 4\n"), 4, 4);
    assert_refused(P.replace("i1", "\ni1"), 8, 7);
    assert_refused(format!("{P}\n"), 8, 8);
}

#[test]
fn b07_more_lines_than_the_header_asks_for() {
    assert_refused("aag 2 1 0 1 0\n2\n2\n4 2 2\n", 8, 4);
}

#[test]
fn b08_other_spellings() {
    for bad in [
        "00", "01", "+1", "-0", "00000001", "10000000", "", "1.", "x",
    ] {
        assert_refused(format!("aag {bad} 0 0 1 0\n0\n"), 2, 1);
        assert_refused(format!("aag 1 0 0 1 {bad}\n0\n"), 2, 1);
        assert_refused(format!("aag 1 1 0 1 0\n2\n{bad}\n"), 4, 3);
        assert_refused(format!("aag 1 1 0 1 0\n2\n2\ni{bad} a\n"), 8, 4);
    }
}

#[test]
fn b09_seven_digits_beyond_every_limit() {
    assert_refused("aag 9999999 0 0 1 0\n0\n", 3, 1);
    assert_refused("aag 1 1 0 1 0\n2\n9999999\n", 5, 3);
    assert_refused("aag 1 1 0 1 0\n2\n2\ni9999999 a\n", 8, 4);
}

#[test]
fn b10_blanks() {
    for header in [
        "aag  1 1 0 1 0",
        "aag 1 1  0 1 0",
        "aag 1 1 0 1 0 ",
        "aag\t1 1 0 1 0",
        "aag 1 1 0\t1 0",
        "aag 1 1 0 1 0\r",
    ] {
        assert_refused(format!("{header}\n2\n2\n"), 2, 1);
    }
    for line in [" 2", "2 ", "2\t", "2\r", "\t2"] {
        assert_refused(format!("aag 1 1 0 1 0\n{line}\n2\n"), 4, 2);
        assert_refused(format!("aag 1 1 0 1 0\n2\n{line}\n"), 4, 3);
    }
    for line in ["6  4", "6\t4", " 6 4", "6 4 ", "6 4\r"] {
        assert_refused(P.replace("6 4", line), 4, 4);
    }
    for line in [" i0 a", "i 0 a", "i0\ta", "i0 a\r", "i0 a\t"] {
        assert_refused(format!("{P}{line}\n"), 8, 8);
    }
}

#[test]
fn b11_the_word() {
    for word in ["AAG", "aagx", " aag", "\u{feff}aag", "aa", "aig", "aag,"] {
        assert_refused(format!("{word} 0 0 0 1 0\n0\n"), 2, 1);
    }
    assert_refused("aag0 0 0 1 0\n0\n", 2, 1);
    assert_refused("aag\n0\n", 2, 1);
    assert_refused("0 0 0 1 0\n0\n", 2, 1);
}

#[test]
fn b12_other_counts_of_numbers() {
    assert_refused("aag 0 0 0 1 0 0\n0\n", 2, 1);
    assert_refused("aag 0 0 0 1\n0\n", 2, 1);
}
