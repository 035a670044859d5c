//! The readings B-13 to B-15 of document 01, "The numbers", 1 to 3: header
//! limits.

use crate::common::{assert_refused, assert_taken};

#[test]
fn b13_limits_of_the_header() {
    assert_refused("aag 20 14 0 1 0\n", 3, 1);
    assert_refused("aag 20 0 11 1 0\n", 3, 1);
    assert_refused("aag 20 0 0 0 0\n", 3, 1);
    assert_refused("aag 20 0 0 2 0\n", 3, 1);
    assert_refused("aag 1001 0 0 1 0\n0\n", 3, 1);
    assert_refused("aag 3 1 1 1 2\n", 3, 1);
    // M may be larger than needed, and the gates have no limit of their own.
    assert_taken("aag 900 0 0 1 0\n0\n");
    let mut file = String::from("aag 1000 0 0 1 1000\n2000\n");
    for k in 1..=1000 {
        file.push_str(&format!("{} 0 0\n", 2 * k));
    }
    assert_taken(&file);
    // The split of the inputs is no number of the header.
    assert_refused("aag 13 13 0 1 0\n", 4, 2);
}

#[test]
fn b14_the_true_sum() {
    assert_refused("aag 5 9999999 9999999 1 9999999\n", 3, 1);
    assert_refused("aag 999 1 0 1 999\n", 3, 1);
    assert_refused("aag 1000 0 0 1 9999999\n", 3, 1);
}

#[test]
fn b15_file_too_long_comes_first() {
    assert_refused(vec![b'x'; 16_385], 1, 0);
    assert_refused(vec![b'x'; 16_384], 2, 1);
    assert_refused(vec![10; 20_000], 1, 0);
}
