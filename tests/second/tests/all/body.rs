//! The readings B-16 to B-22 of document 01, "The numbers", 4 to 7, and T01-1 to
//! T01-6 of document 02, T-01: the order of the numbers in the body.

use crate::common::{assert_refused, assert_taken, Q};

#[test]
fn b16_line_by_line() {
    assert_refused("aag 2 2 0 1 0\n2\n2\nx\n", 6, 3);
    assert_refused("aag 2 2 0 1 0\nx\n2\n2\n", 4, 2);
    assert_refused("aag 3 2 0 1 1\n2\n3\n2\n", 5, 3);
    // The missing gate line is seen only if nothing stands before it.
    assert_refused("aag 3 2 0 1 1\n2\n4\n2\n", 4, 5);
    assert_refused("aag 3 2 0 1 1\n2\n2\n2\n", 6, 3);
}

#[test]
fn b17_the_number_decides_within_a_line() {
    // 6 in the first field, 5 in the last.
    assert_refused("aag 2 1 0 1 1\n2\n2\n2 0 6\n", 5, 4);
    // 7 in the second field, 5 in the last.
    assert_refused("aag 3 1 0 1 1\n2\n2\n4 6 9\n", 5, 4);
    // 7 in the second field, 6 in the first.
    assert_refused("aag 3 1 0 1 1\n2\n2\n2 6 0\n", 6, 4);
    // 5 in the first field, 4 in the last.
    assert_refused("aag 3 1 0 1 1\n2\n2\n5 6 x\n", 4, 4);
    // A latch: 6 in the first field, 5 in the second.
    assert_refused("aag 3 1 1 1 0\n2\n2 8\n2\n", 5, 3);
}

#[test]
fn b18_literals() {
    for bad in ["0", "1", "3", "5", "6", "7", "9999999"] {
        assert_refused(format!("aag 2 1 0 1 0\n{bad}\n0\n"), 5, 2);
        assert_refused(format!("aag 2 0 1 1 0\n{bad} 0\n0\n"), 5, 2);
        assert_refused(format!("aag 2 0 0 1 1\n0\n{bad} 0 0\n"), 5, 3);
    }
    // The largest by the header's M.
    assert_taken("aag 9 1 0 1 0\n18\n19\n");
    assert_refused("aag 9 1 0 1 0\n18\n20\n", 5, 3);
    assert_refused("aag 9 0 1 1 0\n18 20\n0\n", 5, 2);
    assert_refused("aag 9 0 0 1 1\n0\n18 20 0\n", 5, 3);
    assert_refused("aag 9 0 0 1 1\n0\n18 0 20\n", 5, 3);
    // Literals that are used may be odd, 0 or 1.
    assert_taken("aag 3 1 1 1 1\n2\n4 3\n7\n6 1 5\n");
    assert_taken("aag 3 1 1 1 1\n2\n4 1\n0\n6 0 3\n");
}

#[test]
fn b19_place_of_the_second_definition() {
    assert_refused("aag 3 3 0 1 0\n4\n2\n4\n0\n", 6, 4);
    assert_refused("aag 2 1 1 1 0\n2\n2 0\n0\n", 6, 3);
    assert_refused("aag 3 1 1 1 1\n2\n4 0\n0\n4 0 0\n", 6, 5);
    assert_refused("aag 2 0 0 1 2\n0\n4 0 0\n4 0 0\n", 6, 4);
}

#[test]
fn b20_gate_operands() {
    // An undefined variable; a gate of a later line is fine.
    assert_refused("aag 3 0 0 1 2\n0\n2 0 7\n4 0 0\n", 7, 3);
    assert_taken("aag 2 0 0 1 2\n0\n2 4 0\n4 0 0\n");
    // Behind all lines.
    assert_refused("aag 3 0 0 1 2\n0\n2 6 0\nx\n", 4, 4);
    // Earlier lines count, whatever the literals.
    assert_taken("aag 2 0 0 1 2\n0\n4 1 0\n2 4 5\n");
}

#[test]
fn b21_late_numbers_7() {
    // The latch's line comes first, then the output's, then the gate's.
    assert_refused("aag 9 0 1 1 1\n2 8\n0\n4 6 0\n", 7, 2);
    assert_refused("aag 9 0 1 1 1\n2 0\n8\n4 6 0\n", 7, 3);
    assert_refused("aag 9 0 1 1 1\n2 0\n0\n4 6 0\n", 7, 4);
    assert_refused("aag 9 0 1 1 1\n2 8\n0\n2 0 0\n", 6, 4);
    assert_refused("aag 9 0 1 1 1\n2 8\n0\nx\n", 4, 4);
    // Among themselves: latches in order, then the output.
    assert_refused("aag 9 0 2 1 0\n2 8\n4 9\n8\n", 7, 2);
    assert_refused("aag 9 0 2 1 0\n2 0\n4 9\n8\n", 7, 3);
    assert_refused("aag 9 0 2 1 0\n2 0\n4 2\n8\n", 7, 4);
    // A later latch and a gate are fine.
    assert_taken("aag 9 0 2 1 1\n2 4\n4 6\n7\n6 1 1\n");
}

#[test]
fn b22_numbers_7_before_numbers_8() {
    assert_refused("aag 9 0 0 1 0\n8\nx\n", 7, 2);
    assert_refused(Q.replace("6 4\n13", "6 4\n14") + "x\n", 5, 5);
    assert_refused(
        Q.replace("6 2 1 1 3", "7 2 1 1 3").replace("13", "14") + "x\n",
        7,
        5,
    );
}

#[test]
fn t01_1_a_gate_that_uses_itself() {
    assert_refused("aag 2 0 0 1 2\n0\n2 2 0\n4 0 0\n", 16, 3);
    assert_refused("aag 2 0 0 1 2\n0\n2 0 3\n4 0 0\n", 16, 3);
}

#[test]
fn t01_2_the_lowest_line_on_a_circle() {
    // The first gate only leads into the circle of the others.
    assert_refused("aag 3 0 0 1 3\n0\n2 4 4\n4 6 1\n6 1 5\n", 16, 4);
    // Two circles.
    assert_refused("aag 4 0 0 1 4\n0\n2 8 1\n4 4 4\n6 6 6\n8 1 1\n", 16, 4);
}

#[test]
fn t01_3_order_of_the_numbers() {
    assert_refused("aag 9 0 0 1 2\n0\n2 2 2\n4 1 8\n", 7, 4);
    assert_refused("aag 9 0 0 1 2\n0\n2 2 2\n4 1 1\nx\n", 16, 3);
    assert_refused("aag 9 0 0 1 2\n0\n2 2 2\n2 1 1\n", 6, 4);
}

#[test]
fn t01_4_gates_nobody_uses() {
    assert_refused("aag 3 1 0 1 2\n2\n2\n4 6 2\n6 4 2\n", 16, 4);
}

#[test]
fn t01_5_a_way_through_a_latch() {
    assert_taken("aag 2 0 1 1 1\n2 4\n2\n4 2 2\n");
}

#[test]
fn t01_6_defined_later() {
    assert_taken("aag 4 1 0 1 3\n2\n4\n4 6 2\n8 2 2\n6 8 3\n");
}
