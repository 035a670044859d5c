//! The readings B-31 to B-34 of document 01, "The game" and "Listings to
//! compare".

use crate::common::{circuit, game, P, Q, R};
use second::listing::listing;
use second::step::{step, Control, Reading, Step};

#[test]
fn b31_attack() {
    // Two readings lose at once, the least counts: error is a or b.
    let either = "aag 3 2 0 1 1\n2\n4\n7\n6 3 5\n";
    assert_eq!(game(either).attacks, [1]);
    // Only the second one: error is b.
    let second = "aag 2 2 0 1 0\n2\n4\n4\n";
    assert_eq!(game(second).attacks, [2]);
    // Reading 0 wins later than reading 1 (rank 1): the attack shows the rank.
    // Next is 1 always, error is reading or latch.
    let later = "aag 3 1 1 1 1\n2\n4 1\n7\n6 3 5\n";
    let game = game(later);
    assert_eq!(game.ranks, [1, 1]);
    assert_eq!(game.attacks, [1, 0]);
}

#[test]
fn b32_listing() {
    // States outside the region of a realizable circuit, two readings.
    assert_eq!(
        listing(R.as_bytes()),
        "realizable 1 1 1\n0 1 0 1\n1 0 0 0\n"
    );
    // A state of the region of an unrealizable circuit: error is not latch.
    assert_eq!(
        listing(b"aag 1 0 1 1 0\n2 2\n3\n"),
        "unrealizable 1 0 0\n0 1 0\n1 0 0\n"
    );
    // No readings, one control: error is not control.
    assert_eq!(
        listing(b"aag 1 1 0 1 0\n2\n3\ni0 controllable_x\n"),
        "realizable 0 0 1\n0 1 1\n"
    );
    // No control, two readings.
    assert_eq!(
        listing(b"aag 2 1 1 1 0\n2\n4 2\n0\n"),
        "realizable 1 1 0\n0 1 0 0\n1 1 0 0\n"
    );
}

#[test]
fn b33_reading_before_control() {
    // Error is reading xor control: the control has to follow the reading.
    let xor = "aag 5 2 0 1 3\n2\n4\n10\n6 2 4\n8 3 5\n10 7 9\ni1 controllable_\n";
    assert_eq!(listing(xor.as_bytes()), "realizable 0 1 1\n0 1 0 1\n");
    assert_eq!(game(P).replies, [0, 1, 0, 1]);
}

#[test]
fn b33_error_before_the_latches_move() {
    // Latch 0 becomes 1 and is the error: step 1 has none.
    let circuit = circuit("aag 1 0 1 1 0\n2 1\n2\n");
    let first = step(&circuit, 0, Reading(0), Control(0));
    assert_eq!(
        first,
        Step {
            error: false,
            next: 1
        }
    );
    let second = step(&circuit, 1, Reading(0), Control(0));
    assert!(second.error);
    assert_eq!(game("aag 1 0 1 1 0\n2 1\n2\n").ranks, [2, 1]);
}

#[test]
fn b34_bits_above_the_counts() {
    for file in [P, Q, R] {
        let circuit = circuit(file);
        for state in 0..2 {
            for reading in 0..2 {
                for control in 0..2 {
                    let plain = step(&circuit, state, Reading(reading), Control(control));
                    let above = step(
                        &circuit,
                        state + 6,
                        Reading(reading + 1024),
                        Control(control + 254),
                    );
                    assert_eq!(plain, above);
                }
            }
        }
    }
}

#[test]
fn numbers_by_line_order() {
    // Inputs: reading bit 0, control bit 0, reading bit 1, control bit 1.
    // Latches 10 and 12 (in this order) take the second reading and control 0.
    let file = "aag 6 4 2 1 0\n8\n6\n4\n2\n12 4\n10 6\n2\n\
                i3 controllable_b\ni1 controllable_a\n";
    let circuit = circuit(file);
    let take = |reading, control| step(&circuit, 0, Reading(reading), Control(control));
    assert_eq!(take(0b10, 0b00).next, 0b01);
    assert_eq!(take(0b01, 0b01).next, 0b10);
    assert!(take(0, 0b10).error);
    assert!(!take(0b11, 0b01).error);
}
