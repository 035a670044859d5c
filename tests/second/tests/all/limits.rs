//! Document 01, "Listings to compare", "Run only": the limits of "What the
//! library takes and gives".

use crate::common::{assert_refused, assert_taken, checked, game, written};

/// Inputs first, the controllable ones named, then latches that stay 0.
fn sized(latches: usize, uncontrollable: usize, controllable: usize) -> String {
    let inputs = uncontrollable + controllable;
    let m = inputs + latches;
    let mut file = format!("aag {m} {inputs} {latches} 1 0\n");
    for k in 1..=inputs {
        file.push_str(&format!("{}\n", 2 * k));
    }
    for k in inputs + 1..=m {
        file.push_str(&format!("{} 0\n", 2 * k));
    }
    file.push_str("0\n");
    for k in uncontrollable..inputs {
        file.push_str(&format!("i{k} controllable_\n"));
    }
    file
}

/// A counter over all latches that errs when all are 1.
fn counter(latches: usize) -> String {
    let mut gates = Vec::new();
    let mut and = |left: usize, right: usize| {
        let own = 2 * (latches + gates.len() + 1);
        gates.push(format!("{own} {left} {right}\n"));
        own
    };
    // The first latch turns at each step and is the first carry.
    let mut lines = String::from("2 3\n");
    let mut carry = 2;
    for latch in (2..=latches).map(|variable| 2 * variable) {
        let both = and(latch, carry);
        let none = and(latch ^ 1, carry ^ 1);
        let sum = and(both ^ 1, none ^ 1);
        lines.push_str(&format!("{latch} {sum}\n"));
        carry = both;
    }
    let (m, a) = (latches + gates.len(), gates.len());
    format!("aag {m} 0 {latches} 1 {a}\n{lines}{carry}\n") + &gates.concat()
}

#[test]
fn latches() {
    assert_taken(sized(10, 0, 0));
    assert_refused(sized(11, 0, 0), 3, 1);
}

#[test]
fn largest_variable() {
    assert_taken("aag 1000 1 0 1 0\n2000\n2001\n");
    assert_refused("aag 1001 1 0 1 0\n2\n2\n", 3, 1);
}

#[test]
fn uncontrollable_inputs() {
    assert_taken(sized(0, 5, 0));
    assert_refused(sized(0, 6, 0), 9, 0);
}

#[test]
fn controllable_inputs() {
    assert_taken(sized(0, 0, 8));
    assert_refused(sized(0, 0, 9), 9, 0);
}

#[test]
fn inputs() {
    assert_taken(sized(0, 5, 8));
    assert_refused(sized(0, 6, 8), 3, 1);
}

#[test]
fn outputs() {
    assert_refused("aag 0 0 0 0 0\n", 3, 1);
    assert_refused("aag 0 0 0 2 0\n0\n0\n", 3, 1);
}

#[test]
fn file_length() {
    let start = b"aag 0 0 0 1 0\n0\nc\n";
    let mut file = start.to_vec();
    file.resize(16_384, b'x');
    assert_taken(&file);
    file.push(b'x');
    assert_refused(&file, 1, 0);
}

#[test]
fn eight_digits() {
    assert_refused("aag 10000000 0 0 1 0\n0\n", 2, 1);
    assert_refused("aag 1 1 0 1 0\n2\n10000000\n", 4, 3);
    assert_refused("aag 1 1 0 1 0\n2\n2\ni10000000 a\n", 8, 4);
}

#[test]
fn longest_certificate() {
    let mut file = sized(10, 5, 8).into_bytes();
    file.extend_from_slice(b"c\n");
    file.resize(16_384, 0);
    let bytes = written(&file);
    assert_eq!(bytes.len(), 49_298);
    assert_eq!(checked(&file, &bytes), None);
}

#[test]
fn highest_rank() {
    let file = counter(10);
    let game = game(&file);
    assert_eq!(game.ranks[0], 1_024);
    assert_eq!(game.ranks[1_023], 1);
    assert_eq!(checked(&file, &written(&file)), None);
}
