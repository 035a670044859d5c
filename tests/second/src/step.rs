//! Document 01, "The game": "A step takes state, reading and control and
//! gives the error (the output in this step, before the latches move) and
//! the next state."

use crate::circuit::Circuit;

/// A sensor reading: the uncontrollable inputs alone.
#[derive(Clone, Copy, Debug)]
pub struct Reading(pub usize);

/// A control: the controllable inputs alone.
#[derive(Clone, Copy, Debug)]
pub struct Control(pub usize);

#[derive(Clone, Copy, Debug, PartialEq, Eq)]
pub struct Step {
    pub error: bool,
    pub next: usize,
}

/// Bits are taken from the low end, one for each latch or input, so those
/// above the counts are never read.
pub fn step(circuit: &Circuit, state: usize, reading: Reading, control: Control) -> Step {
    let mut values = vec![false; circuit.header.m + 1];
    let (mut reading_bits, mut control_bits) = (reading.0, control.0);
    for input in &circuit.inputs {
        let bits = if input.controllable {
            &mut control_bits
        } else {
            &mut reading_bits
        };
        values[input.literal / 2] = *bits & 1 == 1;
        *bits >>= 1;
    }
    for (k, latch) in circuit.latches.iter().enumerate() {
        values[latch.literal / 2] = state >> k & 1 == 1;
    }
    for gate in circuit.order.iter().map(|&line| &circuit.gates[line]) {
        values[gate.literal / 2] = value(&values, gate.left) && value(&values, gate.right);
    }
    let mut next = 0;
    for (k, latch) in circuit.latches.iter().enumerate() {
        if value(&values, latch.next) {
            next |= 1 << k;
        }
    }
    Step {
        error: value(&values, circuit.output),
        next,
    }
}

/// Literal 2v is variable v and 2v + 1 its inverse; variable 0 is false.
fn value(values: &[bool], literal: usize) -> bool {
    values[literal / 2] ^ (literal % 2 == 1)
}
