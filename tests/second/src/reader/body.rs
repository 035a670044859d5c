//! Document 01, "The numbers", 4 to 7: the lines before the symbols, "lines
//! in file order, each 4, 5, 6"; then, by document 02, T-01, 7 for latches,
//! the output and gates, in file order, and 16.

use super::circles;
use super::lines::{numbers, Lines};
use crate::circuit::{Gate, Header, Latch};
use crate::refusal::{refusal, Refusal};

pub struct Body {
    pub inputs: Vec<usize>,
    pub latches: Vec<Latch>,
    pub output: usize,
    pub gates: Vec<Gate>,
    pub order: Vec<usize>,
}

pub fn read(header: &Header, lines: &mut Lines) -> Result<Body, Refusal> {
    let mut known = Known::new(header.m);

    let mut inputs = Vec::new();
    for _ in 0..header.i {
        let place = lines.number();
        let literals = defining_line(lines, 1, &known)?;
        known.define(literals[0], place)?;
        inputs.push(literals[0]);
    }

    let first_latch_line = lines.number();
    let mut latches = Vec::new();
    for _ in 0..header.l {
        let place = lines.number();
        let literals = defining_line(lines, 2, &known)?;
        known.define(literals[0], place)?;
        latches.push(Latch {
            literal: literals[0],
            next: literals[1],
        });
    }

    let output_line = lines.number();
    let output = plain_line(lines, 1, &known)?[0];

    let first_gate_line = lines.number();
    let mut gates = Vec::new();
    for _ in 0..header.a {
        let place = lines.number();
        let literals = defining_line(lines, 3, &known)?;
        known.define(literals[0], place)?;
        gates.push(Gate {
            literal: literals[0],
            left: literals[1],
            right: literals[2],
        });
    }

    for (k, latch) in latches.iter().enumerate() {
        known.is_there(latch.next, first_latch_line + k)?;
    }
    known.is_there(output, output_line)?;
    for (k, gate) in gates.iter().enumerate() {
        known.is_there(gate.left, first_gate_line + k)?;
        known.is_there(gate.right, first_gate_line + k)?;
    }
    let order = circles::read(&gates, first_gate_line)?;

    Ok(Body {
        inputs,
        latches,
        output,
        gates,
        order,
    })
}

/// 4, and 5 for a literal that is too large.
fn plain_line(lines: &mut Lines, count: usize, known: &Known) -> Result<Vec<usize>, Refusal> {
    let place = lines.number();
    let malformed_or_missing = refusal(4, place);
    let line = lines.next_line().ok_or(malformed_or_missing)?;
    let literals = numbers(line, count).ok_or(malformed_or_missing)?;
    if literals.iter().any(|&literal| literal > known.largest()) {
        return Err(refusal(5, place));
    }
    Ok(literals)
}

/// 4, and 5 also for a first literal that cannot define.
fn defining_line(lines: &mut Lines, count: usize, known: &Known) -> Result<Vec<usize>, Refusal> {
    let place = lines.number();
    let literals = plain_line(lines, count, known)?;
    if literals[0] % 2 == 1 || literals[0] == 0 {
        return Err(refusal(5, place));
    }
    Ok(literals)
}

/// Which variables are defined so far; variable 0 is the constant.
struct Known {
    defined: Vec<bool>,
}

impl Known {
    fn new(m: usize) -> Self {
        let mut defined = vec![false; m + 1];
        defined[0] = true;
        Known { defined }
    }

    /// 2M + 1.
    fn largest(&self) -> usize {
        2 * self.defined.len() - 1
    }

    fn define(&mut self, literal: usize, place: usize) -> Result<(), Refusal> {
        if self.defined[literal / 2] {
            return Err(refusal(6, place));
        }
        self.defined[literal / 2] = true;
        Ok(())
    }

    fn is_there(&self, literal: usize, place: usize) -> Result<(), Refusal> {
        if !self.defined[literal / 2] {
            return Err(refusal(7, place));
        }
        Ok(())
    }
}
