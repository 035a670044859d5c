//! Document 01, "The numbers", 1 to 9, and 16 of document 02, T-01: files with
//! one or two faults.

use super::bad_symbols;
use super::draft::Draft;
use super::garble::garble;
use super::random::Random;
use super::wanted::{any, of_shape, Shape};
use crate::circuit::Circuit;

/// A file with the fault of this number, sometimes with one more.
pub fn file(random: &mut Random, number: u8) -> Vec<u8> {
    let mut draft = match number {
        9 => too_many(random),
        16 => with_gates(random),
        _ => any(random),
    };
    let second = random.chance(20).then(|| random.between(2, 8) as u8);
    for fault in second.into_iter().chain([number]) {
        add(&mut draft, fault, random);
    }
    draft.bytes()
}

fn add(draft: &mut Draft, number: u8, random: &mut Random) {
    match number {
        1 => too_long(draft, random),
        2 => first_line(draft, random),
        3 => limits(draft, random),
        4 => malformed(draft, random),
        5 => literal(draft, random),
        6 => twice(draft, random),
        7 => undefined(draft, random),
        8 => bad_symbols::spoil(draft, random),
        16 => circle(draft, random),
        _ => {}
    }
}

/// Number 1: now and then a file of just the longest length, which is taken.
fn too_long(draft: &mut Draft, random: &mut Random) {
    draft.comment = Some(Vec::new());
    let length = draft.bytes().len();
    let wanted = match random.below(20) {
        0 => Circuit::FILE_BYTES,
        1..=9 => Circuit::FILE_BYTES + 1,
        _ => Circuit::FILE_BYTES + random.between(2, 3000),
    };
    draft.comment = Some(random.bytes(wanted.saturating_sub(length)));
}

/// Number 2.
fn first_line(draft: &mut Draft, random: &mut Random) {
    let numbers = draft.header.get(4..).unwrap_or(b"").to_vec();
    let words: [&[u8]; 9] = [
        b"AAG ",
        b"aig ",
        b"aagx ",
        b" aag ",
        b"\xEF\xBB\xBFaag ",
        b"aag",
        b"aag\t",
        b"",
        b"ag ",
    ];
    match random.below(10) {
        0 => {
            draft.header.clear();
            draft.body.clear();
            draft.symbols.clear();
            draft.comment = None;
            draft.cut = true;
        }
        1 => {
            draft.body.clear();
            draft.symbols.clear();
            draft.comment = None;
            draft.cut = true;
        }
        2 => draft.header.extend_from_slice(b" 0"),
        3..=5 => draft.header = [random.pick(&words).to_vec(), numbers].concat(),
        _ => garble(&mut draft.header, random),
    }
}

/// Number 3.
fn limits(draft: &mut Draft, random: &mut Random) {
    let Some(mut n) = draft.header_numbers() else {
        return;
    };
    let sum = n[1] + n[2] + n[4];
    match random.below(10) {
        0 | 1 => n[0] = sum.saturating_sub(random.between(1, 3)),
        2 => n[0] = 1001,
        3 => n[0] = 9_999_999,
        4 => (n[0], n[1]) = (900, 14),
        5 => (n[0], n[2]) = (900, 11),
        6 => n[3] = 0,
        7 => n[3] = 2,
        8 => n[4] = n[0].saturating_sub(n[1] + n[2]) + 1,
        _ => {
            let which = random.below(5);
            n[which] = 9_999_999;
        }
    }
    draft.set_header(&n);
}

/// Number 4.
fn malformed(draft: &mut Draft, random: &mut Random) {
    let line = random.below(draft.body.len().max(1));
    match random.below(10) {
        0 => draft.body.truncate(line),
        1 => {
            draft.body.truncate(line);
            draft.symbols.clear();
            draft.comment = None;
        }
        2 => {
            draft.symbols.clear();
            draft.comment = None;
            draft.cut = true;
        }
        3 if !draft.body.is_empty() => {
            draft.body.remove(line);
        }
        4 => draft.body.insert(line, Vec::new()),
        _ if !draft.body.is_empty() => garble(&mut draft.body[line], random),
        _ => {}
    }
}

/// Number 5.
fn literal(draft: &mut Draft, random: &mut Random) {
    let Some(n) = draft.header_numbers() else {
        return;
    };
    let line = random.below(draft.body.len().max(1));
    let Some(mut literals) = draft.literals(line) else {
        return;
    };
    let output = n[1] + n[2];
    if line != output && random.chance(50) {
        literals[0] = match random.below(4) {
            0 => 0,
            1 => 1,
            _ => literals[0] | 1,
        };
    } else {
        let field = random.below(literals.len());
        literals[field] = match random.below(3) {
            0 => 2 * n[0] + 2,
            1 => 2 * n[0] + random.between(2, 50),
            _ => 9_999_999,
        };
    }
    draft.set_literals(line, &literals);
}

/// Number 6.
fn twice(draft: &mut Draft, random: &mut Random) {
    let Some(n) = draft.header_numbers() else {
        return;
    };
    let output = n[1] + n[2];
    let mut defining: Vec<usize> = (0..draft.body.len()).filter(|&k| k != output).collect();
    random.shuffle(&mut defining);
    let [one, other, ..] = defining[..] else {
        return;
    };
    let (Some(first), Some(mut second)) = (draft.literals(one), draft.literals(other)) else {
        return;
    };
    second[0] = first[0];
    draft.set_literals(other, &second);
}

/// Number 7: an operand, a next-state literal or the output that nothing
/// defines.
fn undefined(draft: &mut Draft, random: &mut Random) {
    let Some(mut n) = draft.header_numbers() else {
        return;
    };
    let first_line = n[1];
    if first_line >= draft.body.len() {
        return;
    }
    let line = random.between(first_line, draft.body.len() - 1);
    let Some(mut literals) = draft.literals(line) else {
        return;
    };
    let output = n[1] + n[2];
    let field = match line {
        _ if line == output => 0,
        _ if line < output => 1,
        _ => random.between(1, 2),
    };
    let Some(used) = literals.get_mut(field) else {
        return;
    };
    n[0] = (n[0] + 1).min(Circuit::LARGEST_VARIABLE);
    *used = 2 * n[0] + random.below(2);
    draft.set_header(&n);
    draft.set_literals(line, &literals);
}

/// Number 16: from a gate some steps down to operands that are gates, and
/// back to it; with no step the gate is its own operand.
fn circle(draft: &mut Draft, random: &mut Random) {
    let Some(n) = draft.header_numbers() else {
        return;
    };
    let first_gate = n[1] + n[2] + 1;
    let gates: Vec<(usize, Vec<usize>)> = (first_gate..draft.body.len())
        .filter_map(|line| Some((line, draft.literals(line)?)))
        .filter(|(_, literals)| literals.len() == 3)
        .collect();
    if gates.is_empty() {
        return;
    }
    let top = random.pick(&gates).clone();
    let mut low = top.clone();
    for _ in 0..random.below(6) {
        let side = random.between(1, 2);
        let defines = |gate: &&(usize, Vec<usize>)| gate.1[0] / 2 == low.1[side] / 2;
        match gates.iter().find(defines) {
            Some(gate) => low = gate.clone(),
            None => break,
        }
    }
    let side = random.between(1, 2);
    low.1[side] = top.1[0] ^ random.below(2);
    draft.set_literals(low.0, &low.1);
}

/// A random well-formed file with a gate.
fn with_gates(random: &mut Random) -> Draft {
    loop {
        let draft = any(random);
        if draft.header_numbers().is_some_and(|n| n[4] > 0) {
            return draft;
        }
    }
}

/// Number 9: too many inputs of one sort, all else well.
fn too_many(random: &mut Random) -> Draft {
    let (uncontrollable, controllable) = if random.chance(50) {
        let uncontrollable = random.between(6, 13);
        (uncontrollable, random.between(0, 13 - uncontrollable))
    } else {
        let controllable = random.between(9, 13);
        (random.between(0, 13 - controllable), controllable)
    };
    let shape = Shape {
        latches: random.below(4),
        uncontrollable,
        controllable,
    };
    of_shape(random, shape)
}

/// A few bytes change, go away, come in, or end the file.
pub fn change_bytes(bytes: &mut Vec<u8>, random: &mut Random) {
    for _ in 0..random.between(1, 3) {
        if bytes.is_empty() {
            return;
        }
        let at = random.below(bytes.len());
        match random.below(8) {
            0 => bytes[at] ^= 1 << random.below(8),
            1 => bytes[at] = random.byte(),
            2 => bytes[at] = *random.pick(b"0123456789"),
            3 | 4 => {
                bytes.remove(at);
            }
            5 => bytes.insert(at, *random.pick(b"0123456789 \nc")),
            6 => bytes.insert(at, random.byte()),
            _ => bytes.truncate(at),
        }
    }
}
