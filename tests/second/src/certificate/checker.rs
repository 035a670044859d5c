//! Document 01, "The certificate": "A certificate passes exactly if no number
//! below applies", with the numbers 1 to 9 of its circuit file first and then
//! 11 to 15 of "The numbers"; document 02, T-07: kind 5 in place of kind 3.

use super::records::{split, Record, ATTACKS, CIRCUIT, PACKED, REGION, REPLIES};
use super::view::{Attacks, Form, Replies};
use crate::circuit::Circuit;
use crate::reader::read;
use crate::refusal::{refusal, Refusal};
use crate::step::{step, Control, Reading};

/// What a passed certificate hands back: its circuit record as part of the
/// lent bytes, a view of its tables, and the counts the view's readers need.
#[derive(Clone, Copy, Debug)]
pub struct Passed<'b> {
    pub circuit: &'b [u8],
    pub tables: Tables<'b>,
    pub latches: usize,
    pub uncontrollable: usize,
}

#[derive(Clone, Copy, Debug)]
pub enum Tables<'b> {
    Replies(Replies<'b>),
    Attacks(Attacks<'b>),
}

pub fn check<'b>(file: &[u8], bytes: &'b [u8]) -> Result<Passed<'b>, Refusal> {
    let circuit = read(file)?;
    let records = split(bytes).ok_or(refusal(11, 0))?;
    let kinds: Vec<u16> = records.iter().map(|record| record.kind).collect();
    let tables = match kinds[..] {
        [CIRCUIT, REGION, REPLIES | PACKED] => {
            same_circuit(file, &records[0])?;
            Tables::Replies(replies(&circuit, bytes, &records[1], &records[2])?)
        }
        [CIRCUIT, ATTACKS] => {
            same_circuit(file, &records[0])?;
            Tables::Attacks(attacks(&circuit, bytes, &records[1])?)
        }
        _ => return Err(refusal(11, 0)),
    };
    Ok(Passed {
        circuit: records[0].contents,
        tables,
        latches: circuit.latch_count(),
        uncontrollable: circuit.uncontrollable_count(),
    })
}

fn same_circuit(file: &[u8], record: &Record) -> Result<(), Refusal> {
    if record.contents != file {
        return Err(refusal(12, 0));
    }
    Ok(())
}

fn replies<'b>(
    circuit: &Circuit,
    bytes: &'b [u8],
    region: &Record,
    replies: &Record,
) -> Result<Replies<'b>, Refusal> {
    let l = circuit.latch_count();
    let u = circuit.uncontrollable_count();
    let (states, readings) = (1usize << l, 1usize << u);

    if region.contents.len() != states.div_ceil(8) || unused_bit(region.contents, states) {
        return Err(refusal(13, 0));
    }
    let view = Replies {
        bytes,
        region: region.start,
        replies: replies.start,
        form: form(circuit, replies, states * readings).ok_or(refusal(13, 0))?,
    };
    if !view.region_bit(l, 0) {
        return Err(refusal(14, 0));
    }
    for state in (0..states).filter(|&state| view.region_bit(l, state)) {
        for reading in 0..readings {
            let reply = usize::from(view.reply(l, u, state, reading));
            if !keeps(circuit, &view, state, reading, reply) {
                return Err(refusal(15, state * readings + reading));
            }
        }
    }
    Ok(view)
}

/// How the replies stand, if there are as many bytes as that wants.
fn form(circuit: &Circuit, record: &Record, replies: usize) -> Option<Form> {
    let width = circuit.controllable_count();
    let (form, right) = match record.kind {
        PACKED => {
            let bits = width * replies;
            let long = record.contents.len() == bits.div_ceil(8);
            (
                Form::Packed(width),
                long && !unused_bit(record.contents, bits),
            )
        }
        _ => (Form::Bytes, record.contents.len() == replies),
    };
    right.then_some(form)
}

/// A bit behind the first so many, which stands for nothing, is 1.
fn unused_bit(bytes: &[u8], used: usize) -> bool {
    (used..8 * bytes.len()).any(|bit| bytes[bit / 8] >> (bit % 8) & 1 == 1)
}

/// "The stored reply is below 2^C, gives error 0 and leads into the stored
/// region."
fn keeps(circuit: &Circuit, view: &Replies, state: usize, reading: usize, reply: usize) -> bool {
    if reply >= 1 << circuit.controllable_count() {
        return false;
    }
    let taken = step(circuit, state, Reading(reading), Control(reply));
    !taken.error && view.region_bit(circuit.latch_count(), taken.next)
}

fn attacks<'b>(circuit: &Circuit, bytes: &'b [u8], table: &Record) -> Result<Attacks<'b>, Refusal> {
    let l = circuit.latch_count();
    let states = 1usize << l;

    if table.contents.len() != 3 * states {
        return Err(refusal(13, 0));
    }
    let view = Attacks {
        bytes,
        table: table.start,
    };
    if view.rank(l, 0) == 0 {
        return Err(refusal(14, 0));
    }
    for state in (0..states).filter(|&state| view.rank(l, state) != 0) {
        if !falls(circuit, &view, state) {
            return Err(refusal(15, state));
        }
    }
    Ok(view)
}

/// "An attack below 2^U under which every control gives error 1 or a next
/// state of rank 1 to k − 1."
fn falls(circuit: &Circuit, view: &Attacks, state: usize) -> bool {
    let l = circuit.latch_count();
    let rank = view.rank(l, state);
    let attack = usize::from(view.attack(l, state));
    if attack >= 1 << circuit.uncontrollable_count() {
        return false;
    }
    (0..1 << circuit.controllable_count()).all(|control| {
        let taken = step(circuit, state, Reading(attack), Control(control));
        let next_rank = view.rank(l, taken.next);
        taken.error || (1 <= next_rank && next_rank < rank)
    })
}
