//! Document 01, "The numbers", 11 to 15: certificates with one or two faults.

use super::faults::change_bytes;
use super::random::Random;
use crate::certificate::records::{append, split, ATTACKS, CIRCUIT, PACKED, REGION, REPLIES};
use crate::circuit::Circuit;
use crate::print::print;

/// Kind and contents of each record.
type Records = Vec<(u16, Vec<u8>)>;

/// A certificate that passes (so it has a table after the circuit record),
/// with the fault of this number and sometimes with one more.
pub fn certificate(circuit: &Circuit, whole: &[u8], number: u8, random: &mut Random) -> Vec<u8> {
    let found = split(whole).unwrap_or_default();
    let mut records: Records = found
        .iter()
        .map(|record| (record.kind, record.contents.to_vec()))
        .collect();
    let second = random.chance(15).then(|| random.between(12, 15) as u8);
    for fault in second.into_iter().chain([number]) {
        match fault {
            12 => other_circuit(circuit, &mut records, random),
            13 => lengths(circuit, &mut records, random),
            14 => state_0(&mut records),
            15 => step_rule(circuit, &mut records, random),
            _ => kinds(&mut records, random),
        }
    }
    let mut bytes = join(&records);
    if number == 11 && random.chance(60) {
        cut(&mut bytes, random);
    }
    bytes
}

fn join(records: &Records) -> Vec<u8> {
    let mut bytes = Vec::new();
    for (kind, contents) in records {
        append(&mut bytes, *kind, contents);
    }
    bytes
}

/// 11: a byte too few or too many, or a length that isn't so.
fn cut(bytes: &mut Vec<u8>, random: &mut Random) {
    match random.below(6) {
        0 => bytes.clear(),
        1 => bytes.push(0),
        2 => {
            let count = random.between(1, 12);
            bytes.extend(random.bytes(count));
        }
        3 if !bytes.is_empty() => {
            let byte = random.below(4.min(bytes.len()));
            bytes[byte] = bytes[byte].wrapping_add(random.between(1, 255) as u8);
        }
        4 => {
            bytes.pop();
        }
        _ => {
            let length = random.below(bytes.len() + 1);
            bytes.truncate(length);
        }
    }
}

/// 11: other kinds or another order.
fn kinds(records: &mut Records, random: &mut Random) {
    let which = random.below(records.len());
    match random.below(7) {
        0 => records[which].0 = random.below(7) as u16,
        1 => records[which].0 += 256,
        2 => {
            records.remove(which);
        }
        3 => records.insert(which, records[which].clone()),
        4 => records.reverse(),
        5 => records.push((ATTACKS, vec![1, 0, 0])),
        _ => records.push((random.below(7) as u16, Vec::new())),
    }
}

/// 12: the circuit record is another one, at times one that means the same.
fn other_circuit(circuit: &Circuit, records: &mut Records, random: &mut Random) {
    let Some((_, file)) = records.iter_mut().find(|(kind, _)| *kind == CIRCUIT) else {
        return;
    };
    match random.below(6) {
        0 => *file = print(circuit).into_bytes(),
        1 => file.push(10),
        2 => file.extend_from_slice(b"c\n"),
        3 => {
            file.pop();
        }
        4 => file.clear(),
        _ => change_bytes(file, random),
    }
}

/// 13: a table of another length or a bit that stands for no state and no reply.
fn lengths(circuit: &Circuit, records: &mut Records, random: &mut Random) {
    let which = random.between(1, records.len() - 1);
    let (kind, contents) = &mut records[which];
    let states = 1usize << circuit.latch_count();
    if *kind == REGION && states < 8 && contents.len() == 1 && random.chance(70) {
        contents[0] |= 1 << random.between(states, 7);
        return;
    }
    let used = reply_bits(circuit);
    if *kind == PACKED && used < 8 * contents.len() && random.chance(70) {
        let bit = random.between(used, 8 * contents.len() - 1);
        contents[bit / 8] |= 1 << (bit % 8);
        return;
    }
    match random.below(5) {
        0 => contents.push(0),
        1 => contents.extend([0, 0, 0]),
        2 => {
            contents.pop();
        }
        3 => contents.clear(),
        _ => contents.truncate(contents.len() / 2),
    }
}

/// How many bits packed replies fill.
fn reply_bits(circuit: &Circuit) -> usize {
    circuit.controllable_count() << (circuit.latch_count() + circuit.uncontrollable_count())
}

/// 14: state 0 not in the region, or of rank 0.
fn state_0(records: &mut Records) {
    for (kind, contents) in records {
        match (*kind, contents.as_mut_slice()) {
            (REGION, [first, ..]) => *first &= 0xFE,
            (ATTACKS, [low, high, ..]) => (*low, *high) = (0, 0),
            _ => {}
        }
    }
}

/// 15: a reply, a region bit, a rank or an attack that breaks a step rule, or
/// the tables of the other verdict.
fn step_rule(circuit: &Circuit, records: &mut Records, random: &mut Random) {
    if random.chance(15) {
        return other_verdict(circuit, records, random);
    }
    for _ in 0..random.between(1, 3) {
        let which = random.between(1, records.len() - 1);
        let (kind, contents) = &mut records[which];
        if contents.is_empty() {
            continue;
        }
        let at = random.below(contents.len());
        match *kind {
            REGION => contents[at] ^= 1 << random.below(8.min(1 << circuit.latch_count())),
            REPLIES => contents[at] = number_near(random, circuit.controllable_count()),
            PACKED => contents[at] ^= 1 << random.below(8.min(reply_bits(circuit) - 8 * at)),
            ATTACKS => attack_entry(circuit, contents, at / 3, random),
            _ => {}
        }
    }
}

/// A number below, just at or far above 2^count.
fn number_near(random: &mut Random, count: usize) -> u8 {
    match random.below(6) {
        0 => (1usize << count).min(255) as u8,
        1 => random.byte(),
        _ => random.below(1 << count) as u8,
    }
}

/// One state's rank or attack changes.
fn attack_entry(circuit: &Circuit, contents: &mut [u8], state: usize, random: &mut Random) {
    let Some(entry) = contents.get_mut(3 * state..3 * state + 3) else {
        return;
    };
    match random.below(6) {
        0 => entry[0] = entry[0].wrapping_sub(1),
        1 => entry[0] = entry[0].wrapping_add(random.between(1, 3) as u8),
        2 => (entry[0], entry[1]) = (1, 0),
        3 => entry[1] ^= 1,
        _ => entry[2] = number_near(random, circuit.uncontrollable_count()),
    }
}

/// Tables of the right shape for the verdict the circuit doesn't have.
fn other_verdict(circuit: &Circuit, records: &mut Records, random: &mut Random) {
    let states = 1usize << circuit.latch_count();
    let readings = 1usize << circuit.uncontrollable_count();
    let controls = 1usize << circuit.controllable_count();
    let attacks = records.iter().any(|(kind, _)| *kind == ATTACKS);
    records.truncate(1);
    if attacks {
        let mut region = vec![255; states.div_ceil(8)];
        if states < 8 {
            region[0] = (1u16.wrapping_shl(states as u32) - 1) as u8;
        }
        let replies = (0..states * readings).map(|_| random.below(controls) as u8);
        let replies = replies.collect();
        records.push((REGION, region));
        records.push((REPLIES, replies));
    } else {
        let mut table = Vec::new();
        for state in 0..states {
            let rank = (states - state) as u16;
            table.extend_from_slice(&rank.to_le_bytes());
            table.push(random.below(readings) as u8);
        }
        records.push((ATTACKS, table));
    }
}
