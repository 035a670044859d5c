//! Document 01, "The certificate": "The stored region needn't be the largest,
//! nor the ranks the least." Certificates that pass and that the writer
//! wouldn't write: smaller closed regions, other replies, larger ranks, and
//! any bytes where they aren't read.

use super::random::Random;
use crate::certificate::packing::pack;
use crate::certificate::records::{append, ATTACKS, CIRCUIT, PACKED, REGION, REPLIES};
use crate::circuit::Circuit;
use crate::game::Game;
use crate::moves::Moves;

pub fn certificate(
    file: &[u8],
    game: &Game,
    packed: bool,
    circuit: &Circuit,
    random: &mut Random,
) -> Vec<u8> {
    let mut moves = Moves::new(circuit);
    let mut bytes = Vec::new();
    append(&mut bytes, CIRCUIT, file);
    if game.realizable() {
        let closed = closed_set(&mut moves, game, random);
        append(&mut bytes, REGION, &region(&closed));
        let replies = replies(&mut moves, &closed, random);
        if packed {
            append(&mut bytes, PACKED, &pack(&replies, game.controllable));
        } else {
            append(&mut bytes, REPLIES, &replies);
        }
    } else {
        append(&mut bytes, ATTACKS, &attacks(&mut moves, game, random));
    }
    bytes
}

/// State 0, perhaps some more of the region, and all that some control that
/// keeps leads to.
fn closed_set(moves: &mut Moves, game: &Game, random: &mut Random) -> Vec<bool> {
    let more = *random.pick(&[0, 0, 10, 30, 100]);
    let mut closed = vec![false; moves.states];
    let mut open = vec![0];
    for state in 1..moves.states {
        if game.in_region(state) && random.chance(more) {
            open.push(state);
        }
    }
    while let Some(state) = open.pop() {
        if closed[state] {
            continue;
        }
        closed[state] = true;
        for reading in 0..moves.readings {
            let into_region = |next: usize| game.in_region(next);
            let controls = controls_into(moves, state, reading, into_region);
            let next = moves.next(state, reading, *random.pick(&controls));
            open.extend(next);
        }
    }
    closed
}

/// All controls with error 0 and a next state that is wanted.
fn controls_into(
    moves: &mut Moves,
    state: usize,
    reading: usize,
    wanted: impl Fn(usize) -> bool,
) -> Vec<usize> {
    let controls = 0..moves.controls;
    let leads = |&control: &usize| moves.next(state, reading, control).is_some_and(&wanted);
    controls.filter(leads).collect()
}

fn region(closed: &[bool]) -> Vec<u8> {
    let mut bytes = vec![0; closed.len().div_ceil(8)];
    for (state, _) in closed.iter().enumerate().filter(|(_, &within)| within) {
        bytes[state / 8] |= 1 << (state % 8);
    }
    bytes
}

fn replies(moves: &mut Moves, closed: &[bool], random: &mut Random) -> Vec<u8> {
    let mut bytes = Vec::new();
    for (state, &within) in closed.iter().enumerate() {
        for reading in 0..moves.readings {
            if within {
                let controls = controls_into(moves, state, reading, |next| closed[next]);
                bytes.push(*random.pick(&controls) as u8);
            } else {
                bytes.push(unread(random));
            }
        }
    }
    bytes
}

fn attacks(moves: &mut Moves, game: &Game, random: &mut Random) -> Vec<u8> {
    let (mut ranks, attacks) = larger_ranks(moves, game, random);
    if random.chance(50) {
        let needed = needed(moves, &attacks);
        for state in 0..moves.states {
            if !needed[state] {
                ranks[state] = 0;
            }
        }
    }
    let mut bytes = Vec::new();
    for (&rank, &attack) in ranks.iter().zip(&attacks) {
        bytes.extend_from_slice(&(rank as u16).to_le_bytes());
        bytes.push(if rank == 0 {
            unread(random)
        } else {
            attack as u8
        });
    }
    bytes
}

/// By rising least rank, each state gets a rank above those that its attack
/// leads to, and any attack that leads to states ranked already.
fn larger_ranks(moves: &mut Moves, game: &Game, random: &mut Random) -> (Vec<usize>, Vec<usize>) {
    let most_extra = *random.pick(&[0, 1, 3, 40, 400]);
    let mut ranks = vec![0; moves.states];
    let mut attacks = vec![0; moves.states];
    let mut order: Vec<usize> = (0..moves.states).filter(|&s| !game.in_region(s)).collect();
    order.sort_by_key(|&state| game.ranks[state]);
    for state in order {
        let mut shown = Vec::new();
        for reading in 0..moves.readings {
            if let Some(highest) = highest_rank(moves, &ranks, state, reading) {
                shown.push((reading, highest));
            }
        }
        let &(reading, highest) = random.pick(&shown);
        attacks[state] = reading;
        ranks[state] = (highest + 1 + random.between(0, most_extra)).min(65_535);
    }
    (ranks, attacks)
}

/// The highest rank that a reading leads to, if each control errs or leads to
/// a ranked state.
fn highest_rank(moves: &mut Moves, ranks: &[usize], state: usize, reading: usize) -> Option<usize> {
    let mut highest = 0;
    for control in 0..moves.controls {
        if let Some(next) = moves.next(state, reading, control) {
            if ranks[next] == 0 {
                return None;
            }
            highest = highest.max(ranks[next]);
        }
    }
    Some(highest)
}

/// The states that the attacks lead to from state 0.
fn needed(moves: &mut Moves, attacks: &[usize]) -> Vec<bool> {
    let mut needed = vec![false; moves.states];
    let mut open = vec![0];
    while let Some(state) = open.pop() {
        if needed[state] {
            continue;
        }
        needed[state] = true;
        for control in 0..moves.controls {
            open.extend(moves.next(state, attacks[state], control));
        }
    }
    needed
}

/// A byte that nobody reads.
fn unread(random: &mut Random) -> u8 {
    match random.below(3) {
        0 => 0,
        1 => 255,
        _ => random.byte(),
    }
}
