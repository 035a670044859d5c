//! Document 01, "The game": region, reply, rank and attack by plain rounds.
//! "Ranks of one round are worked out from the ranks of the round before,
//! kept whole as a copy."

use crate::circuit::Circuit;
use crate::moves::Moves;

pub struct Game {
    pub latches: usize,
    pub uncontrollable: usize,
    pub controllable: usize,
    /// Per state; 0 exactly for the states of the region.
    pub ranks: Vec<usize>,
    /// Per state; 0 in the region.
    pub attacks: Vec<usize>,
    /// At index state × 2^U + reading; 0 outside the region.
    pub replies: Vec<usize>,
}

impl Game {
    pub fn realizable(&self) -> bool {
        self.ranks[0] == 0
    }

    pub fn in_region(&self, state: usize) -> bool {
        self.ranks[state] == 0
    }
}

pub fn solve(circuit: &Circuit) -> Game {
    solve_by(circuit, Moves::new(circuit))
}

/// The same, and no step is remembered.
pub fn solve_plainly(circuit: &Circuit) -> Game {
    solve_by(circuit, Moves::plain(circuit))
}

fn solve_by(circuit: &Circuit, mut moves: Moves) -> Game {
    let ranks = ranks(&mut moves);
    let attacks = (0..moves.states).map(|s| attack(&mut moves, &ranks, s));
    let attacks = attacks.collect();
    let mut replies = Vec::new();
    for state in 0..moves.states {
        for reading in 0..moves.readings {
            replies.push(reply(&mut moves, &ranks, state, reading));
        }
    }
    Game {
        latches: circuit.latch_count(),
        uncontrollable: circuit.uncontrollable_count(),
        controllable: circuit.controllable_count(),
        ranks,
        attacks,
        replies,
    }
}

/// Rounds until one of them ranks no further state.
fn ranks(moves: &mut Moves) -> Vec<usize> {
    let mut ranks = vec![0; moves.states];
    let mut number = 1;
    loop {
        let after = round(moves, &ranks, number);
        if after == ranks {
            return ranks;
        }
        ranks = after;
        number += 1;
    }
}

/// The states without a rank that some reading loses get this round's number.
fn round(moves: &mut Moves, before: &[usize], number: usize) -> Vec<usize> {
    let mut after = before.to_vec();
    for state in 0..moves.states {
        if before[state] == 0 && losing_reading(moves, before, state).is_some() {
            after[state] = number;
        }
    }
    after
}

/// The least reading without a control that keeps.
fn losing_reading(moves: &mut Moves, ranks: &[usize], state: usize) -> Option<usize> {
    (0..moves.readings).find(|&reading| keeping_control(moves, ranks, state, reading).is_none())
}

/// The least control with error 0 and a next state without a rank.
fn keeping_control(
    moves: &mut Moves,
    ranks: &[usize],
    state: usize,
    reading: usize,
) -> Option<usize> {
    (0..moves.controls).find(|&control| {
        let next = moves.next(state, reading, control);
        next.is_some_and(|next| ranks[next] == 0)
    })
}

/// The least control that keeps, for a state of the region; else 0.
fn reply(moves: &mut Moves, ranks: &[usize], state: usize, reading: usize) -> usize {
    if ranks[state] != 0 {
        return 0;
    }
    keeping_control(moves, ranks, state, reading).expect("a state of the region has a control")
}

/// The least reading under which every control gives error 1 or a next state
/// of rank 1 to k - 1, k being the state's own rank; 0 in the region.
fn attack(moves: &mut Moves, ranks: &[usize], state: usize) -> usize {
    if ranks[state] == 0 {
        return 0;
    }
    let mut readings = 0..moves.readings;
    let shows = |&reading: &usize| {
        (0..moves.controls).all(|control| match moves.next(state, reading, control) {
            None => true,
            Some(next) => 1 <= ranks[next] && ranks[next] < ranks[state],
        })
    };
    readings.find(shows).expect("a reading shows the rank")
}
