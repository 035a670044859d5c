//! Document 01, "The certificate": "The stored region needn't be the largest,
//! nor the ranks the least." In what a certificate that passes departs from
//! the one that the writer writes for the same file.

use crate::certificate::checker::{Passed, Tables};
use crate::certificate::view::{Attacks, Form, Replies};
use crate::game::Game;

pub const NAMES: [&str; 7] = [
    "a smaller region",
    "another reply or attack",
    "a larger rank",
    "a rank above 2^L",
    "a byte that isn't read",
    "packed replies",
    "packed bits that aren't read",
];

/// Which of these holds of a certificate that passes.
pub fn departures(game: &Game, passed: &Passed) -> [bool; NAMES.len()] {
    let (l, u) = (passed.latches, passed.uncontrollable);
    match passed.tables {
        Tables::Replies(view) => of_replies(game, &view, l, u),
        Tables::Attacks(view) => of_attacks(game, &view, l),
    }
}

fn of_replies(game: &Game, view: &Replies, l: usize, u: usize) -> [bool; NAMES.len()] {
    let [mut smaller, mut another, mut unread] = [false; 3];
    for state in 0..1usize << l {
        let within = view.region_bit(l, state);
        smaller |= game.in_region(state) && !within;
        for reading in 0..1usize << u {
            let stored = view.stored(l, u, state, reading);
            another |= within && usize::from(stored) != game.replies[(state << u) + reading];
            unread |= !within && stored != 0;
        }
    }
    let packed = matches!(view.form, Form::Packed(_));
    [
        smaller,
        another,
        false,
        false,
        unread && !packed,
        packed,
        unread && packed,
    ]
}

fn of_attacks(game: &Game, view: &Attacks, l: usize) -> [bool; NAMES.len()] {
    let [mut another, mut larger, mut above, mut unread] = [false; 4];
    for state in 0..1usize << l {
        let rank = usize::from(view.rank(l, state));
        let attack = view.bytes[view.table + 3 * state + 2];
        another |= rank != 0 && usize::from(attack) != game.attacks[state];
        larger |= rank > game.ranks[state];
        above |= rank > 1 << l;
        unread |= rank == 0 && attack != 0;
    }
    [false, another, larger, above, unread, false, false]
}
