//! Document 01, "Listings to compare": the listing of a circuit as text.

use crate::circuit::Circuit;
use crate::game::{solve, Game};
use crate::reader::read;

/// What the verdict program prints for these bytes.
pub fn listing(file: &[u8]) -> String {
    match read(file) {
        Ok(circuit) => of_circuit(&circuit),
        Err(refusal) => format!("{refusal}\n"),
    }
}

/// The verdict, L, U, C; then one line per state.
pub fn of_circuit(circuit: &Circuit) -> String {
    let game = solve(circuit);
    let mut text = format!(
        "{} {} {} {}\n",
        verdict(&game),
        game.latches,
        game.uncontrollable,
        game.controllable
    );
    for state in 0..game.ranks.len() {
        let fields = if game.realizable() {
            membership_and_replies(&game, state)
        } else {
            format!("{} {}", game.ranks[state], game.attacks[state])
        };
        text.push_str(&format!("{state} {fields}\n"));
    }
    text
}

pub fn verdict(game: &Game) -> &'static str {
    if game.realizable() {
        "realizable"
    } else {
        "unrealizable"
    }
}

/// 1 or 0 for in or out and the replies by reading.
fn membership_and_replies(game: &Game, state: usize) -> String {
    let mut text = String::from(if game.in_region(state) { "1" } else { "0" });
    let readings = 1 << game.uncontrollable;
    for reading in 0..readings {
        text.push_str(&format!(" {}", game.replies[state * readings + reading]));
    }
    text
}
