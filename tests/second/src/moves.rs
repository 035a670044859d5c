//! Document 01, "The game": the steps of a circuit, each worked out when it
//! is first asked for and then remembered, or plainly: each time.

use crate::circuit::Circuit;
use crate::step::{step, Control, Reading};

const NOT_ASKED: u16 = u16::MAX;
const ERROR: u16 = u16::MAX - 1;

pub struct Moves<'c> {
    circuit: &'c Circuit,
    pub states: usize,
    pub readings: usize,
    pub controls: usize,
    remembered: Vec<u16>,
}

impl<'c> Moves<'c> {
    pub fn new(circuit: &'c Circuit) -> Self {
        let mut moves = Moves::plain(circuit);
        moves.remembered = vec![NOT_ASKED; moves.states * moves.readings * moves.controls];
        moves
    }

    /// Moves that remember nothing.
    pub fn plain(circuit: &'c Circuit) -> Self {
        Moves {
            circuit,
            states: 1 << circuit.latch_count(),
            readings: 1 << circuit.uncontrollable_count(),
            controls: 1 << circuit.controllable_count(),
            remembered: Vec::new(),
        }
    }

    /// The next state, or nothing if the step has error 1.
    pub fn next(&mut self, state: usize, reading: usize, control: usize) -> Option<usize> {
        let index = (state * self.readings + reading) * self.controls + control;
        match self.remembered.get(index) {
            Some(&ERROR) => return None,
            Some(&next) if next != NOT_ASKED => return Some(usize::from(next)),
            _ => {}
        }
        let taken = step(self.circuit, state, Reading(reading), Control(control));
        let next = (!taken.error).then_some(taken.next);
        if let Some(place) = self.remembered.get_mut(index) {
            *place = next.map_or(ERROR, |next| next as u16);
        }
        next
    }
}
