//! Document 01, "The numbers" and "The game": how often each outcome turns up
//! among files or among certificates.

mod departures;

use crate::certificate::checker::check;
use crate::certificate::writer::{certificate, packed_certificate};
use crate::game::solve;
use crate::reader::read;
use departures::departures;
use std::collections::BTreeMap;

/// Outcomes with how often each turned up.
#[derive(Default)]
pub struct Count {
    realizable: usize,
    with_a_state_outside: usize,
    unrealizable: usize,
    with_a_rank_above_2: usize,
    ours: usize,
    not_ours: usize,
    departures: [usize; departures::NAMES.len()],
    numbers: BTreeMap<u8, usize>,
}

impl Count {
    pub fn file(&mut self, file: &[u8]) {
        let game = match read(file) {
            Ok(circuit) => solve(&circuit),
            Err(refusal) => return self.number(refusal.number),
        };
        if game.realizable() {
            self.realizable += 1;
            self.with_a_state_outside += usize::from(game.ranks.iter().any(|&rank| rank != 0));
        } else {
            self.unrealizable += 1;
            self.with_a_rank_above_2 += usize::from(game.ranks[0] > 2);
        }
    }

    pub fn pair(&mut self, file: &[u8], bytes: &[u8]) {
        let (circuit, passed) = match (read(file), check(file, bytes)) {
            (Ok(circuit), Ok(passed)) => (circuit, passed),
            (Err(refusal), _) | (_, Err(refusal)) => return self.number(refusal.number),
        };
        let game = solve(&circuit);
        if certificate(file, &game) == bytes || packed_certificate(file, &game) == bytes {
            self.ours += 1;
            return;
        }
        self.not_ours += 1;
        for (count, departs) in self.departures.iter_mut().zip(departures(&game, &passed)) {
            *count += usize::from(departs);
        }
    }

    fn number(&mut self, number: u8) {
        *self.numbers.entry(number).or_default() += 1;
    }

    pub fn of_number(&self, number: u8) -> usize {
        self.numbers.get(&number).copied().unwrap_or(0)
    }

    pub fn files_text(&self) -> String {
        let mut text = format!(
            "realizable {}\nrealizable with a state outside the region {}\n\
             unrealizable {}\nunrealizable with a reset rank above 2 {}\n",
            self.realizable, self.with_a_state_outside, self.unrealizable, self.with_a_rank_above_2
        );
        self.add_numbers(&mut text, &[1, 2, 3, 4, 5, 6, 7, 8, 9, 16]);
        text
    }

    pub fn pairs_text(&self) -> String {
        let mut text = format!(
            "passed as the writer writes it {}\npassed and other than the writer's {}\n",
            self.ours, self.not_ours
        );
        for (name, count) in departures::NAMES.iter().zip(self.departures) {
            text.push_str(&format!("passed with {name} {count}\n"));
        }
        let circuit_numbers: usize = (1..=9)
            .chain([16])
            .map(|number| self.of_number(number))
            .sum();
        text.push_str(&format!("refused 1 to 9 and 16 {circuit_numbers}\n"));
        self.add_numbers(&mut text, &[11, 12, 13, 14, 15]);
        text
    }

    fn add_numbers(&self, text: &mut String, numbers: &[u8]) {
        for &number in numbers {
            text.push_str(&format!("refused {number}: {}\n", self.of_number(number)));
        }
    }
}
