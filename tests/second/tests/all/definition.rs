//! Document 01, "The game" and "The certificate", against their words: the
//! step by looking each literal up, the region as the union of all closed
//! sets, the ranks one by one, and the check of tables by plain quantifiers.

use second::certificate::checker::check;
use second::certificate::records::split;
use second::circuit::Circuit;
use second::damage::{file, pair};
use second::game::solve;
use second::reader::read;
use second::step::{step, Control, Reading, Step};

/// A circuit's step as a table, worked out from the output and the latches
/// back to the inputs.
struct Table {
    states: usize,
    readings: usize,
    controls: usize,
    entries: Vec<Step>,
}

impl Table {
    fn of(circuit: &Circuit) -> Table {
        let (states, readings) = (
            1 << circuit.latch_count(),
            1 << circuit.uncontrollable_count(),
        );
        let controls = 1 << circuit.controllable_count();
        let mut entries = Vec::new();
        for s in 0..states {
            for r in 0..readings {
                for c in 0..controls {
                    entries.push(looked_up(circuit, s, r, c));
                }
            }
        }
        Table {
            states,
            readings,
            controls,
            entries,
        }
    }

    fn step(&self, s: usize, r: usize, c: usize) -> Step {
        self.entries[(s * self.readings + r) * self.controls + c]
    }

    /// Error 0 and a next state in the set, bit s of the set being state s.
    fn keeps(&self, set: u64, s: usize, r: usize, c: usize) -> bool {
        let taken = self.step(s, r, c);
        !taken.error && has(set, taken.next)
    }

    fn closed(&self, set: u64) -> bool {
        let held = |s, r| (0..self.controls).any(|c| self.keeps(set, s, r, c));
        (0..self.states).all(|s| !has(set, s) || (0..self.readings).all(|r| held(s, r)))
    }

    /// Every control gives error 1 or a next state in the set.
    fn forces(&self, set: u64, s: usize, r: usize) -> bool {
        (0..self.controls).all(|c| self.step(s, r, c).error || has(set, self.step(s, r, c).next))
    }
}

fn has(set: u64, state: usize) -> bool {
    set >> state & 1 == 1
}

fn looked_up(circuit: &Circuit, state: usize, reading: usize, control: usize) -> Step {
    let mut known = vec![None; circuit.header.m + 1];
    known[0] = Some(false);
    let mut of = |literal| value(circuit, literal, [state, reading, control], &mut known);
    let error = of(circuit.output);
    let mut next = 0;
    for (k, latch) in circuit.latches.iter().enumerate() {
        next += usize::from(of(latch.next)) << k;
    }
    Step { error, next }
}

fn value(
    circuit: &Circuit,
    literal: usize,
    numbers: [usize; 3],
    known: &mut Vec<Option<bool>>,
) -> bool {
    let own = literal - literal % 2;
    let inverted = literal % 2 == 1;
    if let Some(value) = known[own / 2] {
        return value != inverted;
    }
    let [state, reading, control] = numbers;
    let bit = |number: usize, k: usize| number / (1 << k) % 2 == 1;
    let positive = if let Some(k) = circuit.latches.iter().position(|l| l.literal == own) {
        bit(state, k)
    } else if let Some(at) = circuit.inputs.iter().position(|i| i.literal == own) {
        let sort = circuit.inputs[at].controllable;
        let before = circuit.inputs[..at].iter();
        let k = before.filter(|i| i.controllable == sort).count();
        bit(if sort { control } else { reading }, k)
    } else {
        let gate = circuit.gates.iter().find(|g| g.literal == own).unwrap();
        let left = value(circuit, gate.left, numbers, known);
        let right = value(circuit, gate.right, numbers, known);
        left && right
    };
    known[own / 2] = Some(positive);
    positive != inverted
}

/// Generated circuits of at most so many latches, inputs and steps.
fn circuits(seed: u64, files: usize, latches: usize) -> Vec<Circuit> {
    let taken = (0..files).filter_map(|index| read(&file(seed, index)).ok());
    let small = |c: &Circuit| c.latch_count() <= latches && c.latch_count() + c.inputs.len() <= 11;
    taken.filter(small).collect()
}

#[test]
fn step_as_looked_up() {
    for circuit in circuits(11, 300, 5) {
        let table = Table::of(&circuit);
        for s in 0..table.states {
            for r in 0..table.readings {
                for c in 0..table.controls {
                    let taken = step(&circuit, s, Reading(r), Control(c));
                    assert_eq!(taken, table.step(s, r, c));
                }
            }
        }
    }
}

#[test]
fn region_is_the_union_of_all_closed_sets() {
    let all = circuits(12, 1000, 3);
    assert!(all.len() > 300);
    for circuit in all {
        let table = Table::of(&circuit);
        let sets = 0..1u64 << table.states;
        let union = sets
            .filter(|&set| table.closed(set))
            .fold(0, |union, set| union | set);
        assert!(table.closed(union));

        let game = solve(&circuit);
        assert_eq!(game.realizable(), has(union, 0));
        for s in 0..table.states {
            assert_eq!(game.in_region(s), has(union, s));
            for r in 0..table.readings {
                let keeping = (0..table.controls).find(|&c| table.keeps(union, s, r, c));
                let wanted = if has(union, s) { keeping.unwrap() } else { 0 };
                assert_eq!(game.replies[s * table.readings + r], wanted);
            }
        }
    }
}

#[test]
fn ranks_are_the_least_that_fit() {
    for circuit in circuits(13, 600, 5) {
        let table = Table::of(&circuit);
        let game = solve(&circuit);
        let mut ranked = 0;
        let mut wanted = vec![(0, 0); table.states];
        for k in 1..=table.states {
            let fits = |s: usize| (0..table.readings).find(|&r| table.forces(ranked, s, r));
            let mut now = ranked;
            for s in (0..table.states).filter(|&s| !has(ranked, s)) {
                if let Some(reading) = fits(s) {
                    wanted[s] = (k, reading);
                    now |= 1 << s;
                }
            }
            ranked = now;
        }
        let found = game.ranks.iter().copied().zip(game.attacks.iter().copied());
        assert_eq!(found.collect::<Vec<_>>(), wanted);
        assert!(game.ranks.iter().all(|&rank| rank <= table.states));
    }
}

#[test]
fn ranks_and_region_part_the_states() {
    for circuit in circuits(14, 600, 3) {
        let table = Table::of(&circuit);
        let game = solve(&circuit);
        let region = (0..table.states).filter(|&s| game.in_region(s));
        let set = region.fold(0, |set, s| set | 1 << s);
        assert!(table.closed(set));
    }
}

/// Bit j of reply k is bit k × C + j of the record.
fn packed(replies: &[u8], width: usize, k: usize) -> usize {
    let bit = |at: usize| usize::from(replies[at / 8] & (1 << (at % 8)) != 0);
    (0..width).map(|j| bit(k * width + j) << j).sum()
}

/// The check of a certificate whose records have the right kinds and lengths.
fn judged(circuit: &Circuit, bytes: &[u8]) -> Option<(u8, usize)> {
    let table = Table::of(circuit);
    let records = split(bytes).unwrap();
    if records.len() == 3 {
        let (region, replies) = (records[1].contents, records[2].contents);
        let within = |s: usize| region[s / 8] & (1 << (s % 8)) != 0;
        let good = |index: usize| {
            let (s, r) = (index / table.readings, index % table.readings);
            let c = match records[2].kind {
                3 => usize::from(replies[index]),
                _ => packed(replies, circuit.controllable_count(), index),
            };
            !within(s)
                || (c < table.controls && !table.step(s, r, c).error)
                    && within(table.step(s, r, c).next)
        };
        if !within(0) {
            return Some((14, 0));
        }
        let bad = (0..table.states * table.readings).find(|&index| !good(index));
        return bad.map(|place| (15, place));
    }
    let entry = |s: usize, k: usize| usize::from(records[1].contents[3 * s + k]);
    let rank = |s: usize| entry(s, 0) + 256 * entry(s, 1);
    let falls = |s: usize, c: usize| {
        let taken = table.step(s, entry(s, 2), c);
        taken.error || (rank(taken.next) > 0 && rank(taken.next) < rank(s))
    };
    let good = |s: usize| {
        let attack_below = entry(s, 2) < table.readings;
        rank(s) == 0 || (attack_below && (0..table.controls).all(|c| falls(s, c)))
    };
    if rank(0) == 0 {
        return Some((14, 0));
    }
    (0..table.states).find(|&s| !good(s)).map(|s| (15, s))
}

#[test]
fn check_by_plain_quantifiers() {
    let mut looked_at = 0;
    for index in 0..1500 {
        let (file, bytes) = pair(15, index);
        let answer = check(&file, &bytes).err().map(|r| (r.number, r.place));
        if !matches!(answer, None | Some((14, _)) | Some((15, _))) {
            continue;
        }
        let circuit = read(&file).unwrap();
        if circuit.latch_count() + circuit.inputs.len() > 11 {
            continue;
        }
        looked_at += 1;
        assert_eq!(answer, judged(&circuit, &bytes), "pair {index}");
    }
    assert!(looked_at > 500);
}

#[test]
fn a_passed_certificate_tells_the_verdict() {
    for index in 0..1500 {
        let (file, bytes) = pair(16, index);
        if let Ok(passed) = check(&file, &bytes) {
            let game = solve(&read(&file).unwrap());
            let replies = split(&bytes).unwrap().len() == 3;
            assert_eq!(game.realizable(), replies);
            assert_eq!(passed.latches, game.latches);
        }
    }
}
