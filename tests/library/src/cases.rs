//! Seeded cases: files and certificates of the second program's generator,
//! whole, damaged and cut, with buffers and numbers of any size.

use crate::case::{Case, Function};
use crate::second_says::writes;
use second::certificate::checker::{check, Tables};
use second::certificate::records::{ATTACKS, PACKED, REPLIES};
use second::certificate::view::Form;
use second::damage::faults::change_bytes;
use second::damage::random::Random;
use second::damage::{file, pair};
use second::game::solve;
use second::print::print;
use second::reader::read;

const FILES: usize = 1500;
const PAIRS: usize = 1500;

/// L + U + C of a circuit that is solved again and again.
const SMALL: usize = 9;

pub struct Pool {
    files: Vec<Vec<u8>>,
    small: Vec<Vec<u8>>,
    pairs: Vec<(Vec<u8>, Vec<u8>)>,
}

impl Pool {
    pub fn new(seed: u64) -> Pool {
        let files: Vec<_> = (0..FILES).map(|k| file(seed, k)).collect();
        let small = files
            .iter()
            .filter(|file| is_small(file))
            .cloned()
            .collect();
        let pairs = (0..PAIRS).map(|k| pair(seed, k)).collect();
        Pool {
            files,
            small,
            pairs,
        }
    }

    pub fn case(&self, function: Function, random: &mut Random) -> Case {
        match function {
            Function::Read => Case {
                file: self.file(random, 60),
                ..Case::default()
            },
            Function::Step => Case {
                file: self.file(random, 5),
                numbers: [0; 8].map(|_: u64| random.number()),
                ..Case::default()
            },
            Function::Certify | Function::CertifyPacked => self.certify(function, random),
            Function::Print => self.print(random),
            Function::Check => self.check(random),
            Function::CircuitRecord => {
                let (_, whole) = random.pick(&self.pairs);
                let certificate = damaged(whole, 60, random);
                Case {
                    certificate,
                    ..Case::default()
                }
            }
            _ => self.look_up(random),
        }
    }

    fn file(&self, random: &mut Random, damage: usize) -> Vec<u8> {
        let file = random.pick(&self.files);
        damaged(file, damage, random)
    }

    fn certify(&self, function: Function, random: &mut Random) -> Case {
        let file = loop {
            let file = random.pick(&self.small);
            let file = damaged(file, 15, random);
            if is_small(&file) {
                break file;
            }
        };
        let written =
            read(&file).map_or(0, |circuit| writes(function)(&file, &solve(&circuit)).len());
        Case {
            file,
            room: room(written, random),
            ..Case::default()
        }
    }

    fn print(&self, random: &mut Random) -> Case {
        let file = self.file(random, 20);
        let written = read(&file).map_or(0, |circuit| print(&circuit).len());
        Case {
            file,
            room: room(written, random),
            ..Case::default()
        }
    }

    fn check(&self, random: &mut Random) -> Case {
        let (file, certificate) = random.pick(&self.pairs);
        let (mut file, mut certificate) = (file.clone(), certificate.clone());
        match random.below(10) {
            0..=3 => {}
            4..=6 => certificate = damaged(&certificate, 100, random),
            7 => certificate = random.pick(&self.pairs).1.clone(),
            8 => file = damaged(&file, 100, random),
            _ => file = random.pick(&self.files).clone(),
        }
        Case {
            file,
            certificate,
            ..Case::default()
        }
    }

    /// Starts and counts as the check answers them, or any.
    fn look_up(&self, random: &mut Random) -> Case {
        let (file, certificate) = random.pick(&self.pairs);
        let mut numbers = [0; 8].map(|_: u64| any_number(certificate.len(), random));
        numbers[7] = u64::from(*random.pick(&[REPLIES, ATTACKS, PACKED, PACKED]));
        if random.chance(70) {
            if let Ok(passed) = check(file, certificate) {
                let (region, table, form) = match passed.tables {
                    Tables::Replies(view) => (view.region, view.replies, view.form),
                    Tables::Attacks(view) => (view.table, view.table, Form::Bytes),
                };
                let known = [region, table, passed.latches, passed.uncontrollable];
                numbers[..4].copy_from_slice(&known.map(|number| number as u64));
                (numbers[6], numbers[7]) = match form {
                    Form::Bytes => (0, REPLIES.into()),
                    Form::Packed(width) => (width as u64, PACKED.into()),
                };
            }
        }
        Case {
            certificate: damaged(certificate, 20, random),
            numbers,
            ..Case::default()
        }
    }
}

fn is_small(file: &[u8]) -> bool {
    read(file).map_or(file.len() < 600, |circuit| {
        circuit.latch_count() + circuit.inputs.len() <= SMALL
    })
}

/// Bytes as they are or, in so many of a hundred cases, changed, cut or anything.
fn damaged(bytes: &[u8], percent: usize, random: &mut Random) -> Vec<u8> {
    let mut bytes = bytes.to_vec();
    if random.chance(percent) {
        match random.below(10) {
            0..=5 => change_bytes(&mut bytes, random),
            6..=8 => bytes.truncate(random.below(bytes.len() + 1)),
            _ => {
                let count = random.below(40);
                bytes = random.bytes(count);
            }
        }
    }
    bytes
}

/// A buffer for so many bytes: just enough, too short, or longer.
fn room(bytes: usize, random: &mut Random) -> usize {
    match random.below(10) {
        0..=3 => bytes,
        4 => bytes.saturating_sub(1),
        5 => random.below(bytes + 1),
        6 => 0,
        _ => bytes + random.below(200),
    }
}

/// A number of any size, mostly near what certificates have.
fn any_number(bytes: usize, random: &mut Random) -> u64 {
    match random.below(8) {
        0 => random.number(),
        1 => u64::MAX - random.below(4) as u64,
        2 => *random.pick(&[31, 32, 33, 62, 63, 64, 65, 1 << 32, 1 << 62, 1 << 63]),
        3 | 4 => random.below(bytes + 12) as u64,
        _ => random.below(12) as u64,
    }
}
