//! Document 01, "Listings to compare": files and certificates to compare
//! with, made from a seed alone: well-formed files, damaged files (numbers 1
//! to 9 and 16), damaged certificates (11 to 15), and certificates that pass though
//! the writer wouldn't write them.

pub mod bad_symbols;
pub mod broken;
pub mod draft;
pub mod faults;
pub mod garble;
pub mod names;
pub mod net;
pub mod others;
pub mod random;
pub mod styles;
pub mod wanted;

use crate::certificate::writer::{certificate, packed_certificate};
use crate::game::solve;
use crate::reader::read;
use random::Random;
use wanted::Wanted;

/// What the file of an index is to be; each row a share of 100.
const FILES: [(usize, Kind); 15] = [
    (15, Kind::Good(Wanted::HoldsEverywhere)),
    (16, Kind::Good(Wanted::HoldsInPart)),
    (14, Kind::Good(Wanted::LosesSoon)),
    (16, Kind::Good(Wanted::LosesLate)),
    (4, Kind::Bad(1)),
    (3, Kind::Bad(2)),
    (3, Kind::Bad(3)),
    (3, Kind::Bad(4)),
    (4, Kind::Bad(5)),
    (5, Kind::Bad(6)),
    (4, Kind::Bad(7)),
    (4, Kind::Bad(8)),
    (4, Kind::Bad(9)),
    (4, Kind::Bad(16)),
    (1, Kind::AnyByte),
];

#[derive(Clone, Copy)]
enum Kind {
    Good(Wanted),
    Bad(u8),
    AnyByte,
}

/// The file of this index; it depends on seed and index alone.
pub fn file(seed: u64, index: usize) -> Vec<u8> {
    let mut random = Random::of(seed, index as u64);
    match kind(index) {
        Kind::Good(wanted) => wanted::file(&mut random, wanted),
        Kind::Bad(number) => faults::file(&mut random, number),
        Kind::AnyByte => {
            let mut bytes = wanted::any(&mut random).bytes();
            faults::change_bytes(&mut bytes, &mut random);
            bytes
        }
    }
}

/// The well-formed file at the limits of this index.
pub fn full(seed: u64, index: usize) -> Vec<u8> {
    wanted::full(&mut Random::of(seed, index as u64)).bytes()
}

/// The shares are spread over each hundred of files.
fn kind(index: usize) -> Kind {
    let mut place = index % 100 * 37 % 100;
    for (share, kind) in FILES {
        if place < share {
            return kind;
        }
        place -= share;
    }
    unreachable!("the shares fill the hundred")
}

/// The circuit file and the certificate of this index.
pub fn pair(seed: u64, index: usize) -> (Vec<u8>, Vec<u8>) {
    let mut random = Random::of(!seed, index as u64);
    let wanted = *random.pick(&[
        Wanted::HoldsEverywhere,
        Wanted::HoldsInPart,
        Wanted::HoldsInPart,
        Wanted::LosesSoon,
        Wanted::LosesLate,
        Wanted::LosesLate,
    ]);
    let file = wanted::file(&mut random, wanted);
    let circuit = match read(&file) {
        Ok(circuit) => circuit,
        Err(_) => return (file, Vec::new()),
    };
    let game = solve(&circuit);
    let packed = random.chance(40);
    let ours = if packed {
        packed_certificate(&file, &game)
    } else {
        certificate(&file, &game)
    };
    match index % 20 * 7 % 20 {
        0 => (file, ours),
        1..=6 => {
            let other = others::certificate(&file, &game, packed, &circuit, &mut random);
            (file, other)
        }
        7 => {
            let mut bytes = ours;
            faults::change_bytes(&mut bytes, &mut random);
            (file, bytes)
        }
        8 => {
            let mut damaged = file;
            faults::change_bytes(&mut damaged, &mut random);
            (damaged, ours)
        }
        turn => {
            let number = [11, 12, 13, 14, 15, 15][turn % 6];
            let base = if random.chance(50) {
                ours
            } else {
                others::certificate(&file, &game, packed, &circuit, &mut random)
            };
            let bytes = broken::certificate(&circuit, &base, number, &mut random);
            (file, bytes)
        }
    }
}
