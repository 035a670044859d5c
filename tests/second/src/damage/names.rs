//! Names and comments with unusual bytes: document 01, "The file", 5 and 6.

use super::random::Random;

/// Names that look like the prefix and aren't.
const NEARLY: [&[u8]; 10] = [
    b"uncontrollable_a",
    b"Controllable_a",
    b" controllable_a",
    b"controllable",
    b"controllable-a",
    b"controllable a",
    b"CONTROLLABLE_",
    b"xcontrollable_",
    b"a controllable_b",
    b"ontrollable_",
];

pub fn controllable(random: &mut Random) -> Vec<u8> {
    let mut name = b"controllable_".to_vec();
    let more = match random.below(10) {
        0 | 1 => 0,
        2 => 187,
        _ => random.between(1, 12),
    };
    name.extend(printable(random, more));
    name
}

pub fn uncontrollable(random: &mut Random) -> Vec<u8> {
    if random.chance(50) {
        return random.pick(&NEARLY).to_vec();
    }
    plain(random)
}

/// A name for a latch or the output, where no prefix means anything.
pub fn any(random: &mut Random) -> Vec<u8> {
    if random.chance(30) {
        return controllable(random);
    }
    plain(random)
}

fn plain(random: &mut Random) -> Vec<u8> {
    match random.below(8) {
        0 => b" ".to_vec(),
        1 => vec![b' '; random.between(2, 5)],
        2 => printable(random, 200),
        3 => b"i0 x".to_vec(),
        4 => b"~\x20!".to_vec(),
        _ => {
            let length = random.between(1, 12);
            let name = printable(random, length);
            // Never a controllable one by chance.
            [b"_".to_vec(), name].concat()
        }
    }
}

/// Bytes from 32 to 126.
fn printable(random: &mut Random, count: usize) -> Vec<u8> {
    (0..count).map(|_| random.between(32, 126) as u8).collect()
}

/// The bytes after the line that holds only `c`.
pub fn comment(random: &mut Random) -> Vec<u8> {
    match random.below(6) {
        0 => Vec::new(),
        1 => b"\n".to_vec(),
        2 => b"i0 controllable_x\nc\n".to_vec(),
        3 => b"no byte 10 at the end".to_vec(),
        _ => {
            let count = random.between(1, 60);
            random.bytes(count)
        }
    }
}
