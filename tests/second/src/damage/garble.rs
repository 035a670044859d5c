//! Document 01, "The file": number lines that break "Single spaces stand
//! between numbers; no other blank is allowed" or the form of a number.

use super::random::Random;

pub fn garble(line: &mut Vec<u8>, random: &mut Random) {
    let starts = number_starts(line);
    let at = if starts.is_empty() {
        0
    } else {
        *random.pick(&starts)
    };
    match random.below(18) {
        0 => line.insert(at, b' '),
        1 => line.insert(0, b' '),
        2 => line.push(b' '),
        3 => line.push(13),
        4 => line.push(b'\t'),
        5 => line.insert(at, b'\t'),
        6 => line.insert(at, b'0'),
        7 => line.insert(at, b'+'),
        8 => line.insert(at, b'-'),
        9 => replace(line, at, b"10000000"),
        10 => replace(line, at, b"00000002"),
        11 => replace(line, at, b""),
        12 => replace(line, at, b"x"),
        13 => line.extend_from_slice(b" 2"),
        14 => line.truncate(at),
        15 => line.clear(),
        16 => {
            let byte = *random.pick(&[0, 11, 12, 47, 58, 127, 160, 255]);
            line.insert(at, byte);
        }
        _ => match line.iter().position(|&byte| byte == b' ') {
            Some(space) => line[space] = b'\t',
            None => line.push(b'.'),
        },
    }
}

/// Where a run of digits begins.
fn number_starts(line: &[u8]) -> Vec<usize> {
    let digit = |k: usize| line[k].is_ascii_digit();
    (0..line.len())
        .filter(|&k| digit(k) && (k == 0 || !digit(k - 1)))
        .collect()
}

/// Another text in place of the run of digits at this place.
fn replace(line: &mut Vec<u8>, at: usize, text: &[u8]) {
    let digits = line[at..].iter().take_while(|b| b.is_ascii_digit()).count();
    line.splice(at..at + digits, text.iter().copied());
}
