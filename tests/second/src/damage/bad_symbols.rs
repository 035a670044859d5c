//! Document 01, "The numbers", 8: bad symbol line, position or repeated
//! symbol.

use super::draft::{symbol, Draft};
use super::random::Random;

pub fn spoil(draft: &mut Draft, random: &mut Random) {
    let numbers = draft.header_numbers().unwrap_or(vec![0; 5]);
    let counts = [(b'i', numbers[1]), (b'l', numbers[2]), (b'o', 1)];
    let &(letter, count) = random.pick(&counts);
    let line = match random.below(22) {
        0 | 1 => symbol(letter, count, b"beyond".to_vec()),
        2 => symbol(letter, 9_999_999, b"far".to_vec()),
        3 => b"o00 zero".to_vec(),
        4 => b"o00000000 eight".to_vec(),
        5 => b"o0".to_vec(),
        6 => b"o0 ".to_vec(),
        7 => symbol(b'o', 0, vec![b'n'; 201]),
        8 => {
            let byte = *random.pick(&[0, 9, 13, 31, 127, 128, 255]);
            symbol(b'o', 0, vec![b'a', byte, b'z'])
        }
        9 => b"o0\tname".to_vec(),
        10 => b"o name".to_vec(),
        11 => b" o0 name".to_vec(),
        12 => b"o 0 name".to_vec(),
        13 => b"o-0 name".to_vec(),
        14 => {
            let letter = *random.pick(b"aAbBCjfIOLx0 ");
            symbol(letter, 0, b"letter".to_vec())
        }
        15 => Vec::new(),
        16 => {
            let near: [&[u8]; 5] = [b"c ", b"cc", b"c x", b"C", b"c\r"];
            random.pick(&near).to_vec()
        }
        17 => b"4 2 3".to_vec(),
        18 => return end_without_byte_10(draft, random),
        _ => return repeat(draft, random),
    };
    let place = random.below(draft.symbols.len() + 1);
    draft.symbols.insert(place, line);
}

/// The last symbol line or the line `c` lacks its byte 10.
fn end_without_byte_10(draft: &mut Draft, random: &mut Random) {
    draft.cut = true;
    if random.chance(50) {
        draft.comment = Some(Vec::new());
    } else {
        draft.comment = None;
        draft.symbols.push(b"o0 end".to_vec());
    }
}

fn repeat(draft: &mut Draft, random: &mut Random) {
    let again = match draft.symbols.is_empty() {
        true => b"o0 again".to_vec(),
        false => random.pick(&draft.symbols).clone(),
    };
    if draft.symbols.is_empty() {
        draft.symbols.push(again.clone());
    }
    let mut other = again;
    if random.chance(50) {
        other.push(b'2');
    }
    let place = random.below(draft.symbols.len() + 1);
    draft.symbols.insert(place, other);
}
