//! Document 01, "The file", 5 and 6, and "The numbers", 8: the symbol lines
//! up to the comment. Gives for each input whether it is controllable.

use super::lines::{number, Lines};
use crate::circuit::Header;
use crate::refusal::{refusal, Refusal};

const PREFIX: &[u8] = b"controllable_";

pub fn read(header: &Header, lines: &mut Lines) -> Result<Vec<bool>, Refusal> {
    let mut controllable = vec![false; header.i];
    let mut named: Vec<(u8, usize)> = Vec::new();
    while !lines.at_end() {
        let bad = refusal(8, lines.number());
        let line = lines.next_line().ok_or(bad)?;
        if line == b"c" {
            break;
        }
        let symbol = form(line).ok_or(bad)?;
        if symbol.position >= count(header, symbol.letter) {
            return Err(bad);
        }
        if named.contains(&(symbol.letter, symbol.position)) {
            return Err(bad);
        }
        named.push((symbol.letter, symbol.position));
        if symbol.letter == b'i' && symbol.name.starts_with(PREFIX) {
            controllable[symbol.position] = true;
        }
    }
    Ok(controllable)
}

struct Symbol<'f> {
    letter: u8,
    position: usize,
    name: &'f [u8],
}

/// A letter, a position, a space, and a name of 1 to 200 bytes from 32 to 126.
fn form(line: &[u8]) -> Option<Symbol<'_>> {
    let (&letter, rest) = line.split_first()?;
    let space = rest.iter().position(|&byte| byte == b' ')?;
    let position = number(&rest[..space])?;
    let name = &rest[space + 1..];
    let allowed_bytes = name.iter().all(|byte| (32..=126).contains(byte));
    if name.is_empty() || name.len() > 200 || !allowed_bytes {
        return None;
    }
    Some(Symbol {
        letter,
        position,
        name,
    })
}

/// How many there are of what the letter names; none of another letter.
fn count(header: &Header, letter: u8) -> usize {
    match letter {
        b'i' => header.i,
        b'l' => header.l,
        b'o' => header.o,
        _ => 0,
    }
}
