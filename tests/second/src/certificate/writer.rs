//! Document 01, "The certificate": kinds 1, 2, 3 for a realizable circuit,
//! kinds 1, 4 for an unrealizable one; document 02, T-07: kind 5 in place of
//! kind 3.

use super::packing::pack;
use super::records::{append, ATTACKS, CIRCUIT, PACKED, REGION, REPLIES};
use crate::game::{solve, Game};
use crate::reader::read;
use crate::refusal::{refusal, Refusal};

/// The certificate at the front of the buffer, with its count of bytes; a
/// refusal (1 to 9, or 10 for a buffer that is too short) writes nothing.
pub fn write(file: &[u8], buffer: &mut [u8]) -> Result<usize, Refusal> {
    let game = solve(&read(file)?);
    let bytes = certificate(file, &game);
    let front = buffer.get_mut(..bytes.len()).ok_or(refusal(10, 0))?;
    front.copy_from_slice(&bytes);
    Ok(bytes.len())
}

/// The bytes of the certificate of a solved circuit file.
pub fn certificate(file: &[u8], game: &Game) -> Vec<u8> {
    with_replies(file, game, REPLIES, &replies(game))
}

/// The same, its replies packed.
pub fn packed_certificate(file: &[u8], game: &Game) -> Vec<u8> {
    with_replies(file, game, PACKED, &pack(&replies(game), game.controllable))
}

fn with_replies(file: &[u8], game: &Game, kind: u16, replies: &[u8]) -> Vec<u8> {
    let mut bytes = Vec::new();
    append(&mut bytes, CIRCUIT, file);
    if game.realizable() {
        append(&mut bytes, REGION, &region(game));
        append(&mut bytes, kind, replies);
    } else {
        append(&mut bytes, ATTACKS, &attacks(game));
    }
    bytes
}

/// State s at bit s mod 8 of byte s div 8.
fn region(game: &Game) -> Vec<u8> {
    let states = game.ranks.len();
    let mut bytes = vec![0; states.div_ceil(8)];
    for state in 0..states {
        if game.in_region(state) {
            bytes[state / 8] |= 1 << (state % 8);
        }
    }
    bytes
}

/// One byte each, at index s × 2^U + reading.
fn replies(game: &Game) -> Vec<u8> {
    game.replies.iter().map(|&reply| reply as u8).collect()
}

/// Per state rank (two bytes, little-endian) and attack.
fn attacks(game: &Game) -> Vec<u8> {
    let mut bytes = Vec::new();
    for (&rank, &attack) in game.ranks.iter().zip(&game.attacks) {
        bytes.extend_from_slice(&(rank as u16).to_le_bytes());
        bytes.push(attack as u8);
    }
    bytes
}
