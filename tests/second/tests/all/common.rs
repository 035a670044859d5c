//! Document 01, "Listings to compare": the circuits P, Q and R, and short
//! ways to ask for an answer.

use second::certificate::checker::check;
use second::certificate::writer::certificate;
use second::circuit::Circuit;
use second::game::{solve, Game};
use second::reader::read;

pub const P: &str = "aag 4 2 1 1 1\n2\n4\n6 4\n8\n8 2 5\ni1 controllable_hold\n";
pub const Q: &str = "aag 6 2 1 1 3\n2\n4\n6 4\n13\n8 2 5\n10 6 4\n12 9 11\ni1 controllable_hold\n";
pub const R: &str = "aag 6 2 1 1 3\n2\n4\n6 0\n13\n8 2 5\n10 6 4\n12 9 11\ni1 controllable_hold\n";

/// Nothing if the bytes are taken, else number and place.
pub fn refused(file: impl AsRef<[u8]>) -> Option<(u8, usize)> {
    let refusal = read(file.as_ref()).err()?;
    Some((refusal.number, refusal.place))
}

pub fn assert_taken(file: impl AsRef<[u8]>) {
    assert_eq!(refused(&file), None, "{}", shown(file.as_ref()));
}

pub fn assert_refused(file: impl AsRef<[u8]>, number: u8, place: usize) {
    let answer = refused(&file);
    assert_eq!(answer, Some((number, place)), "{}", shown(file.as_ref()));
}

fn shown(file: &[u8]) -> String {
    file.escape_ascii().to_string()
}

pub fn circuit(file: impl AsRef<[u8]>) -> Circuit {
    read(file.as_ref()).expect("a file that is taken")
}

pub fn game(file: impl AsRef<[u8]>) -> Game {
    solve(&circuit(file))
}

/// The bytes of the writer.
pub fn written(file: impl AsRef<[u8]>) -> Vec<u8> {
    certificate(file.as_ref(), &game(&file))
}

/// Nothing if the certificate passes, else number and place.
pub fn checked(file: impl AsRef<[u8]>, bytes: &[u8]) -> Option<(u8, usize)> {
    let refusal = check(file.as_ref(), bytes).err()?;
    Some((refusal.number, refusal.place))
}
