//! Document 01, "The numbers", 2 and 3: the first line and its limits.

use super::lines::{numbers, Lines};
use crate::circuit::{Circuit, Header};
use crate::refusal::{refusal, Refusal};

pub fn read(lines: &mut Lines) -> Result<Header, Refusal> {
    let header = lines.next_line().and_then(form).ok_or(refusal(2, 1))?;
    if within_limits(&header) {
        Ok(header)
    } else {
        Err(refusal(3, 1))
    }
}

/// `aag` and five numbers.
fn form(line: &[u8]) -> Option<Header> {
    let n = numbers(line.strip_prefix(b"aag ")?, 5)?;
    Some(Header {
        m: n[0],
        i: n[1],
        l: n[2],
        o: n[3],
        a: n[4],
    })
}

fn within_limits(header: &Header) -> bool {
    header.m <= Circuit::LARGEST_VARIABLE
        && header.i <= Circuit::INPUTS
        && header.l <= Circuit::LATCHES
        && header.o == Circuit::OUTPUTS
        && header.m >= header.i + header.l + header.a
}
