//! Document 01, "The numbers", the sentence "Order": any bytes become a
//! circuit or one of the numbers 1 to 9 and 16 with its place.

mod body;
mod circles;
mod header;
mod lines;
mod symbols;

use crate::circuit::{Circuit, Input};
use crate::refusal::{refusal, Refusal};
use lines::Lines;

pub fn read(file: &[u8]) -> Result<Circuit, Refusal> {
    if file.len() > Circuit::FILE_BYTES {
        return Err(refusal(1, 0));
    }
    let mut lines = Lines::new(file);
    let header = header::read(&mut lines)?;
    let body = body::read(&header, &mut lines)?;
    let controllable = symbols::read(&header, &mut lines)?;

    let inputs = body.inputs.iter().zip(&controllable);
    let circuit = Circuit {
        header,
        inputs: inputs
            .map(|(&literal, &controllable)| Input {
                literal,
                controllable,
            })
            .collect(),
        latches: body.latches,
        output: body.output,
        gates: body.gates,
        order: body.order,
    };
    if circuit.uncontrollable_count() > Circuit::UNCONTROLLABLE
        || circuit.controllable_count() > Circuit::CONTROLLABLE
    {
        return Err(refusal(9, 0));
    }
    Ok(circuit)
}
