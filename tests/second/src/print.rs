//! Document 01, "The numbers", last paragraph: "Printing gives header, lines
//! in the order read, and for each controllable input in order `i`,
//! position, ` controllable_`, position; no other names, no comment."

use crate::circuit::Circuit;

pub fn print(circuit: &Circuit) -> String {
    let h = circuit.header;
    let mut text = format!("aag {} {} {} {} {}\n", h.m, h.i, h.l, h.o, h.a);
    for input in &circuit.inputs {
        text.push_str(&format!("{}\n", input.literal));
    }
    for latch in &circuit.latches {
        text.push_str(&format!("{} {}\n", latch.literal, latch.next));
    }
    text.push_str(&format!("{}\n", circuit.output));
    for gate in &circuit.gates {
        text.push_str(&format!("{} {} {}\n", gate.literal, gate.left, gate.right));
    }
    for (position, input) in circuit.inputs.iter().enumerate() {
        if input.controllable {
            text.push_str(&format!("i{position} controllable_{position}\n"));
        }
    }
    text
}
