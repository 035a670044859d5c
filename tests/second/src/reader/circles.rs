//! Document 02, T-01: "16, some gate reaches itself through gates, place the
//! lowest line of such a gate". Gates without open operands are taken away
//! until none is left; of those that stay, some only lead into a circle.

use crate::circuit::Gate;
use crate::refusal::{refusal, Refusal};

/// An order of the gates in which operands come first, or 16.
pub fn read(gates: &[Gate], first_line: usize) -> Result<Vec<usize>, Refusal> {
    let operands = operands(gates);
    let (order, stays) = take_away(&operands);
    let closed = (0..gates.len()).find(|&gate| stays[gate] && returns(gate, &operands));
    match closed {
        Some(gate) => Err(refusal(16, first_line + gate)),
        None => Ok(order),
    }
}

/// For each gate the gates that define its operands.
fn operands(gates: &[Gate]) -> Vec<Vec<usize>> {
    let largest = gates.iter().map(|gate| gate.literal / 2).max().unwrap_or(0);
    let mut definer = vec![None; largest + 1];
    for (k, gate) in gates.iter().enumerate() {
        definer[gate.literal / 2] = Some(k);
    }
    let find = |literal: usize| definer.get(literal / 2).copied().flatten();
    let of = |gate: &Gate| {
        [gate.left, gate.right]
            .into_iter()
            .filter_map(find)
            .collect()
    };
    gates.iter().map(of).collect()
}

/// The gates in the order in which they go, and which of them stay.
fn take_away(operands: &[Vec<usize>]) -> (Vec<usize>, Vec<bool>) {
    let mut users = vec![Vec::new(); operands.len()];
    let mut open: Vec<usize> = operands.iter().map(Vec::len).collect();
    for (gate, used) in operands.iter().enumerate() {
        for &operand in used {
            users[operand].push(gate);
        }
    }
    let mut gone: Vec<usize> = (0..open.len()).filter(|&gate| open[gate] == 0).collect();
    let mut next = 0;
    while let Some(&gate) = gone.get(next) {
        for &user in &users[gate] {
            open[user] -= 1;
            if open[user] == 0 {
                gone.push(user);
            }
        }
        next += 1;
    }
    (gone, open.iter().map(|&count| count > 0).collect())
}

/// A walk from the gate to its operands and on comes back to it.
fn returns(gate: usize, operands: &[Vec<usize>]) -> bool {
    let mut seen = vec![false; operands.len()];
    let mut waiting = operands[gate].clone();
    while let Some(at) = waiting.pop() {
        if !seen[at] {
            seen[at] = true;
            waiting.extend(&operands[at]);
        }
    }
    seen[gate]
}
