//! Styles of random circuits. Counters and shifts give high ranks, traps
//! give states outside the region, chases make the control answer the
//! reading, soups are anything; a haven adds states that never err.

use super::net::Net;
use super::random::Random;

pub fn fill(net: &mut Net, random: &mut Random) {
    match random.below(10) {
        0 | 1 => soup(net, random),
        2 | 3 => counter(net, random),
        4 | 5 => shift(net, random),
        6 | 7 => trap(net, random),
        _ => chase(net, random),
    }
    if net.latches() > 1 && random.chance(30) {
        haven(net, random);
    }
    if random.chance(25) {
        disturb(net, random);
    }
}

/// Random gates over everything before them.
fn soup(net: &mut Net, random: &mut Random) {
    let gates = random.below(25);
    for _ in 0..gates {
        let (left, right) = (anything(net, random), anything(net, random));
        net.and(left, right);
    }
    for k in 0..net.latches() {
        net.next[k] = anything(net, random);
    }
    net.output = anything(net, random);
    for _ in 0..random.below(3) {
        let literal = anything(net, random);
        net.output = net.and(net.output, literal);
    }
}

/// Random gates that nothing needs, up to so many gates in all.
pub fn pad(net: &mut Net, random: &mut Random, most: usize) {
    let gates = random.between(net.gates.len(), most);
    while net.gates.len() < gates {
        let (left, right) = (anything(net, random), anything(net, random));
        net.and(left, right);
    }
}

/// The state counts up while enabled, may be cleared, and errs at its end.
fn counter(net: &mut Net, random: &mut Random) {
    let enable = drive(net, random);
    let clear = match random.below(4) {
        0 => drive(net, random),
        1 => {
            let leaves = [net.sort(true), net.latch_literals()].concat();
            formula(net, random, &leaves, 3)
        }
        _ => 0,
    };
    let mut carry = enable;
    for k in 0..net.latches() {
        let latch = net.latch(k);
        let sum = net.xor(latch, carry);
        carry = net.and(latch, carry);
        net.next[k] = if clear == 0 {
            sum
        } else {
            net.and(sum, clear ^ 1)
        };
    }
    net.output = goal(net, random);
}

/// The first latch takes what drives it, the others what stands before them.
fn shift(net: &mut Net, random: &mut Random) {
    let hold = if random.chance(25) {
        drive(net, random)
    } else {
        0
    };
    for k in 0..net.latches() {
        let taken = if k == 0 {
            drive(net, random)
        } else {
            net.latch(k - 1)
        };
        net.next[k] = if hold == 0 {
            taken
        } else {
            let latch = net.latch(k);
            net.choose(hold, latch, taken)
        };
    }
    net.output = goal(net, random);
}

/// Some latches can't be left once they are 1, and err with what stands by.
fn trap(net: &mut Net, random: &mut Random) {
    let leaves = leaves(net);
    let mut caught = 0;
    for k in 0..net.latches() {
        let latch = net.latch(k);
        let why = formula(net, random, &leaves, random_size(k));
        if k == 0 || random.chance(40) {
            net.next[k] = net.or(latch, why);
            caught = net.or(caught, latch);
        } else {
            net.next[k] = why;
        }
    }
    let when = formula(net, random, &leaves, 2);
    net.output = match random.below(3) {
        0 => caught,
        1 => net.and(caught, when),
        _ => net.or(caught, when),
    };
}

fn random_size(k: usize) -> usize {
    2 + k % 2
}

/// The control has to agree with the reading while the latches ask for it.
fn chase(net: &mut Net, random: &mut Random) {
    let (readings, controls) = (net.sort(false), net.sort(true));
    let mut differ = 0;
    for &control in &controls {
        let reading = if readings.is_empty() {
            1
        } else {
            *random.pick(&readings)
        };
        let pair = net.xor(control ^ random.below(2), reading);
        differ = if differ == 0 {
            pair
        } else {
            net.or(differ, pair)
        };
        if random.chance(40) {
            break;
        }
    }
    if differ == 0 {
        differ = drive(net, random);
    }
    let latches = net.latch_literals();
    let asked = formula(net, random, &latches, 2);
    let leaves = leaves(net);
    for k in 0..net.latches() {
        net.next[k] = match random.below(4) {
            0 => differ,
            1 => {
                let latch = net.latch(k);
                net.or(latch, differ)
            }
            2 if k > 0 => net.latch(k - 1),
            _ => formula(net, random, &leaves, 3),
        };
    }
    net.output = match random.below(3) {
        0 => net.and(differ, asked),
        1 => net.and(differ ^ 1, asked),
        _ => goal(net, random),
    };
}

/// While the last latch is 1 there is no error and it stays 1.
fn haven(net: &mut Net, random: &mut Random) {
    let last = net.latches() - 1;
    let latch = net.latch(last);
    let others = net.latch_literals()[..last].to_vec();
    let from = formula(net, random, &others, 2);
    let way = drive(net, random);
    let entered = net.and(from, way);
    net.next[last] = net.or(latch, entered);
    net.output = net.and(net.output, latch ^ 1);
}

/// An operand, a next-state literal or the output becomes something else.
fn disturb(net: &mut Net, random: &mut Random) {
    if !net.gates.is_empty() && random.chance(60) {
        let gate = random.below(net.gates.len());
        let variables = net.inputs() + net.latches() + gate;
        let side = random.below(2);
        net.gates[gate][side] = random.below(2 * variables + 2);
    } else if net.latches() > 0 && random.chance(70) {
        let k = random.below(net.latches());
        net.next[k] = anything(net, random);
    } else {
        net.output ^= 1;
    }
}

/// What moves a counter or a shift: the environment, the control or both.
fn drive(net: &mut Net, random: &mut Random) -> usize {
    let (readings, controls) = (net.sort(false), net.sort(true));
    let reading = one_of(random, &readings, 1);
    let control = one_of(random, &controls, 1) ^ random.below(2);
    match random.below(8) {
        0 => 1,
        1..=3 => reading,
        4 => control,
        5 => net.and(reading, control),
        6 => net.or(reading, control),
        _ => net.xor(reading, control),
    }
}

/// A state or a few states, perhaps with a condition on the inputs.
fn goal(net: &mut Net, random: &mut Random) -> usize {
    let mut literals = net.latch_literals();
    if random.chance(40) {
        random.shuffle(&mut literals);
        let kept = random.below(literals.len() + 1);
        literals.truncate(kept);
    }
    if random.chance(40) {
        for literal in &mut literals {
            *literal ^= random.below(2);
        }
    }
    let state = net.all(&literals);
    match random.below(4) {
        0 => {
            let inputs = [net.sort(false), net.sort(true)].concat();
            let when = formula(net, random, &inputs, 2);
            net.and(state, when)
        }
        1 => {
            let when = drive(net, random);
            net.and(state, when)
        }
        _ => state,
    }
}

/// So many leaves, joined at random.
fn formula(net: &mut Net, random: &mut Random, leaves: &[usize], size: usize) -> usize {
    let mut so_far = one_of(random, leaves, 1);
    for _ in 1..size {
        let leaf = one_of(random, leaves, 1) ^ random.below(2);
        so_far = match random.below(5) {
            0 | 1 => net.and(so_far, leaf),
            2 | 3 => net.or(so_far, leaf),
            _ => net.xor(so_far, leaf),
        };
    }
    so_far
}

fn one_of(random: &mut Random, literals: &[usize], otherwise: usize) -> usize {
    if literals.is_empty() {
        return otherwise;
    }
    *random.pick(literals)
}

fn leaves(net: &Net) -> Vec<usize> {
    [net.sort(false), net.sort(true), net.latch_literals()].concat()
}

/// Any literal there is, the constants too.
fn anything(net: &Net, random: &mut Random) -> usize {
    random.below(2 * net.variables() + 2)
}
