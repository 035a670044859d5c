//! Random well-formed files of a wanted outcome: document 01, "The game".

use super::draft::{draft, Draft};
use super::net::Net;
use super::random::Random;
use super::styles;
use crate::game::{solve, Game};
use crate::reader::read;

#[derive(Clone, Copy, Debug)]
pub enum Wanted {
    /// Realizable, and every state lies in the region.
    HoldsEverywhere,
    /// Realizable with a state outside the region.
    HoldsInPart,
    /// Unrealizable with a reset rank of 1 or 2.
    LosesSoon,
    /// Unrealizable with a reset rank above 2.
    LosesLate,
}

const TRIES: usize = 60;

/// The first of some random files with this outcome, mostly one in which the
/// players have something to decide, else the last of them.
pub fn file(random: &mut Random, wanted: Wanted) -> Vec<u8> {
    let lively_only = random.chance(65);
    let some_held = random.chance(50);
    let mut best = Vec::new();
    let mut found = false;
    for _ in 0..TRIES {
        let shape = shape(random, wanted);
        let bytes = of_shape(random, shape).bytes();
        let game = read(&bytes).map(|circuit| solve(&circuit));
        let fits_now = game.as_ref().is_ok_and(|game| fits(game, wanted));
        if fits_now || !found {
            best = bytes;
            found = fits_now;
        }
        if fits_now && (!lively_only || game.is_ok_and(|game| lively(&game, some_held))) {
            break;
        }
    }
    best
}

/// A random well-formed file without a wanted outcome.
pub fn any(random: &mut Random) -> Draft {
    let shape = Shape {
        latches: random.below(6),
        uncontrollable: random.below(4),
        controllable: random.below(4),
    };
    of_shape(random, shape)
}

/// A random well-formed file at the limits of L, U and C. Gates that nothing
/// needs make some of them long.
pub fn full(random: &mut Random) -> Draft {
    let mut net = net(random, LIMITS);
    if random.chance(20) {
        styles::pad(&mut net, random, 400);
    }
    draft(&net, random)
}

const LIMITS: Shape = Shape {
    latches: 10,
    uncontrollable: 5,
    controllable: 8,
};

#[derive(Clone, Copy)]
pub struct Shape {
    pub latches: usize,
    pub uncontrollable: usize,
    pub controllable: usize,
}

pub fn of_shape(random: &mut Random, shape: Shape) -> Draft {
    let net = net(random, shape);
    draft(&net, random)
}

fn net(random: &mut Random, shape: Shape) -> Net {
    let mut controllable = vec![false; shape.uncontrollable];
    controllable.resize(shape.uncontrollable + shape.controllable, true);
    random.shuffle(&mut controllable);
    let mut net = Net::new(controllable, shape.latches);
    styles::fill(&mut net, random);
    net
}

fn shape(random: &mut Random, wanted: Wanted) -> Shape {
    let least_latches = match wanted {
        Wanted::HoldsEverywhere | Wanted::LosesSoon => 0,
        Wanted::HoldsInPart => 1,
        Wanted::LosesLate => 2,
    };
    let large = random.chance(1);
    Shape {
        latches: random.between(least_latches, if large { 7 } else { 5 }),
        uncontrollable: random.below(if large { 6 } else { 4 }),
        controllable: random.below(if large { 9 } else { 4 }),
    }
}

fn fits(game: &Game, wanted: Wanted) -> bool {
    let reset = game.ranks[0];
    let partly = game.ranks.iter().any(|&rank| rank != 0);
    match wanted {
        Wanted::HoldsEverywhere => !partly,
        Wanted::HoldsInPart => reset == 0 && partly,
        Wanted::LosesSoon => reset == 1 || reset == 2,
        Wanted::LosesLate => reset > 2,
    }
}

/// Realizable: the reply depends on the reading. Unrealizable: there is a
/// control, and some state is held or some attack isn't 0, as asked for.
fn lively(game: &Game, some_held: bool) -> bool {
    if game.realizable() {
        let mut rows = game.replies.chunks(1 << game.uncontrollable);
        return rows.any(|row| row.iter().any(|&reply| reply != row[0]));
    }
    let asked_for = if some_held {
        game.ranks.contains(&0)
    } else {
        game.attacks.iter().any(|&attack| attack != 0)
    };
    game.controllable > 0 && asked_for
}
