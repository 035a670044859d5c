//! Document 01, "The file": the circuit as read, and the limits of
//! "What the library takes and gives", which belong to the circuit kind.
//!
//! Two values are equal exactly if they are "the same circuit": the same
//! header, lines and controllable inputs.

/// `aag M I L O A`.
#[derive(Clone, Copy, Debug, PartialEq, Eq)]
pub struct Header {
    pub m: usize,
    pub i: usize,
    pub l: usize,
    pub o: usize,
    pub a: usize,
}

#[derive(Clone, Copy, Debug, PartialEq, Eq)]
pub struct Input {
    pub literal: usize,
    pub controllable: bool,
}

#[derive(Clone, Copy, Debug, PartialEq, Eq)]
pub struct Latch {
    pub literal: usize,
    pub next: usize,
}

#[derive(Clone, Copy, Debug, PartialEq, Eq)]
pub struct Gate {
    pub literal: usize,
    pub left: usize,
    pub right: usize,
}

#[derive(Clone, Debug, PartialEq, Eq)]
pub struct Circuit {
    pub header: Header,
    pub inputs: Vec<Input>,
    pub latches: Vec<Latch>,
    pub output: usize,
    pub gates: Vec<Gate>,
    /// The gates in an order in which operands come first; it follows from them.
    pub order: Vec<usize>,
}

impl Circuit {
    pub const FILE_BYTES: usize = 16_384;
    pub const LARGEST_VARIABLE: usize = 1_000;
    pub const LATCHES: usize = 10;
    pub const INPUTS: usize = 13;
    pub const UNCONTROLLABLE: usize = 5;
    pub const CONTROLLABLE: usize = 8;
    pub const OUTPUTS: usize = 1;

    /// L of the document.
    pub fn latch_count(&self) -> usize {
        self.latches.len()
    }

    /// U of the document.
    pub fn uncontrollable_count(&self) -> usize {
        self.inputs.iter().filter(|i| !i.controllable).count()
    }

    /// C of the document.
    pub fn controllable_count(&self) -> usize {
        self.inputs.iter().filter(|i| i.controllable).count()
    }
}
