//! A circuit under construction: variables in the order inputs, latches,
//! gates, and a literal as in document 01, "The file", 3.

pub struct Net {
    /// Per input.
    pub controllable: Vec<bool>,
    /// The next-state literal of each latch.
    pub next: Vec<usize>,
    pub output: usize,
    /// The operands of each gate, defined earlier.
    pub gates: Vec<[usize; 2]>,
}

impl Net {
    pub fn new(controllable: Vec<bool>, latches: usize) -> Self {
        Net {
            controllable,
            next: vec![0; latches],
            output: 0,
            gates: Vec::new(),
        }
    }

    pub fn inputs(&self) -> usize {
        self.controllable.len()
    }

    pub fn latches(&self) -> usize {
        self.next.len()
    }

    pub fn variables(&self) -> usize {
        self.inputs() + self.latches() + self.gates.len()
    }

    /// The literals of the inputs of one sort.
    pub fn sort(&self, controllable: bool) -> Vec<usize> {
        let of_sort = (0..self.inputs()).filter(|&k| self.controllable[k] == controllable);
        of_sort.map(|k| 2 * (k + 1)).collect()
    }

    pub fn latch(&self, k: usize) -> usize {
        2 * (self.inputs() + k + 1)
    }

    pub fn latch_literals(&self) -> Vec<usize> {
        (0..self.latches()).map(|k| self.latch(k)).collect()
    }

    pub fn and(&mut self, left: usize, right: usize) -> usize {
        self.gates.push([left, right]);
        2 * self.variables()
    }

    pub fn or(&mut self, left: usize, right: usize) -> usize {
        self.and(left ^ 1, right ^ 1) ^ 1
    }

    pub fn xor(&mut self, left: usize, right: usize) -> usize {
        let both = self.and(left, right);
        let none = self.and(left ^ 1, right ^ 1);
        self.and(both ^ 1, none ^ 1)
    }

    pub fn choose(&mut self, which: usize, if_true: usize, if_false: usize) -> usize {
        let one = self.and(which, if_true);
        let other = self.and(which ^ 1, if_false);
        self.or(one, other)
    }

    pub fn all(&mut self, literals: &[usize]) -> usize {
        match literals {
            [] => 1,
            [first, rest @ ..] => rest
                .iter()
                .fold(*first, |so_far, &literal| self.and(so_far, literal)),
        }
    }
}
