//! A circuit file in parts, before it becomes bytes: document 01, "The file".

use super::names;
use super::net::Net;
use super::random::Random;

pub struct Draft {
    pub header: Vec<u8>,
    /// The lines before the symbols.
    pub body: Vec<Vec<u8>>,
    pub symbols: Vec<Vec<u8>>,
    /// The bytes after the line `c`.
    pub comment: Option<Vec<u8>>,
    /// The last byte of the file is left away.
    pub cut: bool,
}

impl Draft {
    pub fn bytes(&self) -> Vec<u8> {
        let mut bytes = Vec::new();
        let before = std::iter::once(&self.header);
        for line in before.chain(&self.body).chain(&self.symbols) {
            bytes.extend_from_slice(line);
            bytes.push(10);
        }
        if let Some(comment) = &self.comment {
            bytes.extend_from_slice(b"c\n");
            bytes.extend_from_slice(comment);
        }
        if self.cut {
            bytes.pop();
        }
        bytes
    }

    /// M, I, L, O, A as they stand in the header, if they do.
    pub fn header_numbers(&self) -> Option<Vec<usize>> {
        let text = self.header.strip_prefix(b"aag ")?;
        let found = parse(text)?;
        (found.len() == 5).then_some(found)
    }

    pub fn set_header(&mut self, numbers: &[usize]) {
        self.header = [b"aag ".to_vec(), join(numbers)].concat();
    }

    /// The literals of a body line, if it is well-formed.
    pub fn literals(&self, line: usize) -> Option<Vec<usize>> {
        parse(self.body.get(line)?)
    }

    pub fn set_literals(&mut self, line: usize, literals: &[usize]) {
        self.body[line] = join(literals);
    }
}

fn parse(text: &[u8]) -> Option<Vec<usize>> {
    let text = std::str::from_utf8(text).ok()?;
    text.split(' ').map(|part| part.parse().ok()).collect()
}

fn join(numbers: &[usize]) -> Vec<u8> {
    let parts: Vec<String> = numbers.iter().map(usize::to_string).collect();
    parts.join(" ").into_bytes()
}

/// The file of a net, with numbers of variables, names and comment at random.
pub fn draft(net: &Net, random: &mut Random) -> Draft {
    let (m, variables) = numbering(net, random);
    let literal = |literal: usize| 2 * variables[literal / 2] + literal % 2;
    let (i, l, a) = (net.inputs(), net.latches(), net.gates.len());

    let mut body = Vec::new();
    for k in 0..i {
        body.push(join(&[literal(2 * (k + 1))]));
    }
    for k in 0..l {
        body.push(join(&[literal(net.latch(k)), literal(net.next[k])]));
    }
    body.push(join(&[literal(net.output)]));
    let mut gates = Vec::new();
    for (k, &[left, right]) in net.gates.iter().enumerate() {
        let (left, right) = if random.chance(50) {
            (left, right)
        } else {
            (right, left)
        };
        let own = 2 * (i + l + k + 1);
        gates.push(join(&[literal(own), literal(left), literal(right)]));
    }
    as_drawn(&mut gates, random);
    body.extend(gates);

    let comment = random.chance(30).then(|| names::comment(random));
    let mut draft = Draft {
        header: Vec::new(),
        body,
        symbols: symbols(net, random),
        comment,
        cut: false,
    };
    draft.set_header(&[m, i, l, 1, a]);
    draft
}

/// Document 02, T-01: gates stand in any order; half of the time as made.
fn as_drawn(gates: &mut [Vec<u8>], random: &mut Random) {
    match random.below(4) {
        0 => gates.reverse(),
        1 => random.shuffle(gates),
        _ => {}
    }
}

/// M, and the number of each variable of the net; variable 0 stays.
fn numbering(net: &Net, random: &mut Random) -> (usize, Vec<usize>) {
    let count = net.variables();
    let m = match random.below(20) {
        0 => 1000.max(count),
        1 | 2 => count + random.between(1, 100),
        3..=7 => count + random.between(1, 9),
        _ => count,
    };
    let mut numbers: Vec<usize> = (1..=m).collect();
    if random.chance(50) {
        random.shuffle(&mut numbers);
    }
    numbers.truncate(count);
    numbers.insert(0, 0);
    (m, numbers)
}

fn symbols(net: &Net, random: &mut Random) -> Vec<Vec<u8>> {
    let mut lines = Vec::new();
    for (k, &controllable) in net.controllable.iter().enumerate() {
        if controllable {
            lines.push(symbol(b'i', k, names::controllable(random)));
        } else if random.chance(50) {
            lines.push(symbol(b'i', k, names::uncontrollable(random)));
        }
    }
    for k in 0..net.latches() {
        if random.chance(30) {
            lines.push(symbol(b'l', k, names::any(random)));
        }
    }
    if random.chance(30) {
        lines.push(symbol(b'o', 0, names::any(random)));
    }
    if random.chance(60) {
        random.shuffle(&mut lines);
    }
    lines
}

pub fn symbol(letter: u8, position: usize, name: Vec<u8>) -> Vec<u8> {
    let position = position.to_string().into_bytes();
    [vec![letter], position, b" ".to_vec(), name].concat()
}
