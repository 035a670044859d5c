//! A call of the library: what is lent and told, as the driver reads it, and
//! what it has to answer.

pub const ANSWERS: usize = 8;

#[derive(Clone, Copy, Debug, PartialEq, Eq, PartialOrd, Ord)]
pub enum Function {
    Read,
    Step,
    Certify,
    CertifyPacked,
    Check,
    Print,
    CircuitRecord,
    RegionBit,
    Reply,
    Rank,
    Attack,
}

impl Function {
    /// Its first answer is the number of a refusal.
    pub fn refuses(self) -> bool {
        self <= Function::Print
    }
}

#[derive(Debug, Default)]
pub struct Case {
    pub file: Vec<u8>,
    pub certificate: Vec<u8>,
    pub room: usize,
    pub numbers: [u64; 8],
}

#[derive(Debug, Default, PartialEq, Eq)]
pub struct Answer {
    pub numbers: [u64; ANSWERS],
    pub buffer: Vec<u8>,
}

impl Answer {
    pub fn of(numbers: &[u64]) -> Answer {
        let mut answer = Answer::default();
        answer.numbers[..numbers.len()].copy_from_slice(numbers);
        answer
    }
}

/// The buffer as the driver lends it.
pub fn blank(room: usize) -> Vec<u8> {
    (0..room).map(|k| (31 * k + 7) as u8).collect()
}

/// The case as the driver reads it.
pub fn write(bytes: &mut Vec<u8>, function: Function, fenced: bool, case: &Case) {
    bytes.extend([function as u8, u8::from(fenced)]);
    for count in [case.file.len(), case.certificate.len(), case.room] {
        bytes.extend((count as u32).to_le_bytes());
    }
    for number in case.numbers {
        bytes.extend(number.to_le_bytes());
    }
    bytes.extend(&case.file);
    bytes.extend(&case.certificate);
}
