//! Document 01, "The file": every line ends in byte 10; a number is one to
//! seven decimal digits without a leading zero unless it is 0 itself; single
//! spaces stand between numbers.

pub struct Lines<'f> {
    rest: &'f [u8],
    number: usize,
}

impl<'f> Lines<'f> {
    pub fn new(file: &'f [u8]) -> Self {
        Lines {
            rest: file,
            number: 1,
        }
    }

    /// The number that the next line has or would have.
    pub fn number(&self) -> usize {
        self.number
    }

    /// No byte is left, not even one that belongs to no line.
    pub fn at_end(&self) -> bool {
        self.rest.is_empty()
    }

    /// The next line without its byte 10; bytes without a byte 10 are no line.
    pub fn next_line(&mut self) -> Option<&'f [u8]> {
        let end = self.rest.iter().position(|&byte| byte == 10)?;
        let line = &self.rest[..end];
        self.rest = &self.rest[end + 1..];
        self.number += 1;
        Some(line)
    }
}

pub fn number(text: &[u8]) -> Option<usize> {
    let digits_alone = text.iter().all(u8::is_ascii_digit);
    let leading_zero = text.len() > 1 && text[0] == b'0';
    if text.is_empty() || text.len() > 7 || !digits_alone || leading_zero {
        return None;
    }
    let value = |sum: usize, digit: &u8| sum * 10 + usize::from(digit - b'0');
    Some(text.iter().fold(0, value))
}

/// Exactly `count` numbers with single spaces between them.
pub fn numbers(text: &[u8], count: usize) -> Option<Vec<usize>> {
    let found: Option<Vec<usize>> = text.split(|&byte| byte == b' ').map(number).collect();
    found.filter(|list| list.len() == count)
}
