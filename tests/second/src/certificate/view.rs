//! Document 01, "The certificate": "A reader of a passed certificate may keep
//! a view of it: the lent certificate bytes with the starts of its region and
//! replies." The counts L and U are told at each call; bits of state and
//! reading above them aren't read, and bytes that aren't there count as 0.
//! Document 02, T-07: replies are bytes or packed.

use super::packing::unpack;

/// How replies stand: a byte each, or so many bits each.
#[derive(Clone, Copy, Debug)]
pub enum Form {
    Bytes,
    Packed(usize),
}

/// A view of a reply certificate.
#[derive(Clone, Copy, Debug)]
pub struct Replies<'b> {
    pub bytes: &'b [u8],
    pub region: usize,
    pub replies: usize,
    pub form: Form,
}

impl Replies<'_> {
    pub fn region_bit(&self, latches: usize, state: usize) -> bool {
        let state = low_bits(state, latches);
        byte(self.bytes, self.region, Some(state / 8)) >> (state % 8) & 1 == 1
    }

    /// The stored reply inside the stored region and 0 outside.
    pub fn reply(&self, latches: usize, uncontrollable: usize, state: usize, reading: usize) -> u8 {
        if !self.region_bit(latches, state) {
            return 0;
        }
        self.stored(latches, uncontrollable, state, reading)
    }

    /// What is stored, whether anybody reads it or not.
    pub fn stored(
        &self,
        latches: usize,
        uncontrollable: usize,
        state: usize,
        reading: usize,
    ) -> u8 {
        let state = low_bits(state, latches);
        let reading = low_bits(reading, uncontrollable);
        let index = index(state, uncontrollable, reading);
        match self.form {
            Form::Bytes => byte(self.bytes, self.replies, index),
            Form::Packed(width) => {
                let table = self.bytes.get(self.replies..).unwrap_or(&[]);
                index.map_or(0, |index| unpack(table, width, index))
            }
        }
    }
}

/// A view of an attack certificate.
#[derive(Clone, Copy, Debug)]
pub struct Attacks<'b> {
    pub bytes: &'b [u8],
    pub table: usize,
}

impl Attacks<'_> {
    pub fn rank(&self, latches: usize, state: usize) -> u16 {
        let first = low_bits(state, latches).checked_mul(3);
        let second = first.and_then(|first| first.checked_add(1));
        let low = byte(self.bytes, self.table, first);
        let high = byte(self.bytes, self.table, second);
        u16::from_le_bytes([low, high])
    }

    /// The stored attack of a state with a rank and 0 where the rank is 0.
    pub fn attack(&self, latches: usize, state: usize) -> u8 {
        if self.rank(latches, state) == 0 {
            return 0;
        }
        let first = low_bits(state, latches).checked_mul(3);
        let third = first.and_then(|first| first.checked_add(2));
        byte(self.bytes, self.table, third)
    }
}

fn low_bits(number: usize, count: usize) -> usize {
    if count >= usize::BITS as usize {
        return number;
    }
    number & ((1 << count) - 1)
}

/// s × 2^U + reading, if it is a number at all.
fn index(state: usize, uncontrollable: usize, reading: usize) -> Option<usize> {
    if state == 0 {
        return Some(reading);
    }
    let readings = 1usize.checked_shl(u32::try_from(uncontrollable).ok()?)?;
    state.checked_mul(readings)?.checked_add(reading)
}

fn byte(bytes: &[u8], start: usize, offset: Option<usize>) -> u8 {
    let at = offset.and_then(|offset| start.checked_add(offset));
    at.and_then(|at| bytes.get(at)).copied().unwrap_or(0)
}
