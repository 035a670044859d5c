//! Document 01, "The certificate": "Records stand back to back: length first
//! (4 bytes, little-endian, contents only), a two-byte kind, little-endian,
//! then the contents."

pub const CIRCUIT: u16 = 1;
pub const REGION: u16 = 2;
pub const REPLIES: u16 = 3;
pub const ATTACKS: u16 = 4;
pub const PACKED: u16 = 5;

/// Bytes of length and kind together.
const HEAD: usize = 6;

/// A record as it lies in the certificate: its contents start at `start`.
#[derive(Clone, Copy, Debug)]
pub struct Record<'b> {
    pub kind: u16,
    pub start: usize,
    pub contents: &'b [u8],
}

pub fn append(bytes: &mut Vec<u8>, kind: u16, contents: &[u8]) {
    bytes.extend_from_slice(&(contents.len() as u32).to_le_bytes());
    bytes.extend_from_slice(&kind.to_le_bytes());
    bytes.extend_from_slice(contents);
}

/// All records to the last byte, or nothing if one is cut short.
pub fn split(bytes: &[u8]) -> Option<Vec<Record<'_>>> {
    let mut records = Vec::new();
    let mut at = 0;
    while at < bytes.len() {
        let head = bytes.get(at..at + HEAD)?;
        let length = u32::from_le_bytes([head[0], head[1], head[2], head[3]]) as usize;
        let kind = u16::from_le_bytes([head[4], head[5]]);
        let start = at + HEAD;
        let contents = bytes[start..].get(..length)?;
        records.push(Record {
            kind,
            start,
            contents,
        });
        at = start + length;
    }
    Some(records)
}
