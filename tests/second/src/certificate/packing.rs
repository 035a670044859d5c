//! Document 02, T-07: "reply k fills C bits from bit k × C on, low bit first,
//! ceil(C × 2^(L+U) / 8) bytes, unused bits 0; with C = 0 it is empty."

/// The replies as one row of bits, eight to the byte.
pub fn pack(replies: &[u8], width: usize) -> Vec<u8> {
    let row: Vec<bool> = replies
        .iter()
        .flat_map(|&reply| (0..width).map(move |bit| reply >> bit & 1 == 1))
        .collect();
    row.chunks(8)
        .map(|eight| {
            eight
                .iter()
                .rev()
                .fold(0, |byte, &bit| 2 * byte + u8::from(bit))
        })
        .collect()
}

/// Reply k, its highest bit first. Bytes that aren't there count as 0.
pub fn unpack(bytes: &[u8], width: usize, k: usize) -> u8 {
    (0..width).rev().fold(0, |reply, bit| {
        let at = k
            .checked_mul(width)
            .and_then(|first| first.checked_add(bit));
        let byte = at.and_then(|at| bytes.get(at / 8)).copied().unwrap_or(0);
        2 * reply + (byte >> (at.unwrap_or(0) % 8) & 1)
    })
}
