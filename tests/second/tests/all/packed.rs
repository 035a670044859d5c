//! The readings T07-1 to T07-3 of document 02, T-07: packed replies.

use crate::common::{checked, game, written, P, Q, R};
use second::certificate::packing::{pack, unpack};
use second::certificate::records::append;
use second::certificate::writer::packed_certificate;

fn packed(file: &str) -> Vec<u8> {
    packed_certificate(file.as_bytes(), &game(&file))
}

fn with(file: &str, region: &[u8], replies: &[u8]) -> Vec<u8> {
    let mut bytes = Vec::new();
    append(&mut bytes, 1, file.as_bytes());
    append(&mut bytes, 2, region);
    append(&mut bytes, 5, replies);
    bytes
}

#[test]
fn layout() {
    // P: four replies of one bit, 0 1 0 1: 71 bytes instead of 74.
    assert_eq!(packed(P), with(P, &[3], &[0b1010]));
    assert_eq!((written(P).len(), packed(P).len()), (74, 71));
    // An attack certificate has no replies.
    assert_eq!(packed(Q), written(Q));
}

#[test]
fn every_reply_is_that_of_the_byte_table() {
    for width in 0..=8 {
        let replies: Vec<u8> = (0..64u16).map(|k| (k * 37 % (1 << width)) as u8).collect();
        let bytes = pack(&replies, width);
        assert_eq!(bytes.len(), (64 * width).div_ceil(8));
        for (k, &reply) in replies.iter().enumerate() {
            assert_eq!(unpack(&bytes, width, k), reply, "{width} {k}");
        }
    }
    assert_eq!(pack(&[0b101, 0b011, 0b110], 3), [0b10_011_101, 1]);
}

#[test]
fn t07_1_shapes() {
    assert_eq!(checked(P, &packed(P)), None);
    assert_eq!(checked(R, &packed(P)), Some((12, 0)));
}

#[test]
fn t07_2_lengths_and_unused_bits() {
    for replies in [&[][..], &[0b1010, 0], &[0b1_1010], &[0x8A], &[0, 1, 0, 1]] {
        assert_eq!(checked(P, &with(P, &[3], replies)), Some((13, 0)));
        // Before state 0 is looked at.
        assert_eq!(checked(P, &with(P, &[0], replies)), Some((13, 0)));
    }
    // Without controllable inputs the record is empty.
    let none = "aag 1 0 1 1 0\n2 2\n0\n";
    assert_eq!(checked(none, &with(none, &[3], &[])), None);
    assert_eq!(checked(none, &with(none, &[3], &[0])), Some((13, 0)));
}

#[test]
fn t07_3_bits_outside_the_region() {
    // R's state 1 lies outside: any bits.
    for bits in 0..4 {
        assert_eq!(checked(R, &with(R, &[1], &[0b10 | bits << 2])), None);
    }
    assert_eq!(packed(R)[packed(R).len() - 1] >> 2, 0);
}

#[test]
fn number_15() {
    assert_eq!(checked(P, &with(P, &[3], &[0b1000])), Some((15, 1)));
    assert_eq!(checked(P, &with(P, &[3], &[0b0010])), Some((15, 3)));
}
