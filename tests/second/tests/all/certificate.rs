//! The readings B-35 to B-43 of document 01, "The certificate" and "The
//! numbers", 10 to 15: certificate and check.

use crate::common::{checked, written, P, Q, R};
use second::certificate::checker::{check, Tables};
use second::certificate::records::append;
use second::certificate::view::{Attacks, Form, Replies};
use second::certificate::writer::write;
use second::refusal::refusal;

fn joined(records: &[(u16, &[u8])]) -> Vec<u8> {
    let mut bytes = Vec::new();
    for &(kind, contents) in records {
        append(&mut bytes, kind, contents);
    }
    bytes
}

fn replies_of(file: &str, region: &[u8], replies: &[u8]) -> Vec<u8> {
    joined(&[(1, file.as_bytes()), (2, region), (3, replies)])
}

fn attacks_of(file: &str, table: &[u8]) -> Vec<u8> {
    joined(&[(1, file.as_bytes()), (4, table)])
}

#[test]
fn layout() {
    let mut bytes = vec![51, 0, 0, 0, 1, 0];
    bytes.extend_from_slice(P.as_bytes());
    bytes.extend_from_slice(&[1, 0, 0, 0, 2, 0, 0b11]);
    bytes.extend_from_slice(&[4, 0, 0, 0, 3, 0, 0, 1, 0, 1]);
    assert_eq!(written(P), bytes);

    let mut bytes = vec![67, 0, 0, 0, 1, 0];
    bytes.extend_from_slice(Q.as_bytes());
    bytes.extend_from_slice(&[6, 0, 0, 0, 4, 0, 2, 0, 1, 1, 0, 1]);
    assert_eq!(written(Q), bytes);
}

#[test]
fn b35_shape_of_the_whole_first() {
    let whole = written(P);
    for length in 0..whole.len() {
        assert_eq!(checked(P, &whole[..length]), Some((11, 0)), "{length}");
    }
    let mut more = whole.clone();
    more.push(0);
    assert_eq!(checked(P, &more), Some((11, 0)));
    more.extend_from_slice(&[0, 0, 0, 9, 0]);
    assert_eq!(checked(P, &more), Some((11, 0)));
    assert_eq!(checked(P, b""), Some((11, 0)));

    let circuit = P.as_bytes();
    let tables: [&[(u16, &[u8])]; 10] = [
        &[(1, circuit)],
        &[(1, circuit), (2, &[3])],
        &[(1, circuit), (3, &[0, 1, 0, 1]), (2, &[3])],
        &[(2, &[3]), (1, circuit), (3, &[0, 1, 0, 1])],
        &[(1, circuit), (2, &[3]), (4, &[0, 1, 0, 1])],
        &[(1, circuit), (2, &[3]), (3, &[0, 1, 0, 1]), (4, &[])],
        &[(1, circuit), (1, circuit), (2, &[3]), (3, &[0, 1, 0, 1])],
        &[(1, circuit), (258, &[3]), (3, &[0, 1, 0, 1])],
        &[(1, circuit), (2, &[3]), (6, &[0, 1, 0, 1])],
        &[(1, circuit), (2, &[3]), (3, &[0, 1, 0, 1]), (5, &[0b1010])],
    ];
    for records in tables {
        assert_eq!(checked(P, &joined(records)), Some((11, 0)));
    }
    // Before the circuit record is compared.
    assert_eq!(checked(P, &joined(&[(1, b"")])), Some((11, 0)));
    let mut cut = written(Q);
    cut.pop();
    assert_eq!(checked(P, &cut), Some((11, 0)));
}

#[test]
fn b36_number_12_compares_bytes() {
    let named = P.replace("hold", "held");
    let commented = format!("{P}c\n");
    for other in [named.as_str(), commented.as_str(), &P[..50], "", Q] {
        let bytes = replies_of(other, &[3], &[0, 1, 0, 1]);
        assert_eq!(checked(P, &bytes), Some((12, 0)));
    }
    // Before the lengths of the tables.
    assert_eq!(checked(P, &replies_of(R, &[], &[])), Some((12, 0)));
    assert_eq!(checked(Q, &written(R)), Some((12, 0)));
}

#[test]
fn b37_lengths_and_unused_bits() {
    for region in [&[][..], &[3, 0], &[7], &[0x83], &[0x80]] {
        let bytes = replies_of(P, region, &[0, 1, 0, 1]);
        assert_eq!(checked(P, &bytes), Some((13, 0)));
    }
    for replies in [&[][..], &[0, 1, 0], &[0, 1, 0, 1, 0]] {
        assert_eq!(checked(P, &replies_of(P, &[3], replies)), Some((13, 0)));
        // Before state 0 is looked at.
        assert_eq!(checked(P, &replies_of(P, &[0], replies)), Some((13, 0)));
    }
    for table in [&[][..], &[2, 0, 1, 1, 0], &[2, 0, 1, 1, 0, 1, 0]] {
        assert_eq!(checked(Q, &attacks_of(Q, table)), Some((13, 0)));
    }
    // With three latches every bit of the byte is a state.
    let three = "aag 3 0 3 1 0\n2 2\n4 4\n6 6\n0\n";
    assert_eq!(checked(three, &replies_of(three, &[0xFF], &[0; 8])), None);
    assert_eq!(checked(three, &replies_of(three, &[0x81], &[0; 8])), None);
}

#[test]
fn number_14() {
    for region in [0b00, 0b10] {
        let bytes = replies_of(P, &[region], &[9, 9, 9, 9]);
        assert_eq!(checked(P, &bytes), Some((14, 0)));
    }
    let bytes = attacks_of(Q, &[0, 0, 1, 1, 0, 9]);
    assert_eq!(checked(Q, &bytes), Some((14, 0)));
    assert_eq!(checked(P, &attacks_of(P, &[0; 6])), Some((14, 0)));
}

#[test]
fn b38_what_is_not_read() {
    // R's state 1 lies outside: any byte.
    assert_eq!(checked(R, &replies_of(R, &[1], &[0, 1, 2, 255])), None);
    // Q made so that state 1 isn't needed: error is the reading.
    let file = "aag 2 1 1 1 0\n2\n4 4\n2\n";
    assert_eq!(
        checked(file, &attacks_of(file, &[1, 0, 1, 0, 0, 255])),
        None
    );
}

#[test]
fn b39_stored_ranks() {
    for (state_0, state_1) in [(2, 1), (3, 1), (3, 2), (700, 699), (65_535, 65_534)] {
        let [a, b] = u16::to_le_bytes(state_0);
        let [c, d] = u16::to_le_bytes(state_1);
        let bytes = attacks_of(Q, &[a, b, 1, c, d, 1]);
        assert_eq!(checked(Q, &bytes), None);
    }
    // Equal or rising along the attack, or 1 without an error.
    for (state_0, state_1) in [(2, 2), (1, 1), (1, 2), (256, 256), (255, 256)] {
        let [a, b] = u16::to_le_bytes(state_0);
        let [c, d] = u16::to_le_bytes(state_1);
        let bytes = attacks_of(Q, &[a, b, 1, c, d, 1]);
        assert_eq!(checked(Q, &bytes), Some((15, 0)));
    }
}

#[test]
fn b34_stored_numbers_are_not_masked() {
    assert_eq!(
        checked(P, &replies_of(P, &[3], &[2, 1, 0, 1])),
        Some((15, 0))
    );
    assert_eq!(
        checked(P, &replies_of(P, &[3], &[0, 3, 0, 1])),
        Some((15, 1))
    );
    assert_eq!(
        checked(Q, &attacks_of(Q, &[2, 0, 3, 1, 0, 1])),
        Some((15, 0))
    );
    assert_eq!(
        checked(Q, &attacks_of(Q, &[2, 0, 1, 1, 0, 3])),
        Some((15, 1))
    );
}

#[test]
fn b40_place_of_15() {
    // P: reading 1 needs control 1, for either state.
    assert_eq!(
        checked(P, &replies_of(P, &[3], &[0, 0, 0, 0])),
        Some((15, 1))
    );
    assert_eq!(
        checked(P, &replies_of(P, &[3], &[0, 1, 0, 0])),
        Some((15, 3))
    );
    assert_eq!(
        checked(P, &replies_of(P, &[3], &[0, 1, 2, 0])),
        Some((15, 2))
    );
    // A smaller region: reading 1 leads to state 1.
    assert_eq!(
        checked(P, &replies_of(P, &[1], &[0, 1, 0, 1])),
        Some((15, 1))
    );
    // Attacks: the state alone.
    assert_eq!(
        checked(Q, &attacks_of(Q, &[2, 0, 1, 1, 0, 0])),
        Some((15, 1))
    );
    assert_eq!(
        checked(Q, &attacks_of(Q, &[2, 0, 0, 1, 0, 0])),
        Some((15, 0))
    );
    // State 1 of rank 0: state 0 leads to it.
    assert_eq!(
        checked(Q, &attacks_of(Q, &[2, 0, 1, 0, 0, 1])),
        Some((15, 0))
    );
}

#[test]
fn another_reply_passes() {
    // Either control keeps in state 0 of P under reading 0.
    assert_eq!(checked(P, &replies_of(P, &[3], &[1, 1, 0, 1])), None);
    assert_eq!(checked(P, &replies_of(P, &[3], &[1, 1, 1, 1])), None);
}

#[test]
fn b41_the_circuit_comes_first() {
    assert_eq!(checked("", b""), Some((2, 1)));
    assert_eq!(checked(format!("{P}x\n"), &written(P)), Some((8, 8)));
    assert_eq!(checked("aag 1 1 0 1 0\n2\n", b"\0"), Some((4, 3)));
}

#[test]
fn b42_number_10() {
    for (file, length) in [(P, 74), (Q, 85)] {
        let mut short = vec![7; length - 1];
        assert_eq!(
            write(file.as_bytes(), &mut short),
            Err(refusal(10, 0)),
            "{file}"
        );
        assert_eq!(short, vec![7; length - 1]);

        let mut enough = vec![7; length];
        assert_eq!(write(file.as_bytes(), &mut enough), Ok(length));
        assert_eq!(enough, written(file));

        let mut more = vec![7; length + 5];
        assert_eq!(write(file.as_bytes(), &mut more), Ok(length));
        assert_eq!(more, [written(file), vec![7; 5]].concat());
    }
    // After the circuit's numbers.
    let mut none = [];
    assert_eq!(write(b"", &mut none), Err(refusal(2, 1)));
}

#[test]
fn b43_view() {
    let bytes = replies_of(R, &[1], &[1, 1, 9, 9]);
    let passed = check(R.as_bytes(), &bytes).unwrap();
    assert_eq!(passed.circuit, R.as_bytes());
    assert_eq!(passed.circuit.as_ptr(), bytes[6..].as_ptr());
    let Tables::Replies(view) = passed.tables else {
        panic!("a reply certificate");
    };
    assert!(view.region_bit(1, 0) && !view.region_bit(1, 1));
    // The stored reply inside, 0 outside; bits above the counts aren't read.
    assert_eq!(view.reply(1, 1, 0, 0), 1);
    assert_eq!(view.reply(1, 1, 1, 0), 0);
    assert_eq!(view.reply(1, 1, 2, 3), 1);
    assert!(view.region_bit(1, 6) && !view.region_bit(1, 7));
}

#[test]
fn b43_any_starts_and_counts() {
    let bytes = [255];
    for (region, replies) in [(0, usize::MAX), (usize::MAX, 0), (1, 0), (0, 1)] {
        let view = Replies {
            bytes: &bytes,
            region,
            replies,
            form: Form::Bytes,
        };
        for count in [0, 1, 10, 63, 64, 1000, usize::MAX] {
            let within = view.region_bit(count, usize::MAX);
            assert_eq!(within, region == 0 && count < 4);
            assert_eq!(view.reply(count, count, usize::MAX, usize::MAX), 0);
        }
    }
    let view = Attacks {
        bytes: &bytes,
        table: 0,
    };
    assert_eq!(view.rank(0, 5), 255);
    assert_eq!(view.attack(0, 5), 0);
    assert_eq!(view.rank(64, usize::MAX), 0);
}

#[test]
fn attack_view() {
    let bytes = attacks_of(Q, &[44, 1, 1, 43, 1, 1]);
    let passed = check(Q.as_bytes(), &bytes).unwrap();
    let Tables::Attacks(view) = passed.tables else {
        panic!("an attack certificate");
    };
    assert_eq!((view.rank(1, 0), view.attack(1, 0)), (300, 1));
    assert_eq!((view.rank(1, 3), view.attack(1, 3)), (299, 1));
}
