//! Document 01, "Listings to compare": P, Q, R and the starred cases.

use crate::common::{assert_refused, checked, written, P, Q, R};
use second::listing::listing;

#[test]
fn p() {
    assert_eq!(P.len(), 51);
    assert_eq!(
        listing(P.as_bytes()),
        "realizable 1 1 1\n0 1 0 1\n1 1 0 1\n"
    );
    assert_eq!(written(P).len(), 74);
    assert_eq!(checked(P, &written(P)), None);
}

#[test]
fn q() {
    assert_eq!(Q.len(), 67);
    assert_eq!(listing(Q.as_bytes()), "unrealizable 1 1 1\n0 2 1\n1 1 1\n");
    assert_eq!(written(Q).len(), 85);
    assert_eq!(checked(Q, &written(Q)), None);
}

#[test]
fn r() {
    assert_eq!(
        listing(R.as_bytes()),
        "realizable 1 1 1\n0 1 0 1\n1 0 0 0\n"
    );
    assert_eq!(checked(R, &written(R)), None);
}

#[test]
fn constants() {
    assert_eq!(listing(b"aag 0 0 0 1 0\n0\n"), "realizable 0 0 0\n0 1 0\n");
    assert_eq!(
        listing(b"aag 0 0 0 1 0\n1\n"),
        "unrealizable 0 0 0\n0 1 0\n"
    );
}

#[test]
fn one_input() {
    assert_eq!(
        listing(b"aag 1 1 0 1 0\n2\n2\n"),
        "unrealizable 0 1 0\n0 1 1\n"
    );
    assert_eq!(
        listing(b"aag 1 1 0 1 0\n2\n2\ni0 controllable_x\n"),
        "realizable 0 0 1\n0 1 0\n"
    );
}

#[test]
fn empty_file() {
    assert_refused("", 2, 1);
    assert_eq!(listing(b""), "refused 2 1\n");
}

#[test]
fn last_gate_of_q() {
    assert_refused(Q.replace("12 9 11", "12 9 15"), 5, 8);
}

#[test]
fn certificate_of_r_against_q() {
    assert_eq!(checked(Q, &written(R)), Some((12, 0)));
}
