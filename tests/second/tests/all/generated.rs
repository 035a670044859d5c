//! The generator follows from its seed, and every outcome turns up often.

use crate::common::refused;
use second::certificate::checker::check;
use second::circuit::Circuit;
use second::count::Count;
use second::damage::{file, pair};

#[test]
fn the_same_seed_gives_the_same_files() {
    for index in 0..100 {
        assert_eq!(file(5, index), file(5, index));
        assert_eq!(pair(5, index), pair(5, index));
    }
    assert!((0..100).any(|index| file(5, index) != file(6, index)));
}

#[test]
fn every_number_of_a_file_turns_up() {
    let mut count = Count::default();
    for index in 0..600 {
        count.file(&file(1, index));
    }
    for number in (1..=9).chain([16]) {
        assert!(count.of_number(number) >= 10, "{number}");
    }
}

#[test]
fn every_number_of_a_certificate_turns_up() {
    let mut count = Count::default();
    let mut passed = 0;
    for index in 0..600 {
        let (file, bytes) = pair(1, index);
        count.pair(&file, &bytes);
        passed += usize::from(check(&file, &bytes).is_ok());
    }
    for number in 11..=15 {
        assert!(count.of_number(number) >= 10, "{number}");
    }
    assert!(passed >= 100);
}

#[test]
fn number_1_is_just_the_length() {
    for index in 0..400 {
        let file = file(2, index);
        let too_long = file.len() > Circuit::FILE_BYTES;
        assert_eq!(refused(&file) == Some((1, 0)), too_long);
    }
}
