//! The readings B-44 to B-46 of document 01, "The numbers", last paragraph:
//! printing and the same circuit.

use crate::common::{assert_taken, circuit, P};
use second::print::print;
use second::reader::read;

#[test]
fn b44_what_is_printed() {
    assert_eq!(
        print(&circuit(P)),
        P.replace("controllable_hold", "controllable_1")
    );
    let file = "aag 40 3 1 1 2\n8\n6\n4\n2 13\n1\n12 3 6\n10 6 3\n\
                l0 a\ni2 controllable_\ni0 controllable_zz\ni1 a\nc\nmore\n";
    let printed = "aag 40 3 1 1 2\n8\n6\n4\n2 13\n1\n12 3 6\n10 6 3\n\
                   i0 controllable_0\ni2 controllable_2\n";
    assert_eq!(print(&circuit(file)), printed);
}

#[test]
fn b45_a_printed_file_can_be_read() {
    let mut file = String::from("aag 1000 8 0 1 992\n");
    for k in 993..=1000 {
        file.push_str(&format!("{}\n", 2 * k));
    }
    file.push_str("2001\n");
    for k in 1..=992 {
        file.push_str(&format!("{} 2001 2001\n", 2 * k));
    }
    for k in 0..8 {
        file.push_str(&format!("i{k} controllable_\n"));
    }
    assert_taken(&file);
    assert_taken(print(&circuit(&file)));
}

#[test]
fn b45a_printing_twice() {
    for index in 0..400 {
        let file = second::damage::file(9, index);
        if let Ok(circuit) = read(&file) {
            let printed = print(&circuit);
            let again = read(printed.as_bytes());
            assert_eq!(again.as_ref(), Ok(&circuit));
            assert_eq!(print(&again.unwrap()), printed);
        }
    }
}

#[test]
fn b46_the_same_circuit() {
    let same = [
        P.replace("hold", "other"),
        P.replace("i1", "i0 a\no0 b\ni1"),
        format!("{P}c\nx"),
    ];
    for file in same {
        assert_eq!(circuit(P), circuit(file));
    }
    let others = [
        P.replace("aag 4", "aag 5"),
        P.replace("8 2 5", "8 5 2"),
        P.replace("i1", "i0"),
        P.replace("controllable", "Controllable"),
        P.replace("2\n4\n", "4\n2\n"),
        P.replace("6 4\n8", "6 4\n9"),
    ];
    for file in others {
        assert_ne!(circuit(P), circuit(file));
    }
}
