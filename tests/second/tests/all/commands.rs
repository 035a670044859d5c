//! The command line: what it prints, and exit status 2 for a file that can't
//! be read.

use crate::common::{P, Q};
use std::path::{Path, PathBuf};
use std::process::{Command, Output};

fn second(arguments: &[&str], directory: &Path) -> Output {
    let program = env!("CARGO_BIN_EXE_second");
    let mut command = Command::new(program);
    command.args(arguments).current_dir(directory);
    command.output().expect("the program runs")
}

fn said(arguments: &[&str], directory: &Path) -> String {
    let output = second(arguments, directory);
    assert!(output.status.success(), "{arguments:?}");
    String::from_utf8(output.stdout).unwrap()
}

/// A directory of its own with P, Q and an empty file.
fn directory(name: &str) -> PathBuf {
    let path = PathBuf::from(env!("CARGO_TARGET_TMPDIR")).join(name);
    std::fs::create_dir_all(&path).unwrap();
    std::fs::write(path.join("p.aag"), P).unwrap();
    std::fs::write(path.join("q.aag"), Q).unwrap();
    std::fs::write(path.join("e.aag"), "").unwrap();
    path
}

#[test]
fn one_file() {
    let at = directory("one");
    let p = "realizable 1 1 1\n0 1 0 1\n1 1 0 1\n";
    assert_eq!(said(&["listing", "p.aag"], &at), p);
    assert_eq!(said(&["listing", "e.aag"], &at), "refused 2 1\n");
    assert_eq!(said(&["read", "p.aag"], &at), "taken\n");
    assert_eq!(said(&["read", "e.aag"], &at), "refused 2 1\n");
    assert_eq!(said(&["print", "e.aag"], &at), "refused 2 1\n");
    assert_eq!(
        said(&["print", "p.aag"], &at),
        P.replace("hold", "1").as_str()
    );
}

#[test]
fn many_files() {
    let at = directory("many");
    assert_eq!(
        said(&["read", "p.aag", "e.aag"], &at),
        "== p.aag\ntaken\n== e.aag\nrefused 2 1\n"
    );
}

#[test]
fn certificates() {
    let at = directory("certificates");
    assert_eq!(
        said(&["certify", "p.aag", "p.cert"], &at),
        "realizable 74\n"
    );
    assert_eq!(
        said(&["certify", "q.aag", "q.cert"], &at),
        "unrealizable 85\n"
    );
    assert_eq!(
        said(&["plain", "q.aag", "plain.cert"], &at),
        "unrealizable 85\n"
    );
    let bytes = |name: &str| std::fs::read(at.join(name)).unwrap();
    assert_eq!(bytes("plain.cert"), bytes("q.cert"));
    assert_eq!(said(&["certify", "e.aag", "e.cert"], &at), "refused 2 1\n");
    assert!(!at.join("e.cert").exists());
    assert_eq!(said(&["verify", "p.aag", "p.cert"], &at), "passed\n");
    assert_eq!(
        said(&["verify", "p.aag", "p.cert", "q.aag", "p.cert"], &at),
        "== p.aag\npassed\n== q.aag\nrefused 12 0\n"
    );
}

#[test]
fn generated_and_counted() {
    let at = directory("generated");
    said(&["generate", "3", "100", "files"], &at);
    assert!(at.join("files/0000.aag").exists() && at.join("files/0099.aag").exists());
    let counted = said(&["count", "files"], &at);
    assert!(counted.starts_with("realizable "));
    said(&["generate-certificates", "3", "100", "pairs"], &at);
    assert!(at.join("pairs/0099.cert").exists());
    let counted = said(&["count-certificates", "pairs"], &at);
    assert!(counted.contains("passed with a rank above 2^L "));
    assert!(counted.contains("refused 15: "));
}

#[test]
fn what_cannot_be_read() {
    let at = directory("trouble");
    for arguments in [
        &["listing", "none.aag"][..],
        &["read", "p.aag", "none.aag"],
        &["verify", "p.aag", "none.cert"],
        &["certify", "none.aag", "out.cert"],
        &["count", "none"],
        &["generate", "x", "1", "files"],
        &["verify", "p.aag"],
        &["listing"],
        &[],
    ] {
        let output = second(arguments, &at);
        assert_eq!(output.status.code(), Some(2), "{arguments:?}");
        let lines = output.stderr.iter().filter(|&&byte| byte == 10).count();
        assert_eq!(lines, 1, "{arguments:?}");
    }
}
