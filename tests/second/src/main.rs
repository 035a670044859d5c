//! Document 01, "Listings to compare": the command line of the independent
//! second program.

use second::certificate::checker::check;
use second::certificate::writer::{certificate, packed_certificate};
use second::circuit::Circuit;
use second::count::Count;
use second::game::{solve, solve_plainly, Game};
use second::listing::{listing, verdict};
use second::print::print;
use second::reader::read;
use second::{damage, refusal::Refusal};
use std::io::Write;
use std::path::{Path, PathBuf};
use std::process::ExitCode;

const USAGE: &str = "usage: second listing FILE.. | read FILE.. | print FILE.. | \
verify FILE CERT .. | certify FILE OUT [packed] | plain FILE OUT | generate SEED COUNT DIR | \
generate-full SEED COUNT DIR | generate-certificates SEED COUNT DIR | count DIR | count-certificates DIR";

/// What went wrong, as one line for standard error.
type Trouble = String;

fn main() -> ExitCode {
    let arguments: Vec<PathBuf> = std::env::args_os().skip(1).map(PathBuf::from).collect();
    match run(&arguments) {
        Ok(()) => ExitCode::SUCCESS,
        Err(trouble) => {
            eprintln!("{trouble}");
            ExitCode::from(2)
        }
    }
}

fn run(arguments: &[PathBuf]) -> Result<(), Trouble> {
    let command = arguments.first().and_then(|word| word.to_str());
    let command = command.unwrap_or("");
    match (command, arguments.get(1..).unwrap_or(&[])) {
        ("listing", files @ [_, ..]) => each(files, 1, |b| listing(&b[0])),
        ("read", files @ [_, ..]) => each(files, 1, |b| taken(&b[0])),
        ("print", files @ [_, ..]) => each(files, 1, |b| printed(&b[0])),
        ("verify", files @ [_, _, ..]) if files.len() % 2 == 0 => {
            each(files, 2, |b| passed(&b[0], &b[1]))
        }
        ("certify", [file, out]) => certify(file, out, solve, certificate),
        ("certify", [file, out, form]) if form.as_os_str() == "packed" => {
            certify(file, out, solve, packed_certificate)
        }
        ("plain", [file, out]) => certify(file, out, solve_plainly, certificate),
        ("generate", [seed, count, directory]) => {
            generate(number(seed)?, number(count)?, directory, damage::file)
        }
        ("generate-full", [seed, count, directory]) => {
            generate(number(seed)?, number(count)?, directory, damage::full)
        }
        ("generate-certificates", [seed, count, directory]) => {
            generate_certificates(number(seed)?, number(count)?, directory)
        }
        ("count", [directory]) => count(directory),
        ("count-certificates", [directory]) => count_certificates(directory),
        _ => Err(USAGE.to_string()),
    }
}

/// The answer for each group of files; with a line `== NAME` before each, the
/// name of the group's first file, if there is more than one group.
fn each(
    files: &[PathBuf],
    group: usize,
    answer: impl Fn(&[Vec<u8>]) -> String,
) -> Result<(), Trouble> {
    for names in files.chunks(group) {
        let contents: Result<Vec<Vec<u8>>, Trouble> = names.iter().map(|n| bytes_of(n)).collect();
        let text = answer(&contents?);
        if files.len() > group {
            say(&format!("== {}\n", names[0].display()))?;
        }
        say(&text)?;
    }
    Ok(())
}

fn taken(file: &[u8]) -> String {
    match read(file) {
        Ok(_) => "taken\n".to_string(),
        Err(refusal) => refused(refusal),
    }
}

fn printed(file: &[u8]) -> String {
    match read(file) {
        Ok(circuit) => print(&circuit),
        Err(refusal) => refused(refusal),
    }
}

fn passed(file: &[u8], bytes: &[u8]) -> String {
    match check(file, bytes) {
        Ok(_) => "passed\n".to_string(),
        Err(refusal) => refused(refusal),
    }
}

fn refused(refusal: Refusal) -> String {
    format!("{refusal}\n")
}

/// Writes the certificate; a refused file leaves OUT unwritten.
fn certify(
    file: &Path,
    out: &Path,
    solve: fn(&Circuit) -> Game,
    certificate: fn(&[u8], &Game) -> Vec<u8>,
) -> Result<(), Trouble> {
    let file = bytes_of(file)?;
    match read(&file) {
        Ok(circuit) => {
            let game = solve(&circuit);
            let bytes = certificate(&file, &game);
            put(out, &bytes)?;
            say(&format!("{} {}\n", verdict(&game), bytes.len()))
        }
        Err(refusal) => say(&refused(refusal)),
    }
}

fn generate(
    seed: u64,
    count: u64,
    directory: &Path,
    file: impl Fn(u64, usize) -> Vec<u8>,
) -> Result<(), Trouble> {
    make(directory)?;
    for index in 0..count as usize {
        let name = format!("{index:04}.aag");
        put(&directory.join(name), &file(seed, index))?;
    }
    Ok(())
}

fn generate_certificates(seed: u64, count: u64, directory: &Path) -> Result<(), Trouble> {
    make(directory)?;
    for index in 0..count as usize {
        let (file, bytes) = damage::pair(seed, index);
        put(&directory.join(format!("{index:04}.aag")), &file)?;
        put(&directory.join(format!("{index:04}.cert")), &bytes)?;
    }
    Ok(())
}

fn count(directory: &Path) -> Result<(), Trouble> {
    let mut count = Count::default();
    for path in circuit_files(directory)? {
        count.file(&bytes_of(&path)?);
    }
    say(&count.files_text())
}

fn count_certificates(directory: &Path) -> Result<(), Trouble> {
    let mut count = Count::default();
    for path in circuit_files(directory)? {
        let bytes = bytes_of(&path.with_extension("cert"))?;
        count.pair(&bytes_of(&path)?, &bytes);
    }
    say(&count.pairs_text())
}

/// The files of a directory whose names end in `.aag`.
fn circuit_files(directory: &Path) -> Result<Vec<PathBuf>, Trouble> {
    let told = |trouble| format!("{}: {trouble}", directory.display());
    let mut files = Vec::new();
    for entry in std::fs::read_dir(directory).map_err(told)? {
        let path = entry.map_err(told)?.path();
        if path.extension().is_some_and(|extension| extension == "aag") {
            files.push(path);
        }
    }
    Ok(files)
}

fn number(argument: &Path) -> Result<u64, Trouble> {
    let found = argument.to_str().and_then(|text| text.parse().ok());
    found.ok_or_else(|| format!("{}: not a number", argument.display()))
}

fn bytes_of(path: &Path) -> Result<Vec<u8>, Trouble> {
    std::fs::read(path).map_err(|trouble| format!("{}: {trouble}", path.display()))
}

fn put(path: &Path, bytes: &[u8]) -> Result<(), Trouble> {
    std::fs::write(path, bytes).map_err(|trouble| format!("{}: {trouble}", path.display()))
}

fn make(directory: &Path) -> Result<(), Trouble> {
    let told = |trouble| format!("{}: {trouble}", directory.display());
    std::fs::create_dir_all(directory).map_err(told)
}

fn say(text: &str) -> Result<(), Trouble> {
    let written = std::io::stdout().lock().write_all(text.as_bytes());
    written.map_err(|trouble| format!("standard output: {trouble}"))
}
