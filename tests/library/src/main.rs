//! Calls the library through the driver with random and damaged inputs and
//! compares every answer, and every byte of a lent buffer, with the second
//! program's: library SEED DRIVER [WORD ..]. The words start the driver.
//! Each function, each number that must turn up and the guards are a test; the
//! last line is 'N passed, M failed'.

mod case;
mod cases;
mod second_says;

use case::{write, Answer, Case, Function};
use cases::Pool;
use second::damage::random::Random;
use std::collections::BTreeMap;
use std::io::{BufReader, Read, Write};
use std::process::{exit, ChildStdin, Command, Stdio};
use std::sync::mpsc::{sync_channel, Receiver, SyncSender};
use std::thread;

/// How many cases of each function; a million in all.
const CASES: [(Function, usize); 11] = [
    (Function::Read, 320_000),
    (Function::Step, 250_000),
    (Function::Certify, 10_000),
    (Function::CertifyPacked, 10_000),
    (Function::Check, 80_000),
    (Function::Print, 65_000),
    (Function::CircuitRecord, 60_000),
    (Function::RegionBit, 65_000),
    (Function::Reply, 65_000),
    (Function::Rank, 50_000),
    (Function::Attack, 50_000),
];

/// How often each number from 1 to 16 turns up at least.
const LEAST: usize = 50;

/// How many answers there are: 0, and the numbers of refusals.
const NUMBERS: usize = 17;
const BATCH: usize = 500;

type Batch = Vec<(Function, Case, Answer)>;

fn main() {
    let words: Vec<String> = std::env::args().skip(1).collect();
    let [seed, driver, rest @ ..] = &words[..] else {
        eprintln!("usage: library SEED DRIVER [WORD ..]");
        exit(2);
    };
    let seed = seed.parse().expect("the seed is a number");
    let mut driver = Command::new(driver)
        .args(rest)
        .stdin(Stdio::piped())
        .stdout(Stdio::piped())
        .spawn()
        .expect("the driver starts");
    let input = driver.stdin.take().expect("its standard input");
    let output = driver.stdout.take().expect("its standard output");
    let (sender, receiver) = sync_channel(8);
    let maker = thread::spawn(move || make(seed, input, &sender));
    let failed = compare(BufReader::with_capacity(1 << 16, output), &receiver);
    drop(receiver);
    let made = maker.join().is_ok();
    let ended = driver.wait().is_ok_and(|status| status.success());
    exit(i32::from(failed || !made || !ended));
}

/// Makes the cases in turn, hands on what is wanted and writes them to the driver.
fn make(seed: u64, mut input: ChildStdin, wanted: &SyncSender<Batch>) {
    let pool = Pool::new(seed);
    for (function, count) in CASES {
        let mut random = Random::of(seed, function as u64);
        for at in (0..count).step_by(BATCH) {
            let (mut batch, mut bytes) = (Batch::new(), Vec::new());
            for _ in at..count.min(at + BATCH) {
                let case = pool.case(function, &mut random);
                write(&mut bytes, function, random.chance(50), &case);
                let answer = second_says::answer(function, &case);
                batch.push((function, case, answer));
            }
            if wanted.send(batch).is_err() || input.write_all(&bytes).is_err() {
                return;
            }
        }
    }
}

/// Compares what the driver answers with what is wanted, and counts.
fn compare(mut output: impl Read, wanted: &Receiver<Batch>) -> bool {
    let mut agree = BTreeMap::new();
    let mut numbers = [0; NUMBERS];
    let mut unguarded = 0;
    'all: for batch in wanted {
        for (function, case, wanted) in batch {
            let Some((answer, guarded)) = take(&mut output, case.room) else {
                println!("FAILED: the driver stopped at {function:?} {case:?}");
                break 'all;
            };
            if !guarded {
                unguarded += 1;
                println!("FAILED: a guard fell at {function:?} {case:?}");
            }
            if answer == wanted {
                *agree.entry(function).or_insert(0) += 1;
                if function.refuses() {
                    numbers[answer.numbers[0] as usize] += 1;
                }
            } else {
                println!("FAILED: {function:?} {case:?} answers {answer:?}, second {wanted:?}");
            }
        }
    }
    summary(&agree, &numbers, unguarded)
}

fn take(output: &mut impl Read, room: usize) -> Option<(Answer, bool)> {
    let mut answer = Answer {
        buffer: vec![0; room],
        ..Answer::default()
    };
    for number in &mut answer.numbers {
        let mut bytes = [0; 8];
        output.read_exact(&mut bytes).ok()?;
        *number = u64::from_le_bytes(bytes);
    }
    let mut guarded = [0];
    output.read_exact(&mut guarded).ok()?;
    output.read_exact(&mut answer.buffer).ok()?;
    Some((answer, guarded[0] == 1))
}

fn summary(
    agree: &BTreeMap<Function, usize>,
    numbers: &[usize; NUMBERS],
    unguarded: usize,
) -> bool {
    let (mut passed, mut failed) = (0, 0);
    let mut test = |holds: bool| if holds { passed += 1 } else { failed += 1 };
    for (function, count) in CASES {
        let same = agree.get(&function).copied().unwrap_or(0);
        println!("the library and second, {function:?}: {same} of {count} cases agree");
        test(same == count);
    }
    println!("not refused: {} cases", numbers[0]);
    for (number, &count) in numbers.iter().enumerate().skip(1) {
        println!("refused {number}: {count} cases, at least {LEAST}");
        test(count >= LEAST);
    }
    println!("cases in which a guard fell or lent bytes changed: {unguarded}");
    test(unguarded == 0);
    println!("{passed} passed, {failed} failed");
    failed > 0
}
