//! What the second program says to each call.

use crate::case::{blank, Answer, Case, Function};
use second::certificate::checker::{check, Tables};
use second::certificate::records::{split, ATTACKS, CIRCUIT, PACKED, REPLIES};
use second::certificate::view::{Attacks, Form, Replies};
use second::certificate::writer::{certificate, packed_certificate};
use second::circuit::Circuit;
use second::game::{solve, Game};
use second::print::print;
use second::reader::read;
use second::refusal::{refusal, Refusal};
use second::step::{step, Control, Reading};

pub fn answer(function: Function, case: &Case) -> Answer {
    let answered = match function {
        Function::Read => read(&case.file).map(|circuit| counts(&circuit)),
        Function::Step => read(&case.file).map(|circuit| stepped(&circuit, case)),
        Function::Certify | Function::CertifyPacked => certified(function, case),
        Function::Check => checked(case),
        Function::Print => printed(case),
        Function::CircuitRecord => Ok(Answer::of(&circuit_record(&case.certificate))),
        _ => Ok(Answer::of(&[looked_up(function, case)])),
    };
    answered.unwrap_or_else(|refusal| Answer {
        buffer: blank(case.room),
        ..Answer::of(&[refusal.number.into(), refusal.place as u64])
    })
}

fn counts(circuit: &Circuit) -> Answer {
    let counts = [
        circuit.latch_count(),
        circuit.uncontrollable_count(),
        circuit.controllable_count(),
    ];
    let [l, u, c] = counts.map(|count| count as u64);
    Answer::of(&[0, 0, l, u, c])
}

fn stepped(circuit: &Circuit, case: &Case) -> Answer {
    let [state, reading, control, ..] = case.numbers.map(|number| number as usize);
    let taken = step(circuit, state, Reading(reading), Control(control));
    Answer::of(&[0, 0, taken.error.into(), taken.next as u64])
}

/// Bytes at the front of a buffer, or 10.
fn front(bytes: &[u8], room: usize) -> Result<Vec<u8>, Refusal> {
    let mut buffer = blank(room);
    buffer
        .get_mut(..bytes.len())
        .ok_or(refusal(10, 0))?
        .copy_from_slice(bytes);
    Ok(buffer)
}

/// Which certificate a function writes.
pub fn writes(function: Function) -> fn(&[u8], &Game) -> Vec<u8> {
    if function == Function::CertifyPacked {
        packed_certificate
    } else {
        certificate
    }
}

fn certified(function: Function, case: &Case) -> Result<Answer, Refusal> {
    let game = solve(&read(&case.file)?);
    let bytes = writes(function)(&case.file, &game);
    let buffer = front(&bytes, case.room)?;
    Ok(Answer {
        buffer,
        ..Answer::of(&[0, 0, game.realizable().into(), bytes.len() as u64])
    })
}

fn printed(case: &Case) -> Result<Answer, Refusal> {
    let text = print(&read(&case.file)?);
    let buffer = front(text.as_bytes(), case.room)?;
    Ok(Answer {
        buffer,
        ..Answer::of(&[0, 0, text.len() as u64])
    })
}

fn checked(case: &Case) -> Result<Answer, Refusal> {
    let passed = check(&case.file, &case.certificate)?;
    let controls = read(&case.file)?.controllable_count();
    let (kind, region, table, c) = match passed.tables {
        Tables::Replies(view) => {
            let kind = match view.form {
                Form::Bytes => REPLIES,
                Form::Packed(_) => PACKED,
            };
            (kind, view.region, view.replies, controls)
        }
        Tables::Attacks(view) => (ATTACKS, 0, view.table, 0),
    };
    let [region, table, l, u, c] =
        [region, table, passed.latches, passed.uncontrollable, c].map(|n| n as u64);
    Ok(Answer::of(&[0, 0, kind.into(), region, table, l, u, c]))
}

/// The first record alone, where it is whole and of kind 1.
fn circuit_record(certificate: &[u8]) -> [u64; 2] {
    let length =
        |bytes: &[u8]| u32::from_le_bytes([bytes[0], bytes[1], bytes[2], bytes[3]]) as usize;
    let first = certificate
        .get(..4)
        .and_then(|head| certificate.get(..6 + length(head)));
    match first.and_then(split).as_deref() {
        Some([record]) if record.kind == CIRCUIT => {
            [record.start as u64, record.contents.len() as u64]
        }
        _ => [0, 0],
    }
}

fn looked_up(function: Function, case: &Case) -> u64 {
    let [region, table, l, u, state, reading, c, kind] = case.numbers.map(|number| number as usize);
    let bytes = &case.certificate;
    let replies = Replies {
        bytes,
        region,
        replies: table,
        form: Form::Bytes,
    };
    let attacks = Attacks { bytes, table };
    match function {
        Function::RegionBit => replies.region_bit(l, state).into(),
        // In a packed table counts above the limits count as those.
        Function::Reply if kind == PACKED.into() && replies.region_bit(l, state) => {
            let packed = Replies {
                form: Form::Packed(c.min(8)),
                ..replies
            };
            packed.stored(l.min(10), u.min(5), state, reading).into()
        }
        Function::Reply => replies.reply(l, u, state, reading).into(),
        Function::Rank => attacks.rank(l, state).into(),
        // The view of the second program gives 0 beside a rank of 0, so the byte behind the rank is looked at as a rank.
        _ => table
            .checked_add(2)
            .map_or(0, |table| Attacks { bytes, table }.rank(l, state) & 255)
            .into(),
    }
}
