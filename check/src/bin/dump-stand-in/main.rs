//! A driver that answers for the dump and its reader by plainer ones, with one mistake or with none: what the
//! comparison must see, and what it must not.
//!
//! `dump-stand-in list` names the mistakes, `dump-stand-in MISTAKE` makes one, `dump-stand-in none` makes none.

mod mistakes;
mod reader;
mod writer;

use mistakes::{Mistake, MISTAKES};
use rivandoze_check::exchange::{answer_all, Answer, Call, Request};
use rivandoze_check::reference::refusal::{Refusal, OUTPUT_TOO_SHORT};
use std::process::ExitCode;

fn main() -> ExitCode {
    let name = std::env::args().nth(1).unwrap_or_default();
    if name == "list" {
        for (name, _) in MISTAKES.iter().filter(|(name, _)| *name != "none") {
            println!("{name}");
        }
        return ExitCode::SUCCESS;
    }
    let found = MISTAKES.iter().find(|(known, _)| *known == name);
    match found {
        Some((_, mistake)) => answer_all("dump-stand-in", |request| answer(request, *mistake)),
        None => {
            eprintln!("no such mistake: {name}");
            ExitCode::from(2)
        }
    }
}

fn answer(request: &Request, mistake: Mistake) -> Answer {
    let mut area = request.area();
    let out = area.out();
    let word = match request.call {
        Call::Dump => {
            let text = writer::text(mistake, &request.log, out.len());
            given(mistake, text.map(|text| (text.len(), text)), out)
        }
        Call::DumpRead => {
            let entries = reader::entries(mistake, &request.log, out);
            given(mistake, entries, out)
        }
        _ => return request.right_answer(),
    };
    match mistake {
        Mistake::ByteBehindOutput => area.guard_behind().map(|byte| *byte ^= 1),
        Mistake::ByteBeforeOutput => area.guard_before().map(|byte| *byte ^= 1),
        _ => None,
    };
    Answer {
        word,
        kept: mistake != Mistake::InputChanged,
        area,
    }
}

/// The word; and the bytes, where they fit.
fn given(mistake: Mistake, right: Result<(usize, Vec<u8>), Refusal>, out: &mut [u8]) -> u64 {
    let (number, bytes) = match right {
        Ok(right) => right,
        Err(refusal) => return refusal.into(),
    };
    let too_short = match mistake {
        Mistake::RoomForOneMore => out.len() <= bytes.len(),
        Mistake::RoomForOneLess => out.len() + 1 < bytes.len(),
        _ => out.len() < bytes.len(),
    };
    let written = bytes.len().min(out.len());
    if !too_short || mistake == Mistake::WrittenOn6 {
        out[..written].copy_from_slice(&bytes[..written]);
    }
    if too_short {
        let tally = match mistake {
            Mistake::NumberOn6 => (number as u64) << 8,
            _ => 0,
        };
        return u64::from(OUTPUT_TOO_SHORT) | tally;
    }
    if mistake == Mistake::RestCleared {
        out[written..].fill(0);
    }
    match mistake {
        Mistake::BytesCounted => (bytes.len() as u64) << 8,
        Mistake::NumberOneLess => (number as u64).saturating_sub(1) << 8,
        _ => (number as u64) << 8,
    }
}
