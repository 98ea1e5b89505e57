//! A driver that answers by the reference with one mistake, or with none: what the comparison must
//! see, and what it must not.
//!
//! `stand-in list` names the mistakes, `stand-in MISTAKE` makes one, `stand-in none` makes none.

mod judge;
mod mistakes;
mod replay;
mod waits;

use mistakes::{Mistake, MISTAKES};
use rivandoze_check::exchange::{answer_all, Answer, Call, Request};
use std::process::ExitCode;

fn main() -> ExitCode {
    let name = std::env::args().nth(1).unwrap_or_default();
    if name == "list" {
        for (name, _) in MISTAKES {
            println!("{name}");
        }
        return ExitCode::SUCCESS;
    }
    let mistake = MISTAKES.iter().find(|(known, _)| *known == name);
    let mistake = match mistake {
        Some((_, mistake)) => Some(*mistake),
        None if name == "none" => None,
        None => {
            eprintln!("no such mistake: {name}");
            return ExitCode::from(2);
        }
    };
    answer_all("stand-in", |request| answer(request, mistake))
}

fn answer(request: &Request, mistake: Option<Mistake>) -> Answer {
    let mut area = request.area();
    let word = match request.call {
        Call::Replay => replay::replay(mistake, &request.log, area.out()),
        Call::Judge => judge::judge(mistake, &request.log, &request.beside),
        // The stand-in for these is another.
        _ => return request.right_answer(),
    };
    let touched = match mistake {
        Some(Mistake::ByteBehindOutput) => area.guard_behind(),
        Some(Mistake::ByteBeforeOutput) => area.guard_before(),
        _ => None,
    };
    if let Some(byte) = touched {
        *byte ^= 1;
    }
    let kept = match mistake {
        Some(Mistake::LogChanged) => request.call != Call::Replay,
        Some(Mistake::TranscriptChanged) => request.call != Call::Judge,
        _ => true,
    };
    Answer { word, kept, area }
}
