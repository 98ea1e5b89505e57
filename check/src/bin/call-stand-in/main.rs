//! A driver that answers for the writer, the shrinker, the sign and the stream by plainer ones, with one mistake or with none:
//! what the comparison must see, and what it must not.
//!
//! `call-stand-in list CALL` names the mistakes of a call, `call-stand-in MISTAKE` makes one, and `call-stand-in none`
//! makes none.

mod far;
mod mistakes;
mod shrink;
mod sign;
mod stream;
mod write;

use mistakes::{Mistake, GROUPS};
use rivandoze_check::exchange::{answer_all, Answer, Call, Request};
use rivandoze_check::script;
use std::process::ExitCode;
use stream::Wrong;

fn main() -> ExitCode {
    let words: Vec<String> = std::env::args().skip(1).collect();
    let words: Vec<&str> = words.iter().map(String::as_str).collect();
    let all = || GROUPS.iter().flat_map(|(_, mistakes)| mistakes.iter());
    let mistake = match words[..] {
        ["list", call] => {
            let groups = GROUPS.iter().filter(|(name, _)| *name == call);
            for (name, _) in groups.flat_map(|(_, mistakes)| mistakes.iter()) {
                println!("{name}");
            }
            return ExitCode::SUCCESS;
        }
        ["none"] => Some(Mistake::Nothing),
        [name] => all()
            .find(|(known, _)| *known == name)
            .map(|(_, mistake)| *mistake),
        _ => None,
    };
    match mistake {
        Some(mistake) => answer_all("call-stand-in", |request| answer(request, mistake)),
        None => {
            eprintln!("no such mistake: {}", words.join(" "));
            ExitCode::from(2)
        }
    }
}

fn answer(request: &Request, mistake: Mistake) -> Answer {
    let mut area = request.area();
    let Request {
        log,
        beside,
        edition,
        ..
    } = request;
    let word = match request.call {
        Call::Write => write::write(mistake, *edition, beside, log, area.out()),
        Call::Shrink => shrink::shrink(mistake, log, area.out()),
        Call::Sign => sign::sign(mistake, log, area.out()),
        Call::Stream => {
            let word = script::run(&mut Wrong::new(mistake), log, beside, area.out());
            if mistake == Mistake::StreamByteBehindRoom {
                // The first byte that nobody may touch, behind the answer to the start.
                area.out()[8] ^= 1;
            }
            word
        }
        _ => return request.right_answer(),
    };
    match mistake {
        Mistake::ByteBehindOutput
        | Mistake::ShrinkByteBehind
        | Mistake::SignByteBehind
        | Mistake::StreamByteBehind => area.guard_behind().map(|byte| *byte ^= 1),
        Mistake::ByteBeforeOutput => area.guard_before().map(|byte| *byte ^= 1),
        _ => None,
    };
    let changed = [
        Mistake::InputChanged,
        Mistake::ShrinkInputChanged,
        Mistake::SignInputChanged,
        Mistake::StreamInputChanged,
    ];
    Answer {
        word,
        kept: !changed.contains(&mistake),
        area,
    }
}
