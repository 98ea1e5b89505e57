//! The second program. Without arguments it is the program of paper 01; the rest is for comparing
//! and for writing logs by hand.

use rivandoze_check::generate::{generate, Settings};
use rivandoze_check::reference::dump::DUMP_MAX;
use rivandoze_check::reference::dump_read::Entry;
use rivandoze_check::reference::judge::{negated, transcript};
use rivandoze_check::reference::log::{each_reading, LOG_MAX, READING_LEN, RECORDS_MAX};
use rivandoze_check::reference::refusal::Refusal;
use rivandoze_check::reference::sign::{Stretch, Way};
use rivandoze_check::reference::writer::Unwritten;
use rivandoze_check::reference::{
    dump, dump_read, find_pwm, find_spi, judge, rate_pwm, rate_spi, replay_fully, shrink, sign,
    write, Outcome, Pair, Stream, Verdict,
};
use rivandoze_check::text::{from_text, to_text};
use std::fmt::Write as _;
use std::fs::{self, File};
use std::io::{self, Read, Write as _};
use std::process::ExitCode;

const USAGE: &str = "\
rvz-check                       replay the log on standard input
rvz-check state                 the same, and show the end state
rvz-check judge FILE            a reader's transcript in a file against the log on standard input
rvz-check transcript [negated]  the transcript of the log on standard input, or the one with every
                                encoder CNTR reading negated
rvz-check dump                  the dump of the log on standard input, by docs/WAVEFORM.md
rvz-check write EDITION [FILE]  the log of the records on standard input, behind the notes in a file
rvz-check shrink                the log on standard input without records that change nothing
rvz-check sign                  what its pins say of the way that each encoder has gone
rvz-check stream EDITION        the readings of the records on standard input
rvz-check dump-read             such a dump read back: time, bank, encoder and pins, a line each
rvz-check pwm RATE TOL          find a divider choice and X for a rate in millihertz
rvz-check spi RATE TOL
rvz-check pwm-rate CHOICE X     the rate that registers give
rvz-check spi-rate CHOICE X
rvz-check to-text               a log on standard input, its text on standard output
rvz-check from-text             the way back
rvz-check generate SEED [RECORDS TICKS PERCENT]
                                a log made from a seed, on standard output, with the most
                                records, the longest wait and the share of refused logs
rvz-check generate-many FOLDER NUMBER SEED
                                so many logs, from this seed on, as FOLDER/000000.log and so on
";

fn main() -> ExitCode {
    let arguments: Vec<String> = std::env::args_os()
        .skip(1)
        .map(|argument| argument.to_string_lossy().into_owned())
        .collect();
    let words: Vec<&str> = arguments.iter().map(String::as_str).collect();
    match answer(&words) {
        Ok(bytes) => match io::stdout().write_all(&bytes) {
            Ok(()) => ExitCode::SUCCESS,
            Err(error) => complain(&format!("standard output: {error}")),
        },
        Err(message) => complain(&message),
    }
}

fn complain(message: &str) -> ExitCode {
    eprintln!("{}", message.trim_end());
    ExitCode::from(2)
}

fn answer(words: &[&str]) -> Result<Vec<u8>, String> {
    let text = match words {
        [] => readings_and_verdict(&replayed(&input(LOG_MAX + 1)?)),
        ["state"] => {
            let whole = replayed(&input(LOG_MAX + 1)?);
            let verdict = readings_and_verdict(&whole);
            format!("{verdict}{:#?}\n", whole.outcome.banks)
        }
        ["judge", file] => {
            let transcript = transcript_in(file).map_err(|error| format!("{file}: {error}"))?;
            verdict(judge(&input(LOG_MAX + 1)?, &transcript))
        }
        ["transcript"] => return Ok(transcript(&input(LOG_MAX + 1)?, |count| count)),
        ["transcript", "negated"] => return Ok(transcript(&input(LOG_MAX + 1)?, negated)),
        ["dump"] => {
            let text = dump(&input(LOG_MAX + 1)?);
            return text.map_err(refused);
        }
        ["write", edition] => return written(number(edition)?, &[]),
        ["write", edition, file] => {
            let notes = fs::read(file).map_err(|error| format!("{file}: {error}"))?;
            return written(number(edition)?, &notes);
        }
        ["shrink"] => {
            let log = input(LOG_MAX + 1)?;
            let smaller = shrink(&log).map_err(refused)?;
            return Ok(smaller.to_vec());
        }
        ["sign"] => {
            let (refusal, applied, stretches) = sign(&input(LOG_MAX + 1)?, usize::MAX);
            let lines: String = stretches.iter().map(stretch_line).collect();
            format!("{lines}applied {applied} refused {refusal}\n")
        }
        ["stream", edition] => streamed(number(edition)?, &input(usize::MAX)?),
        ["dump-read"] => match dump_read(&input(DUMP_MAX + 1)?) {
            Ok(entries) => entries.iter().map(entry_line).collect(),
            Err(refusal) => refused(refusal),
        },
        ["pwm", rate, tol] => pair(find_pwm(number(rate)?, number(tol)?)),
        ["spi", rate, tol] => pair(find_spi(number(rate)?, number(tol)?)),
        ["pwm-rate", choice, x] => fraction(rate_pwm(number(choice)?, number(x)?)),
        ["spi-rate", choice, x] => fraction(rate_spi(number(choice)?, number(x)?)),
        ["to-text"] => to_text(&input(usize::MAX)?),
        ["from-text"] => return log_from(input(usize::MAX)?),
        ["generate", seed] => return Ok(generate(number(seed)?, &Settings::default())),
        ["generate", seed, records, ticks, percent] => {
            let settings = Settings {
                most_records: usize::try_from(number(records)?).unwrap_or(usize::MAX),
                most_ticks: number(ticks)?,
                refused_percent: number(percent)?,
                ..Settings::default()
            };
            return Ok(generate(number(seed)?, &settings));
        }
        ["generate-many", folder, logs, seed] => many(folder, number(logs)?, number(seed)?)?,
        _ => return Err(USAGE.into()),
    };
    Ok(text.into_bytes())
}

/// Makes the folder where there is none, and tells which seeds its logs are from.
fn many(folder: &str, logs: u64, seed: u64) -> Result<String, String> {
    let told = |error: io::Error| format!("{folder}: {error}");
    fs::create_dir_all(folder).map_err(told)?;
    for index in 0..logs {
        let log = generate(seed.wrapping_add(index), &Settings::default());
        fs::write(format!("{folder}/{index:06}.log"), log).map_err(told)?;
    }
    Ok(format!("{logs} logs from seed {seed} on\n"))
}

/// Standard input, up to so many bytes.
fn input(most: usize) -> Result<Vec<u8>, String> {
    let mut bytes = Vec::new();
    io::stdin()
        .lock()
        .take(most as u64)
        .read_to_end(&mut bytes)
        .map_err(|error| format!("standard input: {error}"))?;
    Ok(bytes)
}

/// The bytes of a file, up to one more than any transcript has.
fn transcript_in(file: &str) -> io::Result<Vec<u8>> {
    let most = RECORDS_MAX * READING_LEN + 1;
    let mut bytes = Vec::new();
    File::open(file)?
        .take(most as u64)
        .read_to_end(&mut bytes)?;
    Ok(bytes)
}

struct Replayed {
    outcome: Outcome,
    out: Vec<u8>,
}

fn replayed(log: &[u8]) -> Replayed {
    // Room for a log of nothing but reads: the program itself never gives refusal 6.
    let mut out = vec![0; RECORDS_MAX * READING_LEN];
    let outcome = replay_fully(log, &mut out);
    Replayed { outcome, out }
}

fn readings_and_verdict(replayed: &Replayed) -> String {
    let Replayed { outcome, out } = replayed;
    let readings = each_reading(out).take(outcome.readings);
    let mut text: String = readings.map(|reading| format!("{reading}\n")).collect();
    let answer = outcome.answer;
    // Writing into a String cannot fail.
    let _ = writeln!(
        text,
        "applied {} refused {}",
        answer.applied, answer.refusal
    );
    text
}

fn verdict(answer: Result<Verdict, Refusal>) -> String {
    match answer {
        Ok(Verdict::Same) => "same\n".into(),
        Ok(Verdict::Negated) => "negated\n".into(),
        Ok(Verdict::Both) => "both\n".into(),
        Ok(Verdict::Different(index)) => format!("different {index}\n"),
        Err(refusal) => refused(refusal),
    }
}

fn written(edition: u64, notes: &[u8]) -> Result<Vec<u8>, String> {
    let records = input(usize::MAX)?;
    let log = write(edition, notes, &records).map_err(|unwritten| match unwritten {
        Unwritten::By(refusal) => refused(refusal),
        Unwritten::Record(refusal, index) => format!("refused {refusal} record {index}"),
    })?;
    Ok(log.to_vec())
}

/// By docs/SIGN.md.
fn stretch_line(stretch: &Stretch) -> String {
    let Stretch {
        bank,
        encoder,
        first,
        last,
        pins,
        steps,
        doubles,
    } = *stretch;
    let doubt = 2 * doubles as i64;
    let way = match stretch.way() {
        Way::Open => {
            let short = doubt + 1 - steps.abs();
            format!("open, {short} step{} short of a direction", plural(short))
        }
        Way::Forward => "forward".into(),
        Way::Backward => "backward".into(),
        Way::Still => "still".into(),
    };
    format!(
        "bank {bank} encoder {encoder}: records {first} to {last}, {pins} pin{}, {} step{}, \
         {doubles} double change{}, travel {} to {}: {way}\n",
        plural(pins.into()),
        signed(steps),
        plural(steps),
        plural(doubles as i64),
        signed(steps - doubt),
        signed(steps + doubt),
    )
}

/// What a word ends in behind a number.
fn plural(number: i64) -> &'static str {
    if number.abs() == 1 {
        ""
    } else {
        "s"
    }
}

/// With its sign; 0 has none.
fn signed(number: i64) -> String {
    if number == 0 {
        "0".into()
    } else {
        format!("{number:+}")
    }
}

fn streamed(edition: u64, records: &[u8]) -> String {
    let mut stream = match Stream::start(edition) {
        Ok(stream) => stream,
        Err(refusal) => return format!("applied 0 refused {refusal}\n"),
    };
    let mut out = vec![0; records.len()];
    let (_, readings) = stream.chunk(records, &mut out);
    let readings = each_reading(&out).take(readings as usize);
    let lines: String = readings.map(|reading| format!("{reading}\n")).collect();
    let (applied, refused) = (stream.applied(), stream.end());
    format!("{lines}applied {applied} refused {refused}\n")
}

fn entry_line(entry: &Entry) -> String {
    let Entry {
        time,
        bank,
        encoder,
        pins,
    } = entry;
    format!("{time} bank {bank} encoder {encoder} pins {pins}\n")
}

fn pair(answer: Result<Pair, Refusal>) -> String {
    match answer {
        Ok(Pair { choice, x, period }) => format!("choice {choice} x {x} period {period}\n"),
        Err(refusal) => refused(refusal),
    }
}

fn fraction(answer: Result<(u64, u64), Refusal>) -> String {
    match answer {
        Ok((clock, period)) => format!("{clock} {period}\n"),
        Err(refusal) => refused(refusal),
    }
}

fn refused(refusal: Refusal) -> String {
    format!("refused {refusal}\n")
}

fn number(word: &str) -> Result<u64, String> {
    let digits = !word.is_empty() && word.bytes().all(|byte| byte.is_ascii_digit());
    let value = if digits { word.parse().ok() } else { None };
    value.ok_or_else(|| format!("`{word}` is not a decimal number of 64 bits"))
}

fn log_from(bytes: Vec<u8>) -> Result<Vec<u8>, String> {
    let text = String::from_utf8(bytes).map_err(|_| "the text is not UTF-8")?;
    from_text(&text).map_err(|(line, message)| format!("line {line}: {message}"))
}
