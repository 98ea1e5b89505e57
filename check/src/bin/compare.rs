//! Compares a driver, which calls the library, with the reference: every word, and every byte of the
//! output and of what lies around it.

use rivandoze_check::cases::{
    Family, Requests, Size, COUNTED_FAMILIES, DUMP_FAMILIES, FAMILIES, FAR_FAMILIES,
    SHRINK_FAMILIES, SIGN_FAMILIES, STREAM_FAMILIES, WRITE_FAMILIES,
};
use rivandoze_check::exchange::{Answer, Call, Place, Request};
use rivandoze_check::reference::log::{records, READING_LEN};
use rivandoze_check::reference::record::READ;
use rivandoze_check::text::{record_to_text, to_text};
use std::io::{self, BufReader, BufWriter};
use std::process::{Child, ChildStdin, Command, ExitCode, ExitStatus, Stdio};
use std::sync::mpsc::{sync_channel, SyncSender};
use std::thread;
use std::time::{Duration, Instant};
use std::{fs, path::Path};

const USAGE: &str = "\
compare full SEED DIR DRIVER..             every family of logs
compare short SEED DIR DRIVER..            fewer of them, up to the first difference
compare alone SEED DIR DRIVER..            the same logs, of one driver, each in a block of the heap of its own
compare few SEED DIR DRIVER..              every twentieth of these, for a slow driver
compare seconds N SEED DIR DRIVER..        logs by chance, for so many seconds
compare rerun CALL FILE OUT PATTERN PLACE EDITION DRIVER..
                                           one log, with what was lent to it; what was lent beside it
                                           is in a file of the same name that ends in .beside
Each of these, up to seconds, also as dump-full, dump-short and so on: the dump and its reader; and as write-full,
shrink-full, sign-full and stream-full and so on: these calls. far-full and so on edit the bytes of a stream's state;
counted-full has a stream count to 2^31, which takes some twenty seconds.
A log that is answered otherwise than by the reference is written to DIR. CASES in the environment is how many hundredths
of the logs by chance `full` has.
";

/// What a mode begins with, and the families that it is about.
const GROUPS: [(&str, &[Family]); 7] = [
    ("dump-", DUMP_FAMILIES),
    ("write-", WRITE_FAMILIES),
    ("shrink-", SHRINK_FAMILIES),
    ("sign-", SIGN_FAMILIES),
    ("stream-", STREAM_FAMILIES),
    ("far-", FAR_FAMILIES),
    ("counted-", COUNTED_FAMILIES),
];

const CASES: &str = "CASES";
/// How many requests may be under way.
const AHEAD: usize = 64;
/// Every which log of a family is one of the few.
const FEW: usize = 20;
/// How the file ends that has what was lent beside a log.
const BESIDE: &str = "beside";

fn main() -> ExitCode {
    let words: Vec<String> = std::env::args().skip(1).collect();
    match run(&words) {
        Ok(true) => ExitCode::SUCCESS,
        Ok(false) => ExitCode::from(1),
        Err(message) => {
            eprintln!("{}", message.trim_end());
            ExitCode::from(2)
        }
    }
}

/// Whether all was as by the reference.
fn run(words: &[String]) -> Result<bool, String> {
    let (mode, words) = words.split_first().ok_or(USAGE)?;
    let group = GROUPS
        .iter()
        .find_map(|(prefix, families)| Some((*families, mode.strip_prefix(prefix)?)));
    let (families, mode) = group.unwrap_or((FAMILIES, mode));
    match mode {
        "full" => full(families, words),
        "short" => short(families, words),
        "alone" => alone(families, words, 1),
        "few" => alone(families, words, FEW),
        "seconds" => for_seconds(families, words),
        "rerun" => rerun(words),
        _ => Err(USAGE.into()),
    }
}

fn full(families: &[Family], words: &[String]) -> Result<bool, String> {
    let against = Against::from_words(words)?;
    let percent = match std::env::var(CASES) {
        Ok(percent) => number(&percent)?,
        Err(_) => 100,
    };
    let mut good = true;
    for family in families {
        let size = match family.by_chance {
            true => Size::Percent(percent),
            false => Size::Full,
        };
        good &= against.compare(family.name, family.requests(against.seed, size))?;
    }
    Ok(good)
}

fn short(families: &[Family], words: &[String]) -> Result<bool, String> {
    let against = Against::from_words(words)?;
    for family in families {
        if !against.compare(family.name, family.requests(against.seed, Size::Short))? {
            return Ok(false);
        }
    }
    Ok(true)
}

/// For a driver whose heap is watched, and which may be slow to start.
fn alone(families: &'static [Family], words: &[String], every: usize) -> Result<bool, String> {
    let against = Against::from_words(words)?;
    let seed = against.seed;
    let requests = families
        .iter()
        .flat_map(move |family| family.requests(seed, Size::Short).step_by(every))
        .map(|request| Request {
            place: Place::Alone,
            ..request
        });
    against.compare("logs of every family", Box::new(requests))
}

fn for_seconds(families: &[Family], words: &[String]) -> Result<bool, String> {
    let (seconds, words) = words.split_first().ok_or(USAGE)?;
    let end = Instant::now() + Duration::from_secs(number(seconds)?);
    let mut against = Against::from_words(words)?;
    while Instant::now() < end {
        for family in families.iter().filter(|family| family.by_chance) {
            if !against.compare(family.name, family.requests(against.seed, Size::Short))? {
                return Ok(false);
            }
        }
        against.seed = against.seed.wrapping_add(1);
    }
    Ok(true)
}

/// Whom to ask, by which seed, and where to write what was answered otherwise.
struct Against<'a> {
    seed: u64,
    dir: &'a str,
    driver: &'a [String],
}

impl<'a> Against<'a> {
    fn from_words(words: &'a [String]) -> Result<Self, String> {
        match words {
            [seed, dir, driver @ ..] if !driver.is_empty() => Ok(Against {
                seed: number(seed)?,
                dir,
                driver,
            }),
            _ => Err(USAGE.into()),
        }
    }

    /// One test, told by a line.
    fn compare(&self, name: &str, requests: Requests) -> Result<bool, String> {
        let (start, seed) = (Instant::now(), self.seed);
        match ask(requests, self.driver)? {
            Outcome::Same { logs, applied } => {
                let seconds = start.elapsed().as_secs_f64();
                let applied = match applied {
                    0 => String::new(),
                    _ => format!(" {applied} records applied,"),
                };
                println!("ok compare: {name}, seed {seed}: {logs} logs,{applied} {seconds:.1} s");
                Ok(true)
            }
            Outcome::Differs(difference) => {
                let index = difference.index;
                println!("FAIL compare: {name}, seed {seed}, log {index}");
                println!("{}", difference.told());
                let file = format!("{}-{seed}-{index}", name.replace(' ', "-"));
                save(&Path::new(self.dir).join(file), &difference.request)?;
                Ok(false)
            }
            Outcome::EndedBadly(status) => {
                println!("FAIL compare: {name}, seed {seed}: the driver ended with {status}");
                Ok(false)
            }
        }
    }
}

fn rerun(words: &[String]) -> Result<bool, String> {
    let (call, file, numbers, driver) = match words {
        [call, file, out_len, pattern, place, edition, driver @ ..] if !driver.is_empty() => (
            call,
            file,
            [
                number(out_len)?,
                number(pattern)?,
                number(place)?,
                number(edition)?,
            ],
            driver,
        ),
        _ => return Err(USAGE.into()),
    };
    let [out_len, pattern, place, edition] = numbers;
    let request = Request {
        call: Call::from_name(call).ok_or_else(|| format!("no such call: {call}"))?,
        log: fs::read(file).map_err(|error| format!("{file}: {error}"))?,
        beside: fs::read(Path::new(file).with_extension(BESIDE)).unwrap_or_default(),
        out_len: out_len as usize,
        pattern,
        place: Place::from_number(place).ok_or("a place is 0, 1, 2 or 3")?,
        edition,
    };
    match ask(Box::new(std::iter::once(request)), driver)? {
        Outcome::Same { applied, .. } => println!("the same, {applied} records applied"),
        Outcome::Differs(difference) => {
            println!("{}", difference.told());
            return Ok(false);
        }
        Outcome::EndedBadly(status) => {
            println!("the same, but the driver ended with {status}");
            return Ok(false);
        }
    }
    Ok(true)
}

enum Outcome {
    Same {
        logs: u64,
        applied: u64,
    },
    Differs(Difference),
    /// All answers were right.
    EndedBadly(ExitStatus),
}

struct Difference {
    index: u64,
    request: Request,
    wanted: Answer,
    /// Nothing if the driver ended instead.
    got: Option<Answer>,
}

/// Asks a driver of its own, up to the first difference.
fn ask(requests: Requests, driver: &[String]) -> Result<Outcome, String> {
    let mut child = started(driver)?;
    let stdin = child.stdin.take().expect("a pipe was asked for");
    let mut stdout = BufReader::new(child.stdout.take().expect("a pipe was asked for"));
    let (sender, receiver) = sync_channel(AHEAD);
    let asking = thread::spawn(move || send_all(requests, stdin, &sender));
    let mut outcome = (0, 0);
    for request in receiver {
        let (index, applied) = outcome;
        let wanted = request.right_answer();
        let got = Answer::read_from(&mut stdout, &request).ok();
        if got.as_ref() != Some(&wanted) {
            let _ = child.kill();
            let _ = child.wait();
            return Ok(Outcome::Differs(Difference {
                index,
                request,
                wanted,
                got,
            }));
        }
        let newly_applied = match request.call {
            Call::Replay => wanted.word >> 8,
            _ => 0,
        };
        outcome = (index + 1, applied + newly_applied);
    }
    let stdin = asking
        .join()
        .map_err(|_| "the requests could not be made")?;
    drop(stdin);
    let status = child.wait().map_err(|error| error.to_string())?;
    if !status.success() {
        return Ok(Outcome::EndedBadly(status));
    }
    let (logs, applied) = outcome;
    Ok(Outcome::Same { logs, applied })
}

fn started(driver: &[String]) -> Result<Child, String> {
    Command::new(&driver[0])
        .args(&driver[1..])
        .stdin(Stdio::piped())
        .stdout(Stdio::piped())
        .spawn()
        .map_err(|error| format!("{}: {error}", driver[0]))
}

/// Ends early where nobody takes the requests any more: the other side tells of it. Gives the pipe
/// back, to be closed when all are answered: an emulated system lets no answer out after that.
fn send_all(
    requests: Requests,
    stdin: ChildStdin,
    sender: &SyncSender<Request>,
) -> BufWriter<ChildStdin> {
    let mut stdin = BufWriter::new(stdin);
    for request in requests {
        let sent: io::Result<()> = request.write_to(&mut stdin);
        if sender.send(request).is_err() || sent.is_err() {
            break;
        }
    }
    stdin
}

impl Difference {
    fn told(&self) -> String {
        let got = match &self.got {
            Some(got) => got,
            None => return "    the driver ended without an answer".into(),
        };
        let wanted = &self.wanted;
        let mut lines = Vec::new();
        if got.word != wanted.word {
            let call = self.request.call;
            lines.push(format!("    wanted {}", word(call, wanted.word)));
            lines.push(format!("    got    {}", word(call, got.word)));
        }
        if !got.kept {
            lines.push("    what was lent to be read, or a byte beside it, was changed".into());
        }
        let mut pairs = wanted.area.bytes.iter().zip(&got.area.bytes);
        if let Some(index) = pairs.position(|(wanted, got)| wanted != got) {
            let (at, len) = (wanted.area.from_out(index), self.request.out_len);
            let [wanted, got] = [&wanted.area.bytes, &got.area.bytes].map(|area| area[index]);
            lines.push(format!(
                "    byte {at} of an output of {len}: wanted {wanted:02X}, got {got:02X}"
            ));
            lines.extend(self.reading_at(at));
        }
        lines.join("\n")
    }

    /// The read whose reading has this byte of the output.
    fn reading_at(&self, at: isize) -> Option<String> {
        if self.request.call != Call::Replay {
            return None;
        }
        let reading = usize::try_from(at).ok()? / READING_LEN;
        let mut reads = (0..)
            .zip(records(&self.request.log).ok()?)
            .filter(|(_, bytes)| bytes[0] == READ);
        let (index, bytes): (usize, _) = reads.nth(reading)?;
        Some(format!("    record {index}: {}", record_to_text(bytes)))
    }
}

fn word(call: Call, word: u64) -> String {
    let refused = word & 0xFF;
    match call {
        Call::Replay => format!("applied {} refused {refused}", word >> 8),
        Call::Judge => {
            let (verdict, index) = (word >> 8 & 0xFF, word >> 16);
            format!("verdict {verdict} index {index} refused {refused}")
        }
        Call::Dump => format!("length {} refused {refused}", word >> 8),
        Call::DumpRead => format!("entries {} refused {refused}", word >> 8),
        Call::Write => format!("length or index {} refused {refused}", word >> 8),
        Call::Shrink => format!("length {} refused {refused}", word >> 8),
        Call::Sign => format!("stretches {} refused {refused}", word >> 8),
        Call::Stream => format!("{word} calls"),
    }
}

/// The log and its text, side by side, and how to ask for it again.
fn save(stem: &Path, request: &Request) -> Result<(), String> {
    let log = stem.with_extension("log");
    let lent = format!(
        "{} {} {} {}",
        request.out_len, request.pattern, request.place as u64, request.edition
    );
    let call = request.call.name();
    let command = format!("tests/compare.sh rerun {call} {} {lent}", log.display());
    let text = format!("# {command}\n{}", to_text(&request.log));
    let written = fs::create_dir_all(stem.parent().unwrap_or(stem))
        .and_then(|()| fs::write(&log, &request.log))
        .and_then(|()| fs::write(stem.with_extension(BESIDE), &request.beside))
        .and_then(|()| fs::write(stem.with_extension("txt"), text));
    written.map_err(|error| format!("{}: {error}", stem.display()))?;
    println!("    again: {command}");
    Ok(())
}

fn number(word: &str) -> Result<u64, String> {
    word.parse()
        .map_err(|_| format!("`{word}` is not a number\n{USAGE}"))
}
