//! The library beside the second program: nanoseconds in one process, in turns, and instructions under callgrind.
//!
//! usage: bench logs FOLDER           makes what each row is about, a file each
//!        bench times FOLDER ROUNDS   nanoseconds a record or a request: a line `ROW|LIBRARY|SECOND` for each row,
//!                                    and behind it `|REPLAY`, the library's replay of the same log, where it does more
//!        bench counts FOLDER         instructions, in the same way
//!        bench runs FOLDER           what `counts` has callgrind watch

mod rows;
mod sides;

use rivandoze_check::reference::judge::transcript;
use rivandoze_check::reference::log::{Log, LOG_MAX, RECORDS_MAX};
use rivandoze_check::reference::rate::HIGHEST_PWM_RATE;
use rivandoze_check::reference::record::RECORD_LEN;
use rows::{requests, Does, Row, ROWS};
use sides::{Side, LIBRARY, SECOND};
use std::path::Path;
use std::process::Command;
use std::time::Instant;
use std::{env, fs};

/// The most bytes of output that any call has for a record.
const OUT_LEN: usize = 32;
/// What the writer puts in front of the records: as much as there is room for before a full log.
const NOTES: &[u8; 8] = b"measured";
/// What a stream is given at a time.
const CHUNK_LEN: usize = 4_096;
/// More than the state of a stream takes.
const STATE_LEN: usize = 65_536;
/// Rounds between two looks at the clock.
const AT_A_TIME: u64 = 8;
/// The rounds of two runs under callgrind. Only their difference is told, so that what a run does but once falls out.
const FEW: u64 = 1;
const MORE: u64 = 3;
/// The judge's words for a right transcript, with counts and without.
const SAME: u64 = 1 << 8;
const BOTH: u64 = 3 << 8;

/// One row of one side.
struct Bench {
    side: Side,
    does: Does,
    asked: Vec<u8>,
    edition: u64,
    records: Vec<u8>,
    transcript: Vec<u8>,
    state: Vec<u8>,
    out: Vec<u8>,
}

impl Bench {
    fn new(folder: &Path, row: &Row, does: Does, side: Side) -> Self {
        let asked = fs::read(folder.join(row.name)).expect("what the row is about");
        let (edition, records) = match Log::open(&asked) {
            Ok(log) => (log.edition.number().into(), log.record_bytes.to_vec()),
            Err(_) => (0, Vec::new()),
        };
        Bench {
            side,
            does,
            transcript: transcript(&asked, |count| count),
            asked,
            edition,
            records,
            state: vec![0; STATE_LEN],
            out: vec![0; RECORDS_MAX * OUT_LEN],
        }
    }

    /// Those of a row: the library's, the second program's, and the library's replay where the row does more with a
    /// log than that.
    fn all_of(folder: &Path, row: &Row) -> Vec<Self> {
        let replays = match row.does {
            Does::Replay | Does::Write | Does::StreamEach | Does::Find => None,
            _ => Some((Does::Replay, LIBRARY)),
        };
        let all = [(row.does, LIBRARY), (row.does, SECOND)].into_iter();
        let all = all.chain(replays);
        all.map(|(does, side)| Bench::new(folder, row, does, side))
            .collect()
    }

    /// All that is answered, as one number.
    fn run(&mut self, rounds: u64) -> u64 {
        let mut answer = 0;
        for _ in 0..rounds {
            answer = self.round();
        }
        let bytes = self.out.iter();
        bytes.fold(answer, |sum, &byte| with(sum, byte.into()))
    }

    fn round(&mut self) -> u64 {
        let (side, log, out) = (self.side, &self.asked, &mut self.out);
        match self.does {
            Does::Replay => {
                let word = (side.replay)(log, out);
                assert_eq!(word, ALL_APPLIED << 8, "not all is applied");
                word
            }
            Does::Judge => {
                let word = (side.judge)(log, &self.transcript);
                assert!([SAME, BOTH].contains(&word), "not judged to be right");
                word
            }
            Does::Write => {
                let word = (side.write)(self.edition, NOTES, &self.records, out);
                assert_eq!(word, (LOG_MAX as u64) << 8, "not written");
                word
            }
            Does::Dump => made((side.dump)(log, out)),
            Does::Sign => made((side.sign)(log, out)),
            Does::Shrink => made((side.shrink)(log, out)),
            Does::Stream | Does::StreamEach => {
                let chunk = match self.does {
                    Does::Stream => CHUNK_LEN,
                    _ => RECORD_LEN,
                };
                let applied =
                    (side.stream)(self.edition, &self.records, chunk, &mut self.state, out);
                assert_eq!(applied, ALL_APPLIED, "not all is applied");
                applied
            }
            Does::Find => requests(&self.asked).fold(0, |sum, (rate, tolerance)| {
                with(sum, self.find(rate, tolerance))
            }),
        }
    }

    fn find(&self, rate: u64, tolerance: u64) -> u64 {
        if rate > HIGHEST_PWM_RATE {
            (self.side.find_spi)(rate, tolerance)
        } else {
            (self.side.find_pwm)(rate, tolerance)
        }
    }
}

const ALL_APPLIED: u64 = RECORDS_MAX as u64;

/// The word of a call that has made something.
fn made(word: u64) -> u64 {
    assert!(word & 0xFF == 0 && word > 0, "nothing is made");
    word
}

fn with(sum: u64, answer: u64) -> u64 {
    sum.rotate_left(7) ^ answer
}

fn main() {
    let words: Vec<String> = env::args().skip(1).collect();
    let words: Vec<&str> = words.iter().map(String::as_str).collect();
    match words[..] {
        ["logs", folder] => logs(Path::new(folder)),
        ["times", folder, rounds] => times(Path::new(folder), rounds.parse().expect("ROUNDS")),
        ["counts", folder] => counts(Path::new(folder)),
        ["runs", folder] => runs(Path::new(folder)),
        _ => panic!("the words are none of those that main.rs lists"),
    }
}

fn logs(folder: &Path) {
    fs::create_dir_all(folder).expect("the folder");
    for row in ROWS {
        fs::write(folder.join(row.name), (row.make)()).expect("a file of the folder");
    }
}

/// The best of all turns of each.
fn times(folder: &Path, rounds: u64) {
    for row in ROWS {
        let mut all = Bench::all_of(folder, row);
        assert_same(row, all[..2].iter_mut().map(|bench| bench.run(1)));
        let mut best = vec![f64::INFINITY; all.len()];
        for _ in 0..rounds {
            for (bench, best) in all.iter_mut().zip(&mut best) {
                let start = Instant::now();
                for _ in 0..AT_A_TIME {
                    bench.round();
                }
                *best = best.min(start.elapsed().as_secs_f64());
            }
        }
        tell(row, best.iter().map(|best| best * 1e9 / AT_A_TIME as f64));
    }
}

/// Callgrind begins anew before each call of `counted`, and writes down its total behind it.
fn counts(folder: &Path) {
    let file = folder.join("callgrind");
    let output = Command::new("valgrind")
        // A `rep stosb` is counted once for each byte, and which processors the C library takes it for differs: none here.
        .env(
            "GLIBC_TUNABLES",
            "glibc.cpu.x86_rep_stosb_threshold=16777216:glibc.cpu.x86_rep_movsb_threshold=16777216",
        )
        .args(["--tool=callgrind", "--combine-dumps=yes", "--dump-line=no"])
        .args(["--zero-before=counted", "--dump-after=counted"])
        .arg(format!("--callgrind-out-file={}", file.display()))
        .arg(env::current_exe().expect("this program"))
        .arg("runs")
        .arg(folder)
        .output()
        .expect("valgrind");
    let said = String::from_utf8_lossy(&output.stderr);
    assert!(output.status.success(), "{said}");
    let written = fs::read_to_string(file).expect("what callgrind has written");
    let totals: Vec<f64> = written
        .lines()
        .filter_map(|line| line.strip_prefix("totals: "))
        .map(|total| total.parse().expect("a total"))
        .collect();
    let mut more = totals
        .chunks_exact(2)
        .map(|totals| (totals[1] - totals[0]) / (MORE - FEW) as f64);
    for row in ROWS {
        let all = Bench::all_of(folder, row).len();
        tell(row, more.by_ref().take(all));
    }
    // The last total is of the program's end.
    assert!(
        more.next().is_none() && totals.len() % 2 == 1,
        "{} totals\n{said}",
        totals.len()
    );
}

/// Each row by the library, by a few rounds and by more, by the second program, and so on.
fn runs(folder: &Path) {
    for row in ROWS {
        let all = Bench::all_of(folder, row).into_iter();
        let answers: Vec<_> = all
            .map(|mut bench| [FEW, MORE].map(|rounds| counted(&mut bench, rounds)))
            .collect();
        assert_same(row, answers[..2].concat());
    }
}

/// Callgrind knows it by its name.
#[no_mangle]
#[inline(never)]
fn counted(bench: &mut Bench, rounds: u64) -> u64 {
    bench.run(rounds)
}

fn assert_same(row: &Row, answers: impl IntoIterator<Item = u64>) {
    let mut answers = answers.into_iter();
    let first = answers.next();
    let same = answers.all(|answer| Some(answer) == first);
    assert!(same, "{}: not the same answers", row.name);
}

/// What a round of each took.
fn tell(row: &Row, taken: impl Iterator<Item = f64>) {
    let figures = taken.map(|taken| format!("|{:.1}", taken / row.parts() as f64));
    println!("{}{}", row.name, figures.collect::<String>());
}
