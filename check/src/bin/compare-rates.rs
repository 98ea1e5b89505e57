//! Compares the rate calls of the library with the reference: a grid over the PWM range that has all
//! whole hertz in it, and by chance rates of both ranges and registers.
//!
//! usage: compare-rates SEED DRIVER..
//!
//! The driver is `rates/answers.c`: a kind and two numbers to a line, the answer in decimal on the
//! next. Kinds: P and S find a pair for PWM and SPI, p and s rate one.

use rivandoze_check::generate::Rng;
use rivandoze_check::packed;
use rivandoze_check::reference::clock::CLOCK_MILLIHERTZ;
use rivandoze_check::reference::rate::{
    HIGHEST_PWM_RATE, HIGHEST_SPI_RATE, LOWEST_RATE, MILLION, X_MAX,
};
use rivandoze_check::reference::{find_pwm, find_spi};
use std::io::{BufRead, BufReader, BufWriter, Write};
use std::process::{ChildStdin, Command, ExitCode, Stdio};
use std::thread;

/// In millihertz, a part of a whole hertz.
const GRID: u64 = 125;
const RANDOM_REQUESTS: usize = 60_000;
const REGISTER_REQUESTS: usize = 20_000;
/// How many differences are told one by one.
const TOLD: usize = 5;

#[derive(Clone, Copy)]
struct Request {
    kind: char,
    numbers: [u64; 2],
}

impl Request {
    fn line(&self) -> String {
        let [first, second] = self.numbers;
        format!("{} {first} {second}", self.kind)
    }

    fn wanted(&self) -> u64 {
        let [first, second] = self.numbers;
        match self.kind {
            'P' => packed::find_pwm(first, second),
            'S' => packed::find_spi(first, second),
            'p' => packed::rate_pwm(first, second),
            _ => packed::rate_spi(first, second),
        }
    }
}

fn main() -> ExitCode {
    let words: Vec<String> = std::env::args().skip(1).collect();
    match run(&words) {
        Ok(true) => ExitCode::SUCCESS,
        Ok(false) => ExitCode::from(1),
        Err(message) => {
            eprintln!("{message}");
            ExitCode::from(2)
        }
    }
}

/// Whether all was as by the reference.
fn run(words: &[String]) -> Result<bool, String> {
    let usage = "usage: compare-rates SEED DRIVER..";
    let (seed, driver) = words.split_first().ok_or(usage)?;
    let (program, arguments) = driver.split_first().ok_or(usage)?;
    let rng = Rng::new(seed.parse().map_err(|_| usage)?);
    let requests = requests(rng);
    let mut child = Command::new(program)
        .args(arguments)
        .stdin(Stdio::piped())
        .stdout(Stdio::piped())
        .spawn()
        .map_err(|error| format!("{program}: {error}"))?;
    let stdin = child.stdin.take().expect("a pipe was asked for");
    let stdout = child.stdout.take().expect("a pipe was asked for");
    let asked = requests.clone();
    let asking = thread::spawn(move || send_all(&asked, stdin));
    let answers: Vec<String> = BufReader::new(stdout)
        .lines()
        .map_while(Result::ok)
        .collect();
    asking
        .join()
        .map_err(|_| "the requests could not be sent")?;
    let status = child.wait().map_err(|error| error.to_string())?;
    let good = status.success() && same(&requests, &answers);
    let (verdict, number) = (if good { "ok" } else { "FAIL" }, requests.len());
    println!("{verdict} compare: {number} rate requests, seed {seed}");
    Ok(good)
}

/// Ends early where nobody takes the requests any more: then answers are missing.
fn send_all(requests: &[Request], stdin: ChildStdin) {
    let mut stdin = BufWriter::new(stdin);
    for request in requests {
        if writeln!(stdin, "{}", request.line()).is_err() {
            return;
        }
    }
}

fn same(requests: &[Request], answers: &[String]) -> bool {
    let pairs = requests.iter().zip(answers);
    let differing: Vec<_> = pairs
        .filter(|(request, answer)| **answer != request.wanted().to_string())
        .collect();
    for (request, answer) in differing.iter().take(TOLD) {
        let (line, wanted) = (request.line(), request.wanted());
        println!("    {line}: wanted {wanted}, got {answer}");
    }
    if answers.len() != requests.len() {
        println!("    {} answers", answers.len());
    }
    differing.is_empty() && answers.len() == requests.len()
}

fn requests(mut rng: Rng) -> Vec<Request> {
    let mut requests = Vec::new();
    for rate in (0..=HIGHEST_PWM_RATE + 40 * GRID).step_by(GRID as usize) {
        requests.push(find('P', rate, &mut rng));
    }
    for (kind, highest) in [('P', HIGHEST_PWM_RATE), ('S', HIGHEST_SPI_RATE)] {
        for edge in [0, 39, 40, LOWEST_RATE, highest, u64::from(u32::MAX)] {
            for rate in edge.saturating_sub(2)..=edge + 2 {
                requests.push(find(kind, rate, &mut rng));
            }
        }
        for _ in 0..RANDOM_REQUESTS {
            let most = highest.min(LOWEST_RATE << rng.between(1, 17));
            let rate = rng.between(LOWEST_RATE, most);
            requests.push(find(kind, rate, &mut rng));
        }
    }
    for _ in 0..REGISTER_REQUESTS {
        let any = rng.below(X_MAX + 1);
        let numbers = [rng.below(9), rng.pick(&[any, any, 0, X_MAX, X_MAX + 1])];
        let kind = rng.pick(&['p', 's']);
        requests.push(Request { kind, numbers });
    }
    requests
}

/// A rate with a tolerance: the least that has a pair, one less, or anything.
fn find(kind: char, rate: u64, rng: &mut Rng) -> Request {
    let best = match kind {
        'P' => find_pwm(rate, MILLION),
        _ => find_spi(rate, MILLION),
    };
    let least = best.map_or(0, |pair| {
        let reached = rate * pair.period;
        let error = MILLION * reached.abs_diff(CLOCK_MILLIHERTZ);
        (error + reached - 1) / reached
    });
    let tolerance = match rng.below(5) {
        0 | 1 => least,
        2 => least.saturating_sub(1),
        3 => rng.below(MILLION + 1),
        _ => rng.pick(&[0, 1, 50, 1_000, MILLION, MILLION + 1, u64::MAX]),
    };
    Request {
        kind,
        numbers: [rate, tolerance],
    }
}
