//! A second rate finder, written from the papers alone: it tries all 7 x 65,536 pairs, in 128 bits. Wanted rates are in millihertz.
//!
//! usage: rates ask SEED               the requests, one to a line: a kind, and its two numbers
//!        rates compare FILE ANSWERS   FILE has the requests, ANSWERS the number that each was answered by; tells of each difference
//!        rates midway                 the rates in range that are equally near to two periods: none, so no request tells a finder
//!                                     that breaks such a tie to the longer period, which is left to the proof
//!        rates wrong HOW FILE ANSWERS the same with a mistake of the reference's own, up to the first difference
//!
//! Kinds: P and S find a pair for PWM and SPI, p and s rate one. The exit status is 0 where there is no difference.
use std::env;
use std::fs;
use std::process::exit;

/// In millihertz.
const CLOCK: u128 = 40_000_000_000;
const LOWEST: u64 = 40_000;
const HIGHEST_PWM: u64 = 40_000_000;
const HIGHEST_SPI: u64 = 4_000_000_000;
const MILLION: u128 = 1_000_000;

/// A mistake that people make. The comparison has to see it.
#[derive(Clone, Copy, PartialEq)]
enum Mistake {
    None,
    /// Nearest in period, not in frequency.
    RoundsPeriod,
    /// Of equal periods the one with the larger divider.
    LargerDivider,
    /// The tolerance itself is not allowed.
    StrictTolerance,
    /// The dividers 16, 32 and 64 are left out. (In range 32 and 64 never win: the period of 40 Hz is within the reach of 16.)
    FourDividers,
    /// The products that the tolerance is tested by lose what is above 64 bits.
    CutTo64Bits,
    /// The rate is rounded to whole hertz first.
    WholeHertz,
    /// The period is not in the answer.
    PeriodLeftOut,
    /// The period is in the answer without the two ticks of an SPI count.
    SpiPeriodHalved,
}

struct Pair {
    choice: u64,
    x: u64,
    n: u128,
    p: u128,
    /// |40,000,000,000 - fP|, f in millihertz
    miss: u128,
}

/// Whether `a` wins over `b`: less error |40,000,000/P - f/1,000|, then smaller P, then smaller N.
fn wins(a: &Pair, b: &Pair, mistake: Mistake) -> bool {
    let (mine, other) = match mistake {
        Mistake::RoundsPeriod => (a.miss, b.miss),
        _ => (a.miss * b.p, b.miss * a.p),
    };
    if mine != other {
        return mine < other;
    }
    if a.p != b.p {
        return a.p < b.p;
    }
    if mistake == Mistake::LargerDivider {
        a.n > b.n
    } else {
        a.n < b.n
    }
}

/// The best pair within the tolerance.
fn best(base: u128, f: u128, tol: u128, mistake: Mistake) -> Option<Pair> {
    let mut best: Option<Pair> = None;
    let last = if mistake == Mistake::FourDividers {
        4
    } else {
        7
    };
    for choice in 1..=last {
        let n = 1u128 << (choice - 1);
        for x in 0..=65_535u64 {
            let p = base * n * (x as u128 + 1);
            let miss = CLOCK.abs_diff(f * p);
            let (error, allowed) = match (MILLION * miss, tol * (f * p)) {
                (error, allowed) if mistake == Mistake::CutTo64Bits => {
                    ((error as u64).into(), (allowed as u64).into())
                }
                products => products,
            };
            if error > allowed || (mistake == Mistake::StrictTolerance && error == allowed) {
                continue;
            }
            let pair = Pair {
                choice,
                x,
                n,
                p,
                miss,
            };
            match &best {
                Some(b) if !wins(&pair, b, mistake) => {}
                _ => best = Some(pair),
            }
        }
    }
    best
}

fn find(base: u128, high: u64, f: u64, tol: u64, mistake: Mistake) -> u64 {
    if f < LOWEST || f > high {
        return 12;
    }
    if tol > 1_000_000 {
        return 13;
    }
    let sought = match mistake {
        Mistake::WholeHertz => (f + 500) / 1_000 * 1_000,
        _ => f,
    };
    match best(base, sought.into(), tol.into(), mistake) {
        None => 14,
        Some(pair) => {
            let period = match mistake {
                Mistake::PeriodLeftOut => 0,
                Mistake::SpiPeriodHalved => pair.p / base,
                _ => pair.p,
            };
            pair.choice << 8 | pair.x << 16 | (period as u64) << 32
        }
    }
}

fn rate(base: u64, choice: u64, x: u64) -> u64 {
    if choice == 0 || choice > 7 || x > 65_535 {
        return 15;
    }
    let p = base * (1 << (choice - 1)) * (x + 1);
    40_000_000 << 32 | p << 8
}

fn answer(kind: &str, a: u64, b: u64, mistake: Mistake) -> u64 {
    match kind {
        "P" => find(1, HIGHEST_PWM, a, b, mistake),
        "S" => find(2, HIGHEST_SPI, a, b, mistake),
        "p" => rate(1, a, b),
        "s" => rate(2, a, b),
        _ => panic!("no kind: {kind}"),
    }
}

/// xorshift64*
struct Random(u64);

impl Random {
    fn next(&mut self) -> u64 {
        self.0 ^= self.0 >> 12;
        self.0 ^= self.0 << 25;
        self.0 ^= self.0 >> 27;
        self.0.wrapping_mul(0x2545_F491_4F6C_DD1D)
    }

    fn below(&mut self, n: u64) -> u64 {
        self.next() % n
    }

    /// The lowest to high, as many of each size.
    fn rate(&mut self, high: u64) -> u64 {
        let top = LOWEST << self.below(18);
        LOWEST + self.below(top.min(high) - LOWEST + 1)
    }
}

/// The least tolerance that has a pair.
fn least_tolerance(base: u128, f: u64) -> u64 {
    let pair = best(base, f.into(), MILLION, Mistake::None).expect("a pair within the whole rate");
    let whole = u128::from(f) * pair.p;
    ((MILLION * pair.miss + whole - 1) / whole) as u64
}

/// The divisors of the clock in a range: it is 2^12 times 5^10.
fn divisors(high: u64) -> impl Iterator<Item = u64> {
    let all = (0..=12).flat_map(|twos| (0..=10).map(move |fives| (1 << twos) * 5u64.pow(fives)));
    all.filter(move |d| (LOWEST..=high).contains(d))
}

fn ask_find(kind: &str, base: u128, high: u64, random: &mut Random) {
    let mut asked = 0;
    let mut ask = |f: u64, tol: u64| {
        println!("{kind} {f} {tol}");
        asked += 1;
    };
    // the worked sums of paper 01, of either kind, and what the wrong references are seen by
    for (f, tol) in [
        (1_000_000, 0),
        (40_000, 0),
        (39_000, 0),
        (40_001_000, 0),
        (610_000, 3),
        (610_000, 4),
        (4_000_000_000, 0),
        (3_650_000_000, 86_757),
        (3_650_000_000, 86_758),
        (41_000, 1_000_000),
        (40_125, 4),
        (40_125, 5),
        (40_125, 1_000_000),
    ] {
        ask(f, tol);
    }
    // the ends
    let tolerances = [0, 1, 999_999, 1_000_000, 1_000_001, u64::MAX];
    for f in [
        0,
        1,
        40,
        LOWEST - 1,
        LOWEST,
        LOWEST + 1,
        high - 1,
        high,
        high + 1,
        1 << 32,
        u64::MAX,
    ] {
        for tol in tolerances {
            ask(f, tol);
        }
    }
    // next to the clock's divisors
    for d in divisors(high) {
        for f in [d - 1, d, d + 1] {
            ask(f, 0);
            ask(f, random.below(1_000));
        }
    }
    // on both sides of the least tolerance
    for _ in 0..200 {
        let f = random.rate(high);
        let tol = least_tolerance(base, f);
        if tol > 0 {
            ask(f, tol - 1);
        }
        ask(f, tol);
    }
    for i in 0..1_500 {
        let f = random.rate(high);
        let tol = if i % 3 == 0 {
            random.below(1_000_001)
        } else {
            random.below(200)
        };
        ask(f, tol);
    }
    eprintln!("{kind}: {asked} requests");
}

fn ask_rate(kind: &str, random: &mut Random) {
    let mut asked = 0;
    let mut ask = |choice: u64, x: u64| {
        println!("{kind} {choice} {x}");
        asked += 1;
    };
    for choice in [0, 1, 2, 3, 4, 5, 6, 7, 8, 255, 256, 257, u64::MAX] {
        for x in [
            0,
            1,
            2,
            32_767,
            32_768,
            65_534,
            65_535,
            65_536,
            65_537,
            1 << 32,
            u64::MAX,
        ] {
            ask(choice, x);
        }
    }
    for _ in 0..2_000 {
        let (choice, x) = (random.below(9), random.below(66_000));
        ask(choice, x);
    }
    eprintln!("{kind}: {asked} requests");
}

/// How many rates in range lie midway between two neighbouring periods' rates.
fn midway(base: u128, high: u128) -> usize {
    let mut periods: Vec<u128> = (0..7)
        .flat_map(|i| (1..=65_536).map(move |count| (base << i) * count))
        .collect();
    periods.sort_unstable();
    periods.dedup();
    let is_midway = |p: u128, q: u128| {
        let (sum, parts) = (CLOCK * (p + q), 2 * p * q);
        sum % parts == 0 && (LOWEST.into()..=high).contains(&(sum / parts))
    };
    periods
        .windows(2)
        .filter(|two| is_midway(two[0], two[1]))
        .count()
}

fn compare(file: &str, answers: &str, mistake: Mistake) -> u64 {
    let read = |path: &str| fs::read_to_string(path).expect(path);
    let (requests, answers) = (read(file), read(answers));
    assert_eq!(
        requests.lines().count(),
        answers.lines().count(),
        "not as many answers as requests"
    );
    let mut differences = 0;
    for (request, got) in requests.lines().zip(answers.lines()) {
        let words: Vec<&str> = request.split(' ').collect();
        let wanted = answer(
            words[0],
            words[1].parse().unwrap(),
            words[2].parse().unwrap(),
            mistake,
        );
        if got != wanted.to_string() {
            println!("{request}: wanted {wanted:#x}, got {got}");
            differences += 1;
            if mistake != Mistake::None {
                break;
            }
        }
    }
    differences
}

fn main() {
    let words: Vec<String> = env::args().skip(1).collect();
    let words: Vec<&str> = words.iter().map(String::as_str).collect();
    match words[..] {
        ["ask", seed] => {
            let mut random = Random(seed.parse::<u64>().expect("a seed").max(1));
            ask_find("P", 1, HIGHEST_PWM, &mut random);
            ask_find("S", 2, HIGHEST_SPI, &mut random);
            ask_rate("p", &mut random);
            ask_rate("s", &mut random);
        }
        ["midway"] => {
            let found = midway(1, HIGHEST_PWM.into()) + midway(2, HIGHEST_SPI.into());
            exit((found > 0) as i32)
        }
        ["compare", file, answers] => {
            let differences = compare(file, answers, Mistake::None);
            println!("{differences} differences");
            exit((differences > 0) as i32);
        }
        ["wrong", how, file, answers] => {
            let mistake = match how {
                "rounds-period" => Mistake::RoundsPeriod,
                "larger-divider" => Mistake::LargerDivider,
                "strict-tolerance" => Mistake::StrictTolerance,
                "four-dividers" => Mistake::FourDividers,
                "cut-to-64-bits" => Mistake::CutTo64Bits,
                "whole-hertz" => Mistake::WholeHertz,
                "period-left-out" => Mistake::PeriodLeftOut,
                "spi-period-halved" => Mistake::SpiPeriodHalved,
                _ => panic!("no such mistake: {how}"),
            };
            exit((compare(file, answers, mistake) > 0) as i32);
        }
        _ => {
            panic!("usage: rates ask SEED | compare FILE ANSWERS | wrong HOW FILE ANSWERS | midway")
        }
    }
}
