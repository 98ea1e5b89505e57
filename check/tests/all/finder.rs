use rivandoze_check::generate::Rng;
use rivandoze_check::reference::{
    brute_pwm, brute_spi, find_pwm, find_spi, rate_pwm, rate_spi, Pair,
};
use std::collections::BTreeSet;

/// In millihertz.
const CLOCK: u64 = 40_000_000_000;

type Find = fn(u64, u64) -> Result<Pair, u8>;
type Rate = fn(u64, u64) -> Result<(u64, u64), u8>;

struct Kind {
    fast: Find,
    brute: Find,
    rate: Rate,
    /// In millihertz, as the edges.
    highest: u64,
    /// Ticks in one count with N 1.
    ticks: u64,
    edges: &'static [u64],
}

// Around the rates where a divider just no longer reaches, and where the list of periods is thin.
const PWM: Kind = Kind {
    fast: find_pwm,
    brute: brute_pwm,
    rate: rate_pwm,
    highest: 40_000_000,
    ticks: 1,
    edges: &[
        40_000, 40_001, 40_125, 76_293, 76_294, 76_295, 152_587, 152_588, 152_589, 305_175,
        305_176, 305_177, 610_000, 610_351, 610_352, 611_000, 19_999_999, 39_980_009, 39_980_010,
        39_999_999, 40_000_000,
    ],
};
const SPI: Kind = Kind {
    fast: find_spi,
    brute: brute_spi,
    rate: rate_spi,
    highest: 4_000_000_000,
    ticks: 2,
    edges: &[
        40_000,
        40_001,
        40_125,
        76_293,
        76_294,
        152_587,
        152_588,
        305_175,
        305_176,
        305_177,
        306_000,
        2_857_142_857,
        2_857_142_858,
        3_095_238_095,
        3_095_238_096,
        3_333_333_333,
        3_636_363_636,
        3_636_363_637,
        3_650_000_000,
        3_666_666_666,
        3_666_666_667,
        3_999_999_999,
        4_000_000_000,
    ],
};

/// The smallest tolerance, in millionths, that a pair lies within.
fn least_tolerance(rate: u64, pair: &Pair) -> u64 {
    let reached = rate * pair.period;
    (1_000_000 * reached.abs_diff(CLOCK) + reached - 1) / reached
}

fn rates(kind: &Kind, seed: u64, random: usize) -> Vec<u64> {
    let mut rng = Rng::new(seed);
    let mut rates = kind.edges.to_vec();
    for index in 0..random {
        // Every second one is low, where the coarser dividers are needed.
        let highest = if index % 2 == 0 {
            700_000
        } else {
            kind.highest
        };
        rates.push(rng.between(40_000, highest));
    }
    rates
}

fn compare_with_brute(kind: &Kind, seed: u64) {
    for rate in rates(kind, seed, 120) {
        let best = (kind.brute)(rate, 1_000_000);
        assert_eq!((kind.fast)(rate, 1_000_000), best, "rate {rate}");
        let pair = best.unwrap_or_else(|_| panic!("no pair for rate {rate}"));
        let least = least_tolerance(rate, &pair);
        assert_eq!((kind.fast)(rate, least), best, "rate {rate} tol {least}");
        assert_eq!((kind.brute)(rate, least), best, "rate {rate} tol {least}");
        if least > 0 {
            assert_eq!((kind.fast)(rate, least - 1), Err(14), "rate {rate}");
        }
    }
}

#[test]
fn pwm_against_brute_force() {
    compare_with_brute(&PWM, 21);
}

#[test]
fn spi_against_brute_force() {
    compare_with_brute(&SPI, 22);
}

#[test]
fn random_tolerances_against_brute_force() {
    let mut rng = Rng::new(23);
    for kind in [&PWM, &SPI] {
        for rate in rates(kind, 24, 25) {
            let tol = match rng.below(4) {
                0 => 0,
                1 => rng.below(50),
                2 => rng.below(100_000),
                _ => rng.draw(),
            };
            let wanted = (kind.brute)(rate, tol);
            assert_eq!((kind.fast)(rate, tol), wanted, "rate {rate} tol {tol}");
        }
    }
}

/// The best of the two neighbours of the wanted period on each of the seven dividers' own list.
fn best_neighbour(kind: &Kind, rate: u64) -> Pair {
    let mut best: Option<(Pair, u64)> = None;
    for choice in 1..=7 {
        let n = kind.ticks << (choice - 1);
        let below = CLOCK / (rate * n);
        for counts in [below, below + 1] {
            let counts = counts.clamp(1, 65_536);
            let period = n * counts;
            let gap = (rate * period).abs_diff(CLOCK);
            let better = best.map_or(true, |(pair, best_gap)| {
                let (new, old) = (
                    u128::from(gap) * u128::from(pair.period),
                    u128::from(best_gap) * u128::from(period),
                );
                (new, period, choice) < (old, pair.period, pair.choice)
            });
            if better {
                let x = (counts - 1) as u16;
                best = Some((Pair { choice, x, period }, gap));
            }
        }
    }
    best.expect("seven dividers have neighbours").0
}

fn compare_everywhere(kind: &Kind, rates: impl Iterator<Item = u64>) {
    for rate in rates {
        let pair = best_neighbour(kind, rate);
        assert_eq!((kind.fast)(rate, 1_000_000), Ok(pair), "rate {rate}");
        let least = least_tolerance(rate, &pair);
        assert_eq!((kind.fast)(rate, least), Ok(pair), "rate {rate}");
        if least > 0 {
            assert_eq!((kind.fast)(rate, least - 1), Err(14), "rate {rate}");
        }
    }
}

/// All whole hertz are on a grid of an eighth of one.
#[test]
fn a_grid_of_pwm_rates_against_neighbours() {
    compare_everywhere(&PWM, (40_000..=40_000_000).step_by(125));
}

/// Where the coarser dividers are needed, every one.
#[test]
fn every_low_rate_against_neighbours() {
    for kind in [&PWM, &SPI] {
        compare_everywhere(kind, 40_000..=620_000);
    }
}

#[test]
fn every_whole_hertz_of_spi_against_neighbours() {
    compare_everywhere(&SPI, (40_000..=4_000_000_000).step_by(1_000));
}

#[test]
fn random_rates_against_neighbours() {
    for (kind, seed) in [(&PWM, 27), (&SPI, 28)] {
        compare_everywhere(kind, rates(kind, seed, 200_000).into_iter());
    }
}

/// Paper 01's finder, in whole hertz: `|40,000,000 - fP|` and the rest as it stands there.
fn find_in_hertz(kind: &Kind, rate: u64, tol: u64) -> Option<(u8, u16)> {
    let gap = |period: u64| (rate * period).abs_diff(40_000_000);
    let pairs = (1..=7).flat_map(|choice| {
        let n = kind.ticks << (choice - 1);
        let below = (40_000_000 / (rate * n)).clamp(1, 65_536);
        [below, (below + 1).min(65_536)].map(|counts| (n * counts, choice, counts - 1))
    });
    let within = pairs.filter(|&(period, ..)| 1_000_000 * gap(period) <= tol * rate * period);
    // Errors in parts of 2^64, which is fine enough to tell two different ones apart.
    let error = |period| (u128::from(gap(period)) << 64) / u128::from(period);
    let best = within.min_by_key(|&(period, choice, _)| (error(period), period, choice));
    best.map(|(_, choice, x)| (choice as u8, x as u16))
}

#[test]
fn old_requests_come_out_the_same_in_millihertz() {
    let mut rng = Rng::new(29);
    for kind in [&PWM, &SPI] {
        for _ in 0..200_000 {
            let most = (kind.highest / 1_000).min(80 << rng.below(17));
            let rate = rng.between(40, most);
            let tol = rng.pick(&[0, 1, 10, 1_000, 1_000_000]);
            let found = (kind.fast)(1_000 * rate, tol);
            let pair = found.ok().map(|pair| (pair.choice, pair.x));
            assert_eq!(
                pair,
                find_in_hertz(kind, rate, tol),
                "rate {rate} tol {tol}"
            );
        }
    }
}

/// Two neighbouring periods P and Q are equally far from a rate only if it is half of the sum of theirs,
/// in millihertz 20,000,000,000 (P + Q) / PQ. None is in range: the rule for ties never decides.
#[test]
fn no_rate_lies_midway_between_two_periods() {
    for kind in [&PWM, &SPI] {
        let units = (0..7u64).flat_map(|shift| (1..=65_536u64).map(move |counts| counts << shift));
        let all: BTreeSet<u64> = units.map(|units| kind.ticks * units).collect();
        let midway: Vec<u64> = all
            .iter()
            .zip(all.iter().skip(1))
            .filter(|(p, q)| CLOCK / 2 * (*p + *q) % (*p * *q) == 0)
            .map(|(p, q)| CLOCK / 2 * (p + q) / (p * q))
            .collect();
        let wanted = [30_000_000_000, 9_000_000_000].map(|rate| rate / kind.ticks);
        assert_eq!(midway, wanted);
        assert!(midway.iter().all(|&rate| rate > kind.highest));
    }
}

/// The longest wanted period is 1,000,000 ticks, and N 16 reaches 1,048,576 (for SPI, where a count is
/// two ticks, N 8 does).
#[test]
fn the_coarsest_dividers_never_win() {
    for (kind, coarsest) in [(&PWM, 5), (&SPI, 4)] {
        let met: BTreeSet<u8> = (40_000..=620_000)
            .map(|rate| (kind.fast)(rate, 1_000_000).map_or(0, |pair| pair.choice))
            .collect();
        assert_eq!(met, (1..=coarsest).collect());
    }
}

#[test]
fn a_found_pair_has_its_period_as_rate() {
    for kind in [&PWM, &SPI] {
        for rate in rates(kind, 25, 2_000) {
            let pair =
                (kind.fast)(rate, 1_000_000).unwrap_or_else(|_| panic!("no pair for rate {rate}"));
            let registers = (kind.rate)(pair.choice.into(), pair.x.into());
            assert_eq!(registers, Ok((40_000_000, pair.period)));
        }
    }
}

#[test]
fn requests_of_any_size_are_answered() {
    let mut rng = Rng::new(26);
    for _ in 0..100_000 {
        let shift = rng.below(64);
        let (rate, tol) = (rng.draw() >> shift, rng.draw() >> rng.below(64));
        for kind in [&PWM, &SPI] {
            let answer = (kind.fast)(rate, tol);
            if !(40_000..=kind.highest).contains(&rate) {
                assert_eq!(answer, Err(12));
            } else if tol > 1_000_000 {
                assert_eq!(answer, Err(13));
            } else {
                assert!(answer.is_ok() || answer == Err(14));
            }
        }
    }
}
