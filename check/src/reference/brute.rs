//! The finder by brute force, word for word from the papers, in 128 bits. It shares only constants
//! with the fast one, which is compared with it.

use super::clock::{CLOCK_MILLIHERTZ, DIVIDERS};
use super::rate::{Pair, HIGHEST_PWM_RATE, HIGHEST_SPI_RATE, LOWEST_RATE, MILLION, X_MAX};
use super::refusal::{Refusal, NO_PAIR, RATE_OUT_OF_RANGE, TOLERANCE_TOO_WIDE};

pub fn brute_pwm(rate: u64, tol: u64) -> Result<Pair, Refusal> {
    search(rate, tol, HIGHEST_PWM_RATE, |n, x| n * (x + 1))
}

pub fn brute_spi(rate: u64, tol: u64) -> Result<Pair, Refusal> {
    search(rate, tol, HIGHEST_SPI_RATE, |n, x| 2 * n * (x + 1))
}

fn search(
    rate: u64,
    tol: u64,
    highest: u64,
    period: impl Fn(u64, u64) -> u64,
) -> Result<Pair, Refusal> {
    if rate < LOWEST_RATE || rate > highest {
        return Err(RATE_OUT_OF_RANGE);
    }
    if tol > MILLION {
        return Err(TOLERANCE_TOO_WIDE);
    }
    let mut best: Option<Pair> = None;
    for (choice, n) in (1..).zip(DIVIDERS) {
        for x in 0..=X_MAX {
            let pair = Pair {
                choice,
                x: x as u16,
                period: period(n, x),
            };
            let wins = best.map_or(true, |best| better(rate, &pair, &best));
            if within(rate, tol, &pair) && wins {
                best = Some(pair);
            }
        }
    }
    best.ok_or(NO_PAIR)
}

/// Least error, then smaller period, then smaller divider.
fn better(rate: u64, new: &Pair, old: &Pair) -> bool {
    // Errors d/P as fractions, compared crosswise.
    let new_error = distance(rate, new) * u128::from(old.period);
    let old_error = distance(rate, old) * u128::from(new.period);
    (new_error, new.period, new.choice) < (old_error, old.period, old.choice)
}

fn within(rate: u64, tol: u64, pair: &Pair) -> bool {
    u128::from(MILLION) * distance(rate, pair)
        <= u128::from(tol) * u128::from(rate) * u128::from(pair.period)
}

/// A thousand times |40,000,000 - f/1,000 P|.
fn distance(rate: u64, pair: &Pair) -> u128 {
    u128::from(CLOCK_MILLIHERTZ).abs_diff(u128::from(rate) * u128::from(pair.period))
}
