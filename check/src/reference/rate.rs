//! Rates: from registers, and the finder, which is asked in millihertz.
//!
//! An SPI period is two counts of N(X+1) ticks, so SPI is PWM on half the clock, with the period
//! doubled at the end.

use super::clock::{divider, CLOCK_HZ, CLOCK_MILLIHERTZ};
use super::refusal::{
    Refusal, NO_PAIR, RATE_OUT_OF_RANGE, REGISTERS_OUT_OF_RANGE, TOLERANCE_TOO_WIDE,
};

/// Wanted rates are in millihertz.
pub const LOWEST_RATE: u64 = 40_000;
pub const HIGHEST_PWM_RATE: u64 = 40_000_000;
pub const HIGHEST_SPI_RATE: u64 = 4_000_000_000;
pub const MILLION: u64 = 1_000_000;
pub const X_MAX: u64 = 65_535;

#[derive(Debug, Clone, Copy, PartialEq, Eq)]
pub struct Pair {
    /// The divider choice, 1 to 7.
    pub choice: u8,
    pub x: u16,
    /// In ticks of the undivided clock.
    pub period: u64,
}

/// What tells PWM and SPI apart.
struct Kind {
    highest: u64,
    /// Ticks of the undivided clock in one count with N 1.
    ticks: u64,
}

const PWM: Kind = Kind {
    highest: HIGHEST_PWM_RATE,
    ticks: 1,
};
const SPI: Kind = Kind {
    highest: HIGHEST_SPI_RATE,
    ticks: 2,
};

/// The rate of a PWM channel as a fraction: 40,000,000 and the period.
pub fn rate_pwm(choice: u64, x: u64) -> Result<(u64, u64), Refusal> {
    rate(&PWM, choice, x)
}

/// The rate of the SPI clock as a fraction: 40,000,000 and the period.
pub fn rate_spi(choice: u64, x: u64) -> Result<(u64, u64), Refusal> {
    rate(&SPI, choice, x)
}

#[inline]
pub fn find_pwm(rate: u64, tol: u64) -> Result<Pair, Refusal> {
    find(&PWM, rate, tol)
}

#[inline]
pub fn find_spi(rate: u64, tol: u64) -> Result<Pair, Refusal> {
    find(&SPI, rate, tol)
}

fn rate(kind: &Kind, choice: u64, x: u64) -> Result<(u64, u64), Refusal> {
    match divider(choice) {
        Some(n) if x <= X_MAX => Ok((CLOCK_HZ, kind.ticks * n * (x + 1))),
        _ => Err(REGISTERS_OUT_OF_RANGE),
    }
}

/// Call N(X+1) the units. The error falls up to clock / rate units and rises from there, so only
/// the two neighbours of that point matter. The finest divider that reaches the point knows both:
/// above half its reach no finer one has units, and its own are the closest that exist.
#[inline]
fn find(kind: &Kind, rate: u64, tol: u64) -> Result<Pair, Refusal> {
    if !(LOWEST_RATE..=kind.highest).contains(&rate) {
        return Err(RATE_OUT_OF_RANGE);
    }
    if tol > MILLION {
        return Err(TOLERANCE_TOO_WIDE);
    }
    // No product below is above a million times the clock plus one step, which 64 bits hold.
    let clock = CLOCK_MILLIHERTZ / kind.ticks;
    let whole = clock / rate;
    let exact = whole * rate == clock;

    let shift = finest_shift(whole + u64::from(!exact));
    let step = rate << shift;
    let below = whole >> shift;
    let short = clock - step * below;
    let over = step - short;
    let (counts, gap) = if short * (below + 1) <= over * below {
        (below, short)
    } else {
        (below + 1, over)
    };
    if MILLION * gap > tol * (step * counts) {
        return Err(NO_PAIR);
    }

    let units = counts << shift;
    // The lower neighbour may be the last that the next finer divider reaches.
    let shift = finest_shift(units);
    Ok(Pair {
        choice: shift as u8 + 1,
        x: ((units >> shift) - 1) as u16,
        period: kind.ticks * units,
    })
}

/// The least s for which 65,536 counts of 2^s reach `units`, which is not 0.
fn finest_shift(units: u64) -> u32 {
    u64::BITS - ((units - 1) >> 16).leading_zeros()
}
