//! How long to wait: where a wait that is worked out at once may end one off.

use super::Rng;
use crate::reference::clock::divider;
use crate::reference::pwm::{Pwm, COUNTER_MAX, MODE};

/// Around whole rounds of the channel's counter, around those of 16 bits, around a power of two, the
/// longest, or any; never above `most`.
pub fn wait(pwm: &Pwm, runs_on: bool, most: u64, rng: &mut Rng) -> u64 {
    let n = divider(pwm.cs.into()).unwrap_or(1);
    let about = match rng.below(8) {
        0..=2 => n * steps_to_an_edge(pwm, runs_on, rng),
        3 => n * rounds(rng) * (u64::from(COUNTER_MAX) + 1),
        4 => 1 << rng.below(33),
        5 => most.saturating_sub(rng.below(3)),
        _ => rng.between(0, most),
    };
    let near = match rng.below(3) {
        0 => about,
        1 => (about + rng.below(3)).saturating_sub(1),
        _ => (about + rng.below(2 * n + 1)).saturating_sub(n),
    };
    if near <= most {
        near
    } else {
        rng.between(0, most)
    }
}

/// Some rounds, and on to where the counter was, to 0, to CMP or to the top. A counter that runs on is left
/// above the top, at CMP or at the last, or at 0, or goes on from there.
fn steps_to_an_edge(pwm: &Pwm, runs_on: bool, rng: &mut Rng) -> u64 {
    let top = if pwm.cnfg & MODE != 0 {
        pwm.max
    } else {
        COUNTER_MAX
    };
    let round = u64::from(top) + 1;
    if runs_on && pwm.counter > top {
        let to_zero = u64::from(COUNTER_MAX - pwm.counter) + 1;
        let to_cmp = pwm.cmp.saturating_sub(pwm.counter).into();
        let edge = u64::from(rng.pick(&[0, pwm.cmp, top]));
        let later = to_zero + rounds(rng) * round + edge;
        return rng.pick(&[to_cmp, to_zero - 1, to_zero, to_zero + edge, later]);
    }
    let edge = rng.pick(&[pwm.counter, 0, pwm.cmp, top]);
    (rounds(rng) * round + u64::from(edge)).saturating_sub(pwm.counter.into())
}

/// As often few as many.
fn rounds(rng: &mut Rng) -> u64 {
    let bits = rng.below(17);
    rng.between(1, 1 << bits)
}
