//! A wait on one channel, worked out at once and spoilt on the way.

use crate::mistakes::Mistake::{self, *};
use rivandoze_check::reference::clock::divider;
use rivandoze_check::reference::pwm::{Pwm, COUNTER_MAX, INV, MODE};

/// Shorter waits are right, so that only long ones show most of these mistakes.
const LONG: u32 = 1 << 16;

/// The channel after the wait, if the mistake makes it another than it should be.
pub fn waited(mistake: Mistake, old: &Pwm, count: u32, runs_on: bool) -> Option<Pwm> {
    if runs_on {
        if let Some(wrong) = run_on(mistake, old, count) {
            return Some(wrong);
        }
    }
    let n = divider(old.cs.into()).filter(|_| count >= LONG)?;
    let (total, remainder) = match mistake {
        RemainderLostInLongWaits => (total(old, count), 0),
        RemainderLeftOutOfLongWaits => split(count.into(), n),
        WaitWithRemainderCutTo32Bits => split(u64::from(total(old, count) as u32), n),
        WaitCutTo31Bits => split(total(old, count & 0x7FFF_FFFF), n),
        _ => split(total(old, count), n),
    };
    let steps = match mistake {
        StepsCutTo16Bits => (total / n) & 0xFFFF,
        RoundsDroppedFirst if u64::from(old.counter) < round(old) => total / n % round(old),
        _ => total / n,
    };
    let mut pwm = after_steps(old, steps, runs_on);
    pwm.remainder = remainder;
    spoil(mistake, old, steps, runs_on, &mut pwm);
    let mut right = old.clone();
    right.ticks(count, runs_on);
    (pwm != right).then_some(pwm)
}

fn total(old: &Pwm, count: u32) -> u64 {
    u64::from(old.remainder) + u64::from(count)
}

/// The ticks, and what is left of them behind the last step.
fn split(ticks: u64, n: u64) -> (u64, u8) {
    (ticks, (ticks % n) as u8)
}

fn round(pwm: &Pwm) -> u64 {
    let top = if pwm.cnfg & MODE != 0 {
        pwm.max
    } else {
        COUNTER_MAX
    };
    u64::from(top) + 1
}

/// So many steps by the reference: ticks of an undivided clock.
fn after_steps(old: &Pwm, steps: u64, runs_on: bool) -> Pwm {
    let mut pwm = Pwm {
        cs: 1,
        remainder: 0,
        ..old.clone()
    };
    pwm.ticks(steps as u32, runs_on);
    pwm.cs = old.cs;
    pwm
}

fn spoil(mistake: Mistake, old: &Pwm, steps: u64, runs_on: bool, pwm: &mut Pwm) {
    let (start, round) = (u64::from(old.counter), round(old));
    let to_zero = if runs_on && start >= round {
        65_536 - start
    } else {
        round.saturating_sub(start).max(1)
    };
    let twice_at_zero = steps >= to_zero + round;
    let inverted = old.cnfg & INV != 0;
    let generates = old.cnfg & MODE != 0;
    match mistake {
        SecondRoundOneFurther if twice_at_zero => {
            pwm.counter = ((u64::from(pwm.counter) + 1) % round) as u16;
        }
        CmpLastAfterTwoRounds if twice_at_zero && generates && u64::from(old.cmp) < round => {
            pwm.output = inverted;
        }
        ZeroLastAfterTwoRounds if twice_at_zero && generates => pwm.output = !inverted,
        AboveTopByRounds if start >= round => pwm.counter = ((start + steps) % round) as u16,
        Mode0RoundOf65535 if !generates && steps >= to_zero => {
            pwm.counter = ((start + steps) % 65_535) as u16;
        }
        _ => {}
    }
}

/// A wait of any length where a counter above MAX runs on, if the mistake is one of these.
fn run_on(mistake: Mistake, old: &Pwm, count: u32) -> Option<Pwm> {
    let n = divider(old.cs.into()).filter(|_| old.cnfg & MODE != 0)?;
    let steps = total(old, count) / n;
    let (counter, above) = (u64::from(old.counter), old.counter > old.max);
    let to_zero = 65_536 - counter;
    let mut right = old.clone();
    right.ticks(count, true);
    let wrong = match mistake {
        MaxIgnoredIn2 => {
            let mut without_max = Pwm {
                max: COUNTER_MAX,
                ..old.clone()
            };
            without_max.ticks(count, true);
            Pwm {
                max: old.max,
                ..without_max
            }
        }
        RunsOnFromMax if old.counter == old.max => stepped(old, steps, to_zero),
        RunsOnTo65534 if above => stepped(old, steps, (to_zero - 1).max(1)),
        RunsOnThroughZero if above => Pwm {
            counter: (counter + steps) as u16,
            ..stepped(old, steps, to_zero)
        },
        NoArrivalAboveMax if above && steps < to_zero => Pwm {
            output: old.output,
            ..right.clone()
        },
        NoArrivalAtZeroFromAbove if above && steps == to_zero && old.cmp != 0 => Pwm {
            output: old.output,
            ..right.clone()
        },
        LongWaitsGoToZeroIn2 if above && count >= LONG => stepped(old, steps, 1),
        _ => return None,
    };
    Some(Pwm {
        remainder: right.remainder,
        ..wrong
    })
}

/// So many steps, of which number `to_zero` is the first that arrives at 0.
fn stepped(old: &Pwm, steps: u64, to_zero: u64) -> Pwm {
    let (counter, cmp) = (u64::from(old.counter), u64::from(old.cmp));
    let inverted = old.cnfg & INV != 0;
    let mut pwm = old.clone();
    let end = match steps.checked_sub(to_zero) {
        None => {
            let end = counter + steps;
            if counter < cmp && cmp <= end {
                pwm.output = inverted;
            }
            end
        }
        Some(left) => {
            let end = left % round(old);
            pwm.output = inverted == (cmp <= end);
            end
        }
    };
    pwm.counter = end as u16;
    pwm
}
