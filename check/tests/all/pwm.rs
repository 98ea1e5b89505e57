use crate::common::{in_edition, readings, run_text};
use rivandoze_check::generate::Rng;
use rivandoze_check::reference::pwm::Pwm;
use std::collections::BTreeSet;

/// Above MAX the counter goes to 0, or runs on.
const RULES: [bool; 2] = [false, true];

fn assert_both_ways_equal(start: &Pwm, ticks: u32) {
    for runs_on in RULES {
        let (mut at_once, mut one_by_one) = (start.clone(), start.clone());
        at_once.ticks(ticks, runs_on);
        one_by_one.ticks_one_by_one(ticks, runs_on);
        assert_eq!(
            at_once, one_by_one,
            "{ticks} ticks from {start:?}, runs on: {runs_on}"
        );
    }
}

#[test]
fn at_once_equals_one_by_one_everywhere_in_the_small() {
    for index in 0..4 * 4 * 5 * 6 * 7 * 2 {
        let mut left = index;
        let mut digit = |base| {
            let digit = left % base;
            left /= base;
            digit as u16
        };
        let start = Pwm {
            cnfg: [0, 1, 4, 5][usize::from(digit(4))],
            cs: digit(4) as u8,
            max: digit(5),
            cmp: digit(6),
            counter: digit(7),
            output: digit(2) == 1,
            remainder: 0,
        };
        for ticks in 0..24 {
            assert_both_ways_equal(&start, ticks);
        }
    }
}

fn random_start(rng: &mut Rng) -> Pwm {
    let cs = rng.below(8) as u8;
    let n = if cs == 0 { 1 } else { 1 << (cs - 1) };
    let mut number = || match rng.below(3) {
        0 => rng.below(40) as u16,
        1 => 65_535 - rng.below(3) as u16,
        _ => rng.draw() as u16,
    };
    let (max, cmp, counter) = (number(), number(), number());
    Pwm {
        cnfg: rng.pick(&[0, 1, 4, 5]),
        cs,
        max,
        cmp,
        counter,
        output: rng.chance(50),
        remainder: rng.below(n) as u8,
    }
}

#[test]
fn at_once_equals_one_by_one_by_chance() {
    for (seed, times, most) in [(1, 3_000, 2_000), (2, 60, 3_000_000)] {
        let mut rng = Rng::new(seed);
        for _ in 0..times {
            let start = random_start(&mut rng);
            let ticks = rng.below(most) as u32;
            assert_both_ways_equal(&start, ticks);
        }
    }
}

/// Every divider, MODE and INV with edges of MAX, CMP and the counter, up to 100,000 ticks and beyond a
/// round of 16 bits: the slow way goes from one of the waits to the next.
#[test]
fn at_once_equals_one_by_one_at_the_edges() {
    for (start, runs_on) in
        starts_at_the_edges().flat_map(|start| RULES.map(|rule| (start.clone(), rule)))
    {
        let n = 1 << (start.cs - 1);
        let round = u32::from(start.max) + 1;
        let wholes = [1, 2, 3, 50].map(|rounds| n * rounds * round);
        let to_zero = 65_536 - u32::from(start.counter);
        let others = [n, n * u32::from(start.cmp), n * to_zero, 65_536, 100_000];
        let around = |ticks: u32| [ticks.saturating_sub(1), ticks, ticks + 1];
        let waits = wholes.into_iter().chain(others).flat_map(around);
        let waits: BTreeSet<u32> = waits.filter(|&ticks| ticks <= 100_001).collect();
        let (mut one_by_one, mut waited) = (start.clone(), 0);
        for ticks in waits {
            one_by_one.ticks_one_by_one(ticks - waited, runs_on);
            waited = ticks;
            let mut at_once = start.clone();
            at_once.ticks(ticks, runs_on);
            assert_eq!(at_once, one_by_one, "{ticks} ticks from {start:?}");
        }
    }
}

fn starts_at_the_edges() -> impl Iterator<Item = Pwm> {
    let maxes = [0, 1, 2, 999, 65_534, 65_535u16];
    let places = maxes.into_iter().flat_map(|max| {
        let edges = [0, 1, max / 2, max, max.saturating_add(1), 65_535];
        let edges: BTreeSet<u16> = edges.into_iter().collect();
        let cmps = edges.clone().into_iter();
        cmps.flat_map(move |cmp| edges.clone().into_iter().map(move |at| (max, cmp, at)))
    });
    places.flat_map(|(max, cmp, counter)| {
        (1..=7u8).flat_map(move |cs| {
            [0, 1, 4, 5].map(|cnfg| Pwm {
                cnfg,
                cs,
                max,
                cmp,
                counter,
                output: (counter ^ cmp) % 2 == 1,
                remainder: if counter % 2 == 0 {
                    0
                } else {
                    (1 << (cs - 1)) - 1
                },
            })
        })
    })
}

#[test]
fn a_wait_may_be_cut_anywhere() {
    let mut rng = Rng::new(3);
    for _ in 0..20_000 {
        let start = random_start(&mut rng);
        let whole = rng.draw() as u32;
        let first = rng.below(u64::from(whole) + 1) as u32;
        for runs_on in RULES {
            let (mut cut, mut uncut) = (start.clone(), start.clone());
            cut.ticks(first, runs_on);
            cut.ticks(whole - first, runs_on);
            uncut.ticks(whole, runs_on);
            assert_eq!(cut, uncut);
        }
    }
}

#[test]
fn the_longest_wait() {
    // 4,294,967,295 steps of a round of 65,536 from 0 end one before 0.
    let text = "write select 1
        write pwm 0 cs 1
        ticks 4294967295
        read pwm 0 cntr";
    assert_eq!(readings(text), [65_535]);
}

/// Level after each of the first ticks, from a fresh channel with CS 1.
fn levels(cnfg: u8, max: u16, cmp: u16, ticks: usize) -> Vec<u8> {
    let mut pwm = Pwm {
        cnfg,
        cs: 1,
        max,
        cmp,
        ..Pwm::default()
    };
    let level_after_tick = |_| {
        pwm.tick(false);
        pwm.output.into()
    };
    (0..ticks).map(level_after_tick).collect()
}

#[test]
fn output_by_compare_value() {
    // The counter starts at 0, so it does not arrive there before the fourth tick.
    assert_eq!(levels(4, 3, 2, 9), [0, 0, 0, 1, 1, 0, 0, 1, 1]);
    assert_eq!(levels(5, 3, 2, 9), [0, 1, 1, 0, 0, 1, 1, 0, 0]);
    assert_eq!(levels(4, 3, 0, 9), [0; 9]);
    assert_eq!(levels(5, 3, 0, 9), [0, 0, 0, 1, 1, 1, 1, 1, 1]);
    assert_eq!(levels(4, 3, 3, 9), [0, 0, 0, 1, 1, 1, 0, 1, 1]);
    assert_eq!(levels(4, 3, 4, 9), [0, 0, 0, 1, 1, 1, 1, 1, 1]);
    assert_eq!(levels(5, 3, 4, 9), [0; 9]);
}

#[test]
fn a_round_of_one_count_arrives_at_zero_each_step() {
    assert_eq!(levels(4, 0, 1, 3), [1, 1, 1]);
    assert_eq!(levels(4, 0, 0, 3), [0, 0, 0]);
    assert_eq!(levels(5, 0, 0, 3), [1, 1, 1]);
}

/// The text of a log that gives a fresh PWM 0 these and CS 1, before the rest.
fn from_fresh(cnfg: u8, max: u16, cmp: u16, rest: &str) -> String {
    format!(
        "write select 1
        write pwm 0 cnfg {cnfg}
        write pwm 0 max {max}
        write pwm 0 cmp {cmp}
        write pwm 0 cs 1
        {rest}"
    )
}

#[test]
fn a_counter_above_the_top_goes_to_zero() {
    let rest = "ticks 10
        write pwm 0 max 5
        read pwm 0 cntr
        ticks 1
        read pwm 0 cntr
        read pwm 0 level";
    assert_eq!(readings(&from_fresh(4, 100, 50, rest)), [10, 0, 1]);
}

/// The same log of edition 2: on to 65,535, then to 0, and from there by MAX.
#[test]
fn a_counter_above_the_top_runs_on_in_edition_2() {
    let rest = "ticks 10
        write pwm 0 max 5
        ticks 1
        read pwm 0 cntr
        ticks 65524
        read pwm 0 cntr
        read pwm 0 level
        ticks 1
        read pwm 0 cntr
        read pwm 0 level
        ticks 5
        read pwm 0 cntr
        ticks 1
        read pwm 0 cntr";
    let text = in_edition(2, &from_fresh(4, 100, 50, rest));
    assert_eq!(readings(&text), [11, 65_535, 0, 0, 1, 5, 0]);
}

#[test]
fn a_counter_at_the_top_goes_to_zero_in_every_edition() {
    let text = "write select 1
        write pwm 0 cnfg 4
        write pwm 0 max 100
        write pwm 0 cs 1
        ticks 10
        write pwm 0 max 10
        ticks 1
        read pwm 0 cntr";
    for number in [1, 2] {
        assert_eq!(readings(&in_edition(number, text)), [0]);
    }
}

/// CMP is met on the way, where the counter is above MAX, and at 65,535, the last of it.
#[test]
fn a_counter_that_runs_on_arrives_at_cmp() {
    for (cmp, before, steps) in [(13, 2, 1), (65_535, 65_524, 1)] {
        let text = format!(
            "write select 1
            write pwm 0 cnfg 5
            write pwm 0 cmp 5000
            write pwm 0 max 100
            write pwm 0 cs 1
            ticks 10
            write pwm 0 max 3
            write pwm 0 cmp {cmp}
            ticks {before}
            read pwm 0 level
            ticks {steps}
            read pwm 0 cntr
            read pwm 0 level"
        );
        assert_eq!(readings(&in_edition(2, &text)), [0, cmp, 1], "CMP {cmp}");
    }
}

/// Where nothing is above MAX, the two rules are one.
#[test]
fn the_rules_differ_above_max_alone() {
    let mut rng = Rng::new(4);
    for _ in 0..20_000 {
        let start = random_start(&mut rng);
        let ticks = rng.draw() as u32 >> rng.below(32);
        let [to_zero, on] = RULES.map(|runs_on| {
            let mut pwm = start.clone();
            pwm.ticks(ticks, runs_on);
            pwm
        });
        if start.cnfg & 4 == 0 || start.counter <= start.max {
            assert_eq!(to_zero, on, "{ticks} ticks from {start:?}");
        }
    }
}

/// Above MAX in edition 2 is MODE 0's way to 65,535: as many steps, and MAX plays no part.
#[test]
fn above_max_it_is_the_way_of_mode_0() {
    let mut rng = Rng::new(5);
    for _ in 0..20_000 {
        let start = random_start(&mut rng);
        let ticks = rng.below(70_000) as u32;
        let mut plain = Pwm {
            cnfg: 0,
            ..start.clone()
        };
        plain.ticks(ticks, true);
        if start.counter > start.max && plain.counter >= start.counter && ticks < 65_536 {
            let mut pwm = start.clone();
            pwm.ticks(ticks, true);
            assert_eq!(
                (pwm.counter, pwm.remainder),
                (plain.counter, plain.remainder)
            );
        }
    }
}

#[test]
fn mode_0_ignores_max_and_cmp_and_has_no_output() {
    let rest = "ticks 65535
        read pwm 0 cntr
        ticks 1
        read pwm 0 cntr
        read pwm 0 level";
    assert_eq!(readings(&from_fresh(1, 3, 2, rest)), [65_535, 0, 0]);
}

#[test]
fn writing_mode_0_makes_the_output_0_and_mode_1_leaves_it() {
    let rest = "ticks 4
        read pwm 0 level
        write pwm 0 cnfg 5          # INV alone moves nothing
        read pwm 0 level
        write pwm 0 cnfg 1
        read pwm 0 level
        read pwm 0 cntr
        write pwm 0 cnfg 4
        read pwm 0 level";
    assert_eq!(readings(&from_fresh(4, 3, 2, rest)), [1, 1, 0, 0, 0]);
}

#[test]
fn writing_cs_clears_the_remainder_and_other_writes_do_not() {
    for (write, wanted) in [
        ("cs 3", 0),
        ("cs 4", 0),
        ("cnfg 4", 3),
        ("max 9", 3),
        ("cmp 9", 3),
    ] {
        let text = format!(
            "write select 1
            write pwm 0 cs 3
            ticks 7
            write pwm 0 {write}"
        );
        let pwm = &run_text(&text).bank.pwms[0];
        assert_eq!((pwm.counter, pwm.remainder), (1, wanted), "{write}");
    }
}

#[test]
fn every_divider() {
    for (cs, n) in (1..=7).zip([1, 2, 4, 8, 16, 32, 64]) {
        let text = format!(
            "write select 0x4000000000
            write pwm 19 cs {cs}
            ticks {}
            read pwm 19 cntr
            ticks 1
            read pwm 19 cntr",
            3 * n - 1
        );
        assert_eq!(readings(&text), [2, 3], "CS {cs}");
    }
}

#[test]
fn off_and_unrouted_channels_stand_still() {
    let text = "write select 5
        write pwm 0 cs 2
        write pwm 1 cs 0
        ticks 3
        write select 4
        ticks 100
        write select 5";
    let bank = run_text(text).bank;
    assert_eq!((bank.pwms[0].counter, bank.pwms[0].remainder), (1, 1));
    assert_eq!((bank.pwms[1].counter, bank.pwms[1].remainder), (0, 0));
}

#[test]
fn twenty_channels_tick_by_themselves() {
    let mut text = String::from("write select 0x5555555555\n");
    for channel in 0..20 {
        text += &format!("write pwm {channel} cs {}\n", channel % 8);
    }
    text += "ticks 640\n";
    for (channel, pwm) in run_text(&text).bank.pwms.iter().enumerate() {
        let wanted = [0, 640, 320, 160, 80, 40, 20, 10][channel % 8];
        assert_eq!(pwm.counter, wanted, "PWM {channel}");
    }
}
