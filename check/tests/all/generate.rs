//! The maker of logs keeps its promises and reaches what it is for.

use crate::common::run;
use rivandoze_check::generate::{
    change_bytes, flip_bits, generate, generate_with, near_miss_trailer, splice, truncate, Rng,
    Settings, FAULTS,
};
use rivandoze_check::reference::edition::Rules;
use rivandoze_check::reference::encoder::{DIR, EN, ERR, MODE, UOERR, UOVR};
use rivandoze_check::reference::i2c;
use rivandoze_check::reference::log::{records, Log, LOG_MAX};
use rivandoze_check::reference::pwm::Pwm;
use rivandoze_check::reference::record::{Fields, ANSWER, I2C, SELECT, TICKS, WRITE};
use rivandoze_check::reference::{Bank, Device, Edition, EDITIONS};
use std::collections::BTreeSet;

fn settings(refused_percent: u64) -> Settings {
    Settings {
        refused_percent,
        ..Settings::default()
    }
}

#[test]
fn a_log_has_the_edition_that_is_asked_for() {
    let made = |edition, seed| {
        let log = generate(
            seed,
            &Settings {
                edition,
                ..settings(0)
            },
        );
        Log::open(&log).expect("a made log").edition
    };
    for edition in EDITIONS {
        assert!((0..50).all(|seed| made(Some(edition), seed) == edition));
    }
    let any: BTreeSet<Edition> = (0..50).map(|seed| made(None, seed)).collect();
    assert_eq!(any, BTreeSet::from(EDITIONS));
}

#[test]
fn the_same_seed_makes_the_same_log() {
    let settings = Settings::default();
    for seed in 0..20 {
        assert_eq!(generate(seed, &settings), generate(seed, &settings));
    }
    assert_ne!(generate(1, &settings), generate(2, &settings));
}

#[test]
fn logs_without_a_fault_are_not_refused() {
    let mut longest = 0;
    for seed in 0..400 {
        let settings = Settings {
            most_ticks: if seed % 4 == 0 { u64::MAX } else { 300 },
            ..settings(0)
        };
        let log = generate(seed, &settings);
        assert!(log.len() <= LOG_MAX);
        let run = run(&log);
        assert_eq!(run.refusal, 0, "seed {seed} record {}", run.applied);
        longest = longest.max(run.applied);
    }
    assert!(longest > 2_000);
}

#[test]
fn each_fault_is_refused_as_it_says() {
    let short = Settings {
        most_records: 40,
        ..Settings::default()
    };
    for fault in FAULTS {
        for seed in 0..60 {
            let log = generate_with(seed, &short, *fault);
            let run = run(&log);
            assert_eq!(run.refusal, fault.refusal, "{} seed {seed}", fault.name);
        }
    }
    let refusals: BTreeSet<u8> = FAULTS.iter().map(|fault| fault.refusal).collect();
    assert_eq!(refusals, BTreeSet::from([7, 8, 9, 10, 11, 16, 18]));
}

#[test]
fn a_fault_fits_into_the_longest_logs() {
    for seed in 0..100 {
        for fault in FAULTS.iter().step_by(7) {
            let log = generate_with(seed, &Settings::default(), *fault);
            assert!(log.len() <= LOG_MAX);
            assert_eq!(run(&log).refusal, fault.refusal);
        }
    }
}

#[test]
fn the_share_of_refused_logs_is_kept() {
    let refused = |percent| {
        let settings = Settings {
            most_records: 10,
            ..settings(percent)
        };
        (0..400)
            .filter(|&seed| run(&generate(seed, &settings)).refusal != 0)
            .count()
    };
    assert_eq!(refused(0), 0);
    assert_eq!(refused(100), 400);
    assert!((70..130).contains(&refused(25)));
}

#[test]
fn waits_keep_to_their_longest() {
    for most_ticks in [0, 300, 70_000, u64::from(u32::MAX)] {
        let settings = Settings {
            most_ticks,
            ..settings(0)
        };
        let mut longest = 0;
        for seed in 0..30 {
            let log = generate(seed, &settings);
            for bytes in records(&log).expect("a made log has a good trailer") {
                let record = Fields::from_bytes(bytes);
                if record.kind == TICKS {
                    longest = longest.max(record.value);
                }
            }
        }
        assert!(longest <= most_ticks);
        assert!(longest * 10 >= most_ticks * 9);
    }
}

/// What was met on the way through some logs.
#[derive(Default)]
struct Met {
    neighbours_in_both: usize,
    stat: u8,
    stat_in_mode_1: u8,
    counts: BTreeSet<i32>,
    dividers_stepping: BTreeSet<u8>,
    pwm_cnfg: BTreeSet<u8>,
    /// State, what is recalled, R/S and code.
    i2c: BTreeSet<(u8, bool, u8, u8)>,
    /// The answer, if it was told, R/S and code, and what failed.
    answers: BTreeSet<(Option<u8>, u8, u8, u8)>,
    answers_replaced: usize,
    reads: BTreeSet<(u8, u8, u8)>,
    counter_above_top: bool,
    runs: BTreeSet<Run>,
    wrapped_at_max: BTreeSet<u16>,
    cmp_edges: BTreeSet<&'static str>,
    pins_seen_again: bool,
    /// What SPI's pins are used for: all or nothing, or of a port its two bits.
    spi: BTreeSet<u64>,
    selects: BTreeSet<u64>,
}

/// How a wait goes on from a counter above MAX that runs on: where it ends, and whether it passes CMP above
/// MAX.
#[derive(Debug, Clone, Copy, PartialEq, Eq, PartialOrd, Ord)]
enum Run {
    Above { passes_cmp: bool },
    AtLast { passes_cmp: bool },
    AtZero,
    InTheFirstRound,
    LaterOn,
}

/// The way of a wait, if the counter was above MAX and has moved.
fn run_on(old: &Pwm, new: &Pwm, ticks: u64) -> Option<Run> {
    if old.cnfg & 4 == 0 || old.counter <= old.max || old.counter == new.counter {
        return None;
    }
    let steps = (u64::from(old.remainder) + ticks) >> (old.cs - 1);
    let to_zero = 65_536 - u64::from(old.counter);
    let passes_cmp = old.counter < old.cmp && old.cmp <= new.counter;
    Some(match steps.checked_sub(to_zero) {
        None if new.counter == u16::MAX => Run::AtLast { passes_cmp },
        None => Run::Above { passes_cmp },
        Some(0) => Run::AtZero,
        Some(left) if left <= old.max.into() => Run::InTheFirstRound,
        Some(_) => Run::LaterOn,
    })
}

impl Met {
    fn record(&mut self, rules: Rules, before: &Bank, fields: Fields, after: &Bank) {
        if fields.kind == 2 {
            self.reads
                .insert((fields.block, fields.channel, fields.register));
        }
        for encoder in &after.encoders {
            self.stat |= encoder.stat;
            if encoder.cnfg & MODE != 0 && encoder.cnfg & EN != 0 {
                self.stat_in_mode_1 |= encoder.stat;
            }
            self.counts.insert(encoder.count);
        }
        for (old, new) in before.pwms.iter().zip(&after.pwms) {
            self.pwm_cnfg.insert(new.cnfg);
            if rules.runs_on && fields.kind == TICKS {
                self.runs.extend(run_on(old, new, fields.value));
            }
            if new.cnfg & 4 == 0 {
                continue;
            }
            self.counter_above_top |= new.counter > new.max;
            if old.counter != new.counter {
                self.dividers_stepping.insert(new.cs);
                if old.counter > new.counter {
                    self.wrapped_at_max.insert(new.max);
                }
                self.cmp_edges.insert(match new.cmp {
                    0 => "zero",
                    u16::MAX => "most",
                    cmp if cmp == new.max => "equal",
                    cmp if cmp > new.max => "above",
                    _ => "below",
                });
            }
        }
        let written = (fields.kind == WRITE).then(|| fields.place());
        if written == Some((I2C, 0, i2c::GO)) {
            let i2c = &before.i2c;
            let (receive, cntl) = (i2c.addr & 1, i2c.cntl);
            self.i2c
                .insert((i2c.state as u8, i2c.acknowledged, receive, cntl));
            let failed = after.i2c.failure as u8;
            self.answers.insert((i2c.answer, receive, cntl, failed));
        }
        let replaces = fields.kind == ANSWER && before.i2c.answer.is_some();
        self.answers_replaced += usize::from(replaces);
        if written == Some((SELECT, 0, 0)) {
            let pairs = before.encoders.iter().zip(&after.encoders);
            self.pins_seen_again |= pairs
                .into_iter()
                .any(|(old, new)| old.seen.is_some() && new.seen.is_none());
            let value = after.select.value;
            self.spi.insert(if rules.port {
                value & 3
            } else {
                u64::from(value >> 10 & 0x3F == 0x3F)
            });
            self.selects.insert(value);
        }
    }
}

/// What was met in a bank, by logs of an edition.
fn met(edition: Edition, bank: u8) -> Met {
    let mut met = Met::default();
    let settings = Settings {
        edition: Some(edition),
        ..settings(0)
    };
    for seed in 0..300 {
        let log = generate(seed, &settings);
        let log = Log::open(&log).expect("a made log has a good trailer");
        let mut device = Device::fresh(edition);
        let mut last = 0;
        for bytes in log.records() {
            let fields = Fields::from_bytes(bytes);
            let before = device.banks[usize::from(bank)].clone();
            device.apply(&fields).expect("a log without a fault");
            met.neighbours_in_both += usize::from(fields.bank != last);
            last = fields.bank;
            if fields.bank == bank || fields.kind == TICKS {
                let after = &device.banks[usize::from(bank)];
                met.record(device.rules, &before, fields, after);
            }
        }
    }
    met
}

#[test]
fn deep_states_are_reached() {
    for edition in EDITIONS {
        let banks = if edition == Edition::One { 0..1 } else { 0..2 };
        for bank in banks {
            let met = met(edition, bank);
            println!("edition {edition:?}, bank {bank}");
            assert_eq!(met.neighbours_in_both > 1_000, edition != Edition::One);
            assert_reaches_deep(met, edition);
        }
    }
}

fn assert_reaches_deep(met: Met, edition: Edition) {
    let rules = edition.rules();
    assert_eq!(met.stat, DIR | ERR | UOVR | UOERR);
    let in_mode_1 = met.stat_in_mode_1 & (UOVR | UOERR);
    let gone = edition == Edition::Three;
    assert_eq!(in_mode_1, if gone { 0 } else { UOVR | UOERR });
    for count in -20..20 {
        assert!(met.counts.contains(&count), "count {count}");
    }
    assert_eq!(met.dividers_stepping.len(), 7);
    assert_eq!(met.pwm_cnfg.into_iter().collect::<Vec<u8>>(), [0, 1, 4, 5]);
    // All that is allowed after a byte that was not acknowledged, and in RX idle after one that was.
    assert_eq!(met.i2c.len(), 36 + 10);
    let of_i2c = if rules.slaves_answer { 4 } else { 3 };
    let reads = 1 + rules.encoders * 3 + rules.pwms * 6 + of_i2c;
    assert_eq!(met.reads.len(), reads);
    // Each of the 18 that are allowed somewhere, without an answer and with each.
    let answers = if rules.slaves_answer { 5 } else { 1 };
    assert!(
        met.answers.len() >= 18 * answers - 1,
        "{}",
        met.answers.len()
    );
    assert_eq!(met.answers_replaced > 20, rules.slaves_answer);
    assert!(met.counter_above_top);
    let runs = if rules.runs_on { 7 } else { 0 };
    assert_eq!(met.runs.len(), runs, "{:?}", met.runs);
    assert!(met.wrapped_at_max.contains(&0) || met.wrapped_at_max.contains(&1));
    assert_eq!(met.cmp_edges.len(), 5);
    assert!(met.pins_seen_again);
    assert_eq!(met.spi.len(), if rules.port { 4 } else { 2 });
    if rules.port {
        // Of 128 bytes without the reserved bit.
        assert!(met.selects.len() > 90, "{}", met.selects.len());
    }
}

#[test]
fn damage_is_of_its_kind() {
    let mut rng = Rng::new(41);
    let mut trailer_refusals = BTreeSet::new();
    for seed in 0..500 {
        let log = generate(seed, &settings(0));
        let flipped = flip_bits(&log, &mut rng);
        assert_eq!(flipped.len(), log.len());
        assert!((0..=4).contains(&crate::common::bits_apart(&log, &flipped)));
        let changed = change_bytes(&log, &mut rng);
        let differing = log.iter().zip(&changed).filter(|(a, b)| a != b).count();
        assert!(changed.len() == log.len() && differing <= 4);
        let cut = truncate(&log, &mut rng);
        assert!(log.starts_with(&cut));
        let spliced = splice(&log, &cut, &mut rng);
        assert!(spliced.len() <= log.len() + cut.len());
        let near = near_miss_trailer(&log, &mut rng);
        assert_eq!(near[..near.len() - 8], log[..log.len() - 8]);
        trailer_refusals.insert(run(&near).refusal);
    }
    for refusal in [0, 3, 4, 5] {
        assert!(trailer_refusals.contains(&refusal), "refusal {refusal}");
    }
    assert_eq!(flip_bits(&[], &mut rng), []);
    assert_eq!(near_miss_trailer(&[1, 2], &mut rng), [1, 2]);
}
