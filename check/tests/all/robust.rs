//! Any bytes at all: replay answers, and what it answers is consistent.

use crate::common::{run, UNTOUCHED};
use rivandoze_check::generate::{damage, generate, splice, Rng, Settings};
use rivandoze_check::reference::edition::EDITIONS;
use rivandoze_check::reference::log::{build, records, Log};
use rivandoze_check::reference::record::RECORD_LEN;
use rivandoze_check::reference::replay;

/// What holds for every byte string, whatever is in it.
fn assert_consistent(log: &[u8]) {
    let outcome = run(log);
    assert!(outcome.refusal <= 11 || [16, 18].contains(&outcome.refusal));
    match Log::open(log) {
        Err(refusal) => {
            assert!((1..=5).contains(&refusal));
            assert_eq!((outcome.refusal, outcome.applied), (refusal, 0));
            assert!(outcome.readings.is_empty());
        }
        Ok(log) => {
            let all: Vec<[u8; RECORD_LEN]> = log.records().copied().collect();
            // The output is long enough here, so 6 does not come up.
            assert!(outcome.refusal == 0 || outcome.refusal >= 7);
            let applied = &all[..outcome.applied as usize];
            assert_eq!(applied.len() == all.len(), outcome.refusal == 0);
            let alone = run(&build(log.edition, &[], applied));
            assert_eq!(alone.refusal, 0);
            assert_eq!(alone.readings, outcome.readings);
            assert_eq!(alone.bank, outcome.bank);
            assert_eq!(alone.bank_b, outcome.bank_b);
        }
    }
}

fn short_settings() -> Settings {
    Settings {
        most_records: 24,
        ..Settings::default()
    }
}

#[test]
fn random_bytes() {
    let mut rng = Rng::new(11);
    for _ in 0..5_000 {
        let len = rng.below(400);
        let bytes: Vec<u8> = (0..len).map(|_| rng.draw() as u8).collect();
        assert_consistent(&bytes);
    }
}

#[test]
fn random_records() {
    let mut rng = Rng::new(12);
    for _ in 0..5_000 {
        // Small numbers, so that some records are good ones.
        let records: Vec<[u8; 16]> = (0..rng.below(8))
            .map(|_| {
                let mut record = [0; 16];
                record[..4].fill_with(|| rng.below(4) as u8);
                record[4] = rng.below(2) as u8;
                record[8] = rng.below(12) as u8;
                if rng.chance(10) {
                    record[rng.below(16) as usize] = rng.draw() as u8;
                }
                record
            })
            .collect();
        assert_consistent(&build(rng.pick(&EDITIONS), &[], &records));
    }
}

#[test]
fn every_truncation_at_both_ends() {
    for seed in 0..20 {
        let log = generate(seed, &short_settings());
        for len in 0..=log.len() {
            assert_consistent(&log[..len]);
            assert_consistent(&log[log.len() - len..]);
        }
    }
}

#[test]
fn every_change_of_one_byte() {
    let log = (0..)
        .map(|seed| generate(seed, &short_settings()))
        .find(|log| (300..400).contains(&log.len()) && run(log).refusal == 0);
    let log = log.expect("the seeds go on until there is one");
    let mut changed = log.clone();
    for index in 0..log.len() {
        for byte in 0..=u8::MAX {
            changed[index] = byte;
            assert_consistent(&changed);
        }
        changed[index] = log[index];
    }
}

#[test]
fn damaged_logs() {
    let mut rng = Rng::new(13);
    for seed in 0..1_500 {
        let log = generate(seed, &short_settings());
        assert_consistent(&log);
        let mut damaged = damage(&log, &mut rng);
        assert_consistent(&damaged);
        damaged = damage(&damaged, &mut rng);
        assert_consistent(&damaged);
        let other = generate(seed + 1, &short_settings());
        assert_consistent(&splice(&log, &other, &mut rng));
    }
}

#[test]
fn any_length_of_output() {
    let mut rng = Rng::new(14);
    for seed in 0..300 {
        let log = generate(seed, &short_settings());
        let all = records(&log).expect("a made log has a good trailer");
        let reads = all.filter(|record| record[0] == 2).count();
        let full = run(&log);
        let len = rng.below(8 * reads as u64 + 17) as usize;
        let mut out = vec![UNTOUCHED; len];
        let answer = replay(&log, &mut out);
        if len < 8 * reads {
            assert_eq!((answer.refusal, answer.applied), (6, 0));
            assert!(out.iter().all(|&byte| byte == UNTOUCHED));
        } else {
            assert_eq!(
                (answer.refusal, answer.applied),
                (full.refusal, full.applied)
            );
            let mut wanted = vec![UNTOUCHED; len];
            for (slot, reading) in wanted.chunks_exact_mut(8).zip(&full.readings) {
                slot.copy_from_slice(&reading.to_le_bytes());
            }
            assert_eq!(out, wanted);
        }
    }
}

#[test]
fn notes_are_ignored() {
    let mut rng = Rng::new(15);
    for seed in 0..200 {
        let log = generate(seed, &short_settings());
        let len = rng.below(50);
        let notes: Vec<u8> = (0..len).map(|_| rng.draw() as u8).collect();
        assert_eq!(run(&[notes, log.clone()].concat()), run(&log));
    }
}
