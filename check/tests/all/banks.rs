//! Two banks in a log: each by itself, on one clock.

use crate::common::{in_edition, log, readings, run, run_text};
use rivandoze_check::generate::{generate, Settings};
use rivandoze_check::reference::log::{build, Log};
use rivandoze_check::reference::record::{Fields, RECORD_LEN, TICKS};
use rivandoze_check::reference::{Bank, Device, Edition};

fn made(seed: u64) -> Vec<u8> {
    let settings = Settings {
        edition: Some(Edition::Two),
        refused_percent: 0,
        ..Settings::default()
    };
    generate(seed, &settings)
}

fn records(log: &[u8]) -> Vec<Fields> {
    let log = Log::open(log).expect("a made log has a good trailer");
    log.records().map(Fields::from_bytes).collect()
}

fn log_of(edition: Edition, records: &[Fields]) -> Vec<u8> {
    let bytes: Vec<[u8; RECORD_LEN]> = records.iter().map(|fields| fields.to_bytes()).collect();
    build(edition, &[], &bytes)
}

#[test]
fn a_record_for_one_bank_changes_nothing_in_the_other() {
    let (mut changed, mut ticks) = ([0, 0], 0);
    for seed in 0..40 {
        let mut device = Device::fresh(Edition::Two);
        for fields in records(&made(seed)) {
            let before = device.banks.clone();
            device.apply(&fields).expect("a log without a fault");
            let differs = [0, 1].map(|bank| device.banks[bank] != before[bank]);
            if fields.kind == TICKS {
                ticks += usize::from(differs == [true, true]);
                continue;
            }
            let at = usize::from(fields.bank);
            assert!(!differs[1 - at], "{fields:?}");
            changed[at] += usize::from(differs[at]);
        }
    }
    assert!(changed.iter().all(|&number| number > 1_000) && ticks > 100);
}

/// A bank of a log ends as the only bank of the log without the other's records, and reads the same.
#[test]
fn each_bank_is_as_if_it_were_alone() {
    for seed in 0..60 {
        let all = records(&made(seed));
        let whole = run(&log_of(Edition::Two, &all));
        let mut of_bank = all
            .iter()
            .filter(|fields| fields.kind == 2)
            .map(|fields| fields.bank);
        let mut readings = [Vec::new(), Vec::new()];
        for reading in whole.readings {
            let bank = of_bank.next().expect("a read for each reading");
            readings[usize::from(bank)].push(reading);
        }
        for (bank, wanted) in [(0, whole.bank), (1, whole.bank_b)] {
            let own = all
                .iter()
                .filter(|fields| fields.bank == bank || fields.kind == TICKS);
            let own: Vec<Fields> = own.map(|fields| fields.in_bank(0)).collect();
            let alone = run(&log_of(Edition::Two, &own));
            assert_eq!((alone.refusal, alone.bank), (0, wanted), "bank {bank}");
            assert_eq!(alone.readings, readings[usize::from(bank)]);
            assert_eq!(alone.bank_b, Bank::default());
        }
    }
}

/// Without bank B, and with no counter above MAX, an edition 2 log is one of edition 1.
#[test]
fn bank_b_unused_is_edition_1() {
    let settings = Settings {
        edition: Some(Edition::One),
        most_ticks: 0,
        ..Settings::default()
    };
    for seed in 0..100 {
        let one = generate(seed, &settings);
        let mut two = one.clone();
        let edition = two.len() - 4;
        two[edition] = 2;
        assert_eq!(run(&one), run(&two), "seed {seed}");
    }
}

#[test]
fn the_same_channel_of_both() {
    let text = "write select 0xA
        bank 1 write select 0xA
        write encoder 0 cnfg 1
        bank 1 write encoder 0 cnfg 1
        pins encoder 0 0
        bank 1 pins encoder 0 0
        pins encoder 0 1
        bank 1 pins encoder 0 2
        read encoder 0 cntr
        bank 1 read encoder 0 cntr
        read encoder 0 stat
        bank 1 read encoder 0 stat";
    let wanted = [1, 4_294_967_295, 0, 5];
    assert_eq!(readings(&in_edition(2, text)), wanted);
}

#[test]
fn one_clock_drives_both() {
    let text = "write select 1
        bank 1 write select 1
        write pwm 0 cs 1
        bank 1 write pwm 0 cs 2
        ticks 7
        read pwm 0 cntr
        bank 1 read pwm 0 cntr";
    assert_eq!(readings(&in_edition(2, text)), [7, 3]);
}

/// Routed, and so rerouted, by the bank's own SELECT.
#[test]
fn routing_is_by_its_own_select() {
    let refusal = |text: &str| run_text(&in_edition(2, text)).refusal;
    assert_eq!(
        refusal("write select 0xA\nbank 1 write encoder 0 cnfg 1"),
        9
    );
    assert_eq!(
        refusal("bank 1 write select 0xA\nwrite encoder 0 cnfg 1"),
        9
    );
    assert_eq!(
        refusal("bank 1 write select 0xA\nbank 1 write encoder 0 cnfg 1"),
        0
    );
    assert_eq!(refusal("bank 1 write select 1\nbank 1 write pwm 0 cs 1"), 0);
    assert_eq!(refusal("write select 1\nbank 1 write pwm 0 cs 1"), 9);
    assert_eq!(
        refusal("bank 1 write select 0xF0000000\nwrite i2c addr 1"),
        9
    );
    assert_eq!(refusal("bank 1 write select 3"), 10);
    let text = "write select 0xA
        write encoder 0 cnfg 1
        pins encoder 0 0
        bank 1 write select 0xA
        bank 1 write select 0
        bank 1 write select 0xA
        pins encoder 0 1
        read encoder 0 cntr
        bank 1 read select";
    assert_eq!(readings(&in_edition(2, text)), [1, 10]);
}

#[test]
fn an_unrouted_channel_of_bank_b_stands_still() {
    let text = "bank 1 write select 1
        bank 1 write pwm 0 cs 1
        ticks 5
        bank 1 write select 0
        ticks 5
        bank 1 read pwm 0 cntr
        bank 1 write select 1
        ticks 1
        bank 1 read pwm 0 cntr";
    assert_eq!(readings(&in_edition(2, text)), [5, 6]);
}

/// Every byte 4 with a record of each kind: edition 1 has no bank but 0, edition 2 has 0 and 1, and ticks
/// have none but 0.
#[test]
fn every_byte_for_the_bank() {
    let before = "write select 0xA\nbank 1 write select 0xA\n";
    for bank in 0..=u8::MAX {
        for line in [
            "write select 0xA",
            "read encoder 3 cntr",
            "pins encoder 0 1",
            "ticks 1",
        ] {
            let in_2 = in_edition(2, &format!("{before}bank {bank} {line}"));
            let most = if line == "ticks 1" { 0 } else { 1 };
            let wanted = if bank <= most { (0, 3) } else { (7, 2) };
            let run_2 = run_text(&in_2);
            assert_eq!((run_2.refusal, run_2.applied), wanted, "bank {bank} {line}");
            let in_1 = format!("write select 0xA\nbank {bank} {line}");
            let wanted = if bank == 0 { (0, 2) } else { (7, 1) };
            let run_1 = run_text(&in_1);
            assert_eq!((run_1.refusal, run_1.applied), wanted, "bank {bank} {line}");
        }
    }
}

#[test]
fn the_other_three_bytes_stay_reserved() {
    let good = log(&in_edition(2, "bank 1 write select 0xA"));
    assert_eq!(run(&good).refusal, 0);
    for index in 5..8 {
        for byte in 1..=u8::MAX {
            let mut bad = good.clone();
            bad[index] = byte;
            assert_eq!(run(&bad).refusal, 7, "byte {index} {byte}");
        }
    }
}

/// 7 for the bank comes before the value, the routing and the rest.
#[test]
fn the_bank_is_tested_first() {
    let refusal = |text: &str| run_text(&in_edition(2, text)).refusal;
    assert_eq!(refusal("bank 2 write encoder 0 cnfg 99"), 7);
    assert_eq!(refusal("bank 1 write encoder 0 cnfg 99"), 8);
    assert_eq!(refusal("bank 1 write encoder 0 cnfg 1"), 9);
    assert_eq!(refusal("bank 1 ticks 4294967296"), 7);
    assert_eq!(refusal("ticks 4294967296"), 8);
}
