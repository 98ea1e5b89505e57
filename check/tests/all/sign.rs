//! The sign: stretches, and what they settle, against all motions that fit.

use crate::common::{assert_comes_up, in_edition, log};
use rivandoze_check::cases::{Size, SIGN_FAMILIES};
use rivandoze_check::generate::Rng;
use rivandoze_check::packed;
use rivandoze_check::reference::log::{build, Log};
use rivandoze_check::reference::record::Fields;
use rivandoze_check::reference::sign::{sign, Stretch, Way};
use rivandoze_check::reference::{Device, Edition};
use std::collections::BTreeSet;

fn stretches(edition: u16, text: &str) -> Vec<Stretch> {
    sign(&log(&in_edition(edition, text)), usize::MAX).2
}

/// Where a shaft's pins are on their round: A leads when it goes forward, 00, 10, 11, 01.
fn phase(pins: u8) -> i64 {
    match (pins & 1, pins >> 1) {
        (0, 0) => 0,
        (1, 0) => 1,
        (1, 1) => 2,
        _ => 3,
    }
}

/// The travels of all motions that fit the pins, with at most two quarter-steps from one record to the next.
fn travels(walk: &[u8]) -> BTreeSet<i64> {
    let mut ends: BTreeSet<i64> = BTreeSet::from([phase(walk[0])]);
    for &pins in &walk[1..] {
        let moved = ends
            .iter()
            .flat_map(|at| (-2..=2).map(move |move_| at + move_));
        ends = moved.filter(|at| at.rem_euclid(4) == phase(pins)).collect();
    }
    ends.into_iter().map(|end| end - phase(walk[0])).collect()
}

fn log_of_walk(walk: &[u8]) -> Vec<u8> {
    let mut records = vec![Fields::write(0, 0, 0, 10), Fields::write(1, 0, 0, 1)];
    records.extend(walk.iter().map(|&pins| Fields::pins(0, pins.into())));
    let bytes: Vec<_> = records.iter().map(|fields| fields.to_bytes()).collect();
    build(Edition::One, &[], &bytes)
}

/// The verdict on a walk is what all motions that fit it say: forward if each goes forward, still if each ends where
/// it began, open if two go different ways.
fn assert_verdict(walk: &[u8]) -> Way {
    let (refusal, applied, stretches) = sign(&log_of_walk(walk), usize::MAX);
    assert_eq!((refusal, applied), (0, 2 + walk.len() as u64));
    let stretch = match stretches[..] {
        [stretch] => stretch,
        _ => panic!("{walk:?}: {stretches:?}"),
    };
    let travels = travels(walk);
    let ways: BTreeSet<i64> = travels.iter().map(|travel| travel.signum()).collect();
    let wanted = match (ways.len(), ways.iter().next()) {
        (1, Some(1)) => Way::Forward,
        (1, Some(-1)) => Way::Backward,
        (1, _) => Way::Still,
        _ => Way::Open,
    };
    assert_eq!(stretch.way(), wanted, "{walk:?}");
    // Every travel is S less a gap of -2d, -2d + 4, .., 2d.
    let doubles = stretch.doubles as i64;
    let gaps: BTreeSet<i64> = (0..=doubles).map(|turn| 4 * turn - 2 * doubles).collect();
    let of_gaps: BTreeSet<i64> = gaps.iter().map(|gap| stretch.steps - gap).collect();
    assert_eq!(travels, of_gaps, "{walk:?}");
    wanted
}

#[test]
fn verdicts_are_what_all_motions_say() {
    let mut met = BTreeSet::new();
    for len in 1..=6 {
        for number in 0..4_u32.pow(len) {
            let walk: Vec<u8> = (0..len)
                .map(|step| (number >> (2 * step) & 3) as u8)
                .collect();
            met.insert(assert_verdict(&walk) as u8);
        }
    }
    let mut rng = Rng::new(9);
    for _ in 0..3_000 {
        let mut pins = rng.below(4) as u8;
        let (doubles, forward) = (rng.pick(&[0, 5, 30]), rng.pick(&[20, 50, 95]));
        let walk = (0..rng.between(1, 40)).map(|_| {
            pins = match rng.below(100) {
                few if few < doubles => pins ^ 3,
                _ if rng.chance(10) => pins,
                _ if rng.chance(forward) => [1, 3, 0, 2][usize::from(pins)],
                _ => [2, 0, 3, 1][usize::from(pins)],
            };
            pins
        });
        let walk: Vec<u8> = walk.collect();
        met.insert(assert_verdict(&walk) as u8);
    }
    assert_eq!(met, BTreeSet::from([0, 1, 2, 3]));
}

/// S is what the count moves by from just after the first record to just after the last.
#[test]
fn steps_are_what_the_count_moves_by() {
    let mut seen = 0;
    for request in SIGN_FAMILIES
        .iter()
        .flat_map(|family| family.requests(5, Size::Short))
    {
        let opened = match Log::open(&request.log) {
            Ok(opened) => opened,
            Err(_) => continue,
        };
        let (_, applied, stretches) = sign(&request.log, usize::MAX);
        let mut device = Device::fresh(opened.edition);
        let all: Vec<Fields> = opened.records().map(Fields::from_bytes).collect();
        let mut counts = Vec::new();
        for record in &all[..applied as usize] {
            device.apply(record).expect("applied");
            counts.push(
                device
                    .banks
                    .clone()
                    .map(|bank| bank.encoders.map(|one| one.count)),
            );
        }
        for stretch in stretches {
            let count = |at: u32| {
                let of_bank = counts[at as usize][usize::from(stretch.bank)];
                i64::from(of_bank[usize::from(stretch.encoder)])
            };
            assert_eq!(count(stretch.last) - count(stretch.first), stretch.steps);
            assert!(stretch.first <= stretch.last && u64::from(stretch.last) < applied);
            seen += 1;
        }
    }
    assert!(seen > 15_000, "{seen}");
}

/// Cut by what resets, reconfigures or reroutes it, and by nothing else.
#[test]
fn stretches_of_a_log() {
    let text = "write select 0xAA
        bank 1 write select 0xAA
        write encoder 0 cnfg 3
        pins encoder 0 0
        write encoder 0 cnfg 1
        pins encoder 0 1
        pins encoder 0 3
        write encoder 0 cnfg 25
        bank 1 write encoder 0 cnfg 1
        bank 1 pins encoder 0 0
        write select 0xA
        bank 1 write select 0
        pins encoder 0 2
        pins encoder 0 1
        write encoder 0 cnfg 3
        write encoder 0 cnfg 1
        pins encoder 0 3
        pins encoder 0 3
        pins encoder 9 0";
    let found = sign(&log(&in_edition(2, text)), usize::MAX);
    let [first, other, last] = match found.2[..] {
        [first, other, last] => [first, other, last],
        _ => panic!("{found:?}"),
    };
    assert_eq!((found.0, found.1), (9, 18));
    assert_eq!(
        (first.bank, first.encoder, first.first, first.last),
        (0, 0, 5, 13)
    );
    assert_eq!(
        (first.pins, first.steps, first.doubles, first.way()),
        (4, 2, 1, Way::Open)
    );
    assert_eq!(
        (other.bank, other.first, other.last, other.pins),
        (1, 9, 9, 1)
    );
    assert_eq!(other.way(), Way::Still);
    assert_eq!(
        (last.first, last.last, last.pins, last.way()),
        (16, 17, 2, Way::Still)
    );
    assert_eq!(
        stretches(
            2,
            "write select 0xA\nwrite encoder 0 cnfg 5\npins encoder 0 1"
        ),
        []
    );
    assert_eq!(stretches(4, "write select 0x20\npins encoder 0 1"), []);
}

#[test]
fn an_entry_byte_by_byte() {
    let text = "write select 0xA
        write encoder 0 cnfg 1
        pins encoder 0 0
        pins encoder 0 2
        ticks 1
        pins encoder 0 1";
    let mut out = [0xEE; 100];
    assert_eq!(packed::sign(&log(text), &mut out[..95]), 6);
    assert_eq!(out, [0xEE; 100]);
    assert_eq!(packed::sign(&log(text), &mut out), 1 << 8);
    assert_eq!(out[..8], [0, 0, 0, 0, 2, 0, 0, 0]);
    assert_eq!(out[8..16], [5, 0, 0, 0, 3, 0, 0, 0]);
    assert_eq!(out[16..24], [0xFF; 8]);
    assert_eq!(out[24..32], [1, 0, 0, 0, 0, 0, 0, 0]);
    assert_eq!(out[32..], [0xEE; 68]);
}

#[test]
fn every_answer_and_every_place_of_the_sign_comes_up() {
    assert_comes_up(SIGN_FAMILIES, (0..=11).chain([16, 18]));
}
