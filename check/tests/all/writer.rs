//! The writer, and that it and the reader of logs go together.

use crate::common::{assert_comes_up, in_edition, log, run};
use rivandoze_check::cases::{reads_back, Size, WRITE_FAMILIES};
use rivandoze_check::generate::{generate, Settings};
use rivandoze_check::packed;
use rivandoze_check::reference::device::Device;
use rivandoze_check::reference::edition::Edition;
use rivandoze_check::reference::log::{each_record, Log, LOG_MAX};
use rivandoze_check::reference::record::Fields;
use rivandoze_check::reference::writer::{write, Unwritten};

const TICKS: [u8; 16] = [4, 0, 0, 0, 0, 0, 0, 0, 7, 0, 0, 0, 0, 0, 0, 0];
const NO_KIND: [u8; 16] = [0; 16];
const TOO_MUCH: [u8; 16] = [3, 1, 0, 0, 0, 0, 0, 0, 4, 0, 0, 0, 0, 0, 0, 0];

/// Notes of two bytes and one record, in edition 3: the distance is 16, whatever the notes are.
#[test]
fn one_whole_log() {
    let mut out = [0xEE; 30];
    let word = packed::write(3, b"ab", &TICKS, &mut out);
    assert_eq!(word, 26 << 8);
    assert_eq!(out[..2], *b"ab");
    assert_eq!(out[2..18], TICKS);
    assert_eq!(out[18..26], [16, 0, 0, 0, 3, 0, 0x51, 0x4D]);
    assert_eq!(out[26..], [0xEE; 4]);
}

#[test]
fn the_bare_trailer() {
    let log = write(1, &[], &[]).map(|log| log.to_vec());
    assert_eq!(log, Ok(vec![0, 0, 0, 0, 1, 0, 0x51, 0x4D]));
}

/// 4, 5, then 7 or 8 with the index of the first such record, 1, 6; and nothing is written.
#[test]
fn refusals_in_their_order() {
    let bad = [TICKS, NO_KIND, TOO_MUCH].concat();
    let long = vec![0; LOG_MAX];
    let word = |edition, notes: &[u8], records: &[u8], room| {
        let mut out = vec![0xEE; room];
        let word = packed::write(edition, notes, records, &mut out);
        assert!(word & 0xFF == 0 || out.iter().all(|&byte| byte == 0xEE));
        word
    };
    for edition in [0, 5, 257, 65_537, 1 << 32 | 1, u64::MAX] {
        assert_eq!(word(edition, &long, &bad[1..], 0), 4);
    }
    assert_eq!(word(1, &long, &bad[..47], 0), 5);
    assert_eq!(word(1, &long, &bad, 0), 7 | 1 << 8);
    assert_eq!(word(1, &long, &[TOO_MUCH, NO_KIND].concat(), 0), 8);
    assert_eq!(word(1, &long, &TICKS, 0), 1);
    assert_eq!(word(1, &long[8..], &[], LOG_MAX - 1), 6);
    assert_eq!(word(1, &long[8..], &[], LOG_MAX), (LOG_MAX as u64) << 8);
    assert_eq!(word(1, &long[7..], &[], LOG_MAX + 1), 1);
}

/// 7 and 8 are the edition's; 9, 10, 11, 16 and 18 are not tested.
#[test]
fn what_is_refused_by_the_edition() {
    let records = |line: &str| Log::open(&log(line)).expect("a log").record_bytes.to_vec();
    let answer = |edition, line: &str| match write(edition, &[], &records(line)) {
        Ok(_) => 0,
        Err(Unwritten::Record(refusal, 0)) => refusal,
        Err(other) => panic!("{other:?}"),
    };
    for (line, wanted) in [
        ("answer i2c 1", [7, 0, 0, 0]),
        ("read i2c failure", [7, 0, 0, 0]),
        ("bank 1 read select", [7, 0, 0, 0]),
        ("write encoder 0 cnfg 4", [0, 0, 0, 0]),
        ("write encoder 0 cnfg 36", [8, 8, 8, 8]),
        ("write encoder 1 cnfg 1", [0, 0, 0, 7]),
        ("read pwm 3 cntr", [0, 0, 0, 7]),
        ("write select 3", [0, 0, 0, 0]),
        ("write select 0x40", [0, 0, 0, 8]),
        ("write select 0x100", [0, 0, 0, 8]),
        ("write select 0x10000000000", [8, 8, 8, 8]),
        ("write i2c go 1", [0, 0, 0, 0]),
        ("bank 2 read select", [7, 7, 7, 7]),
    ] {
        let got = [1, 2, 3, 4].map(|edition| answer(edition, line));
        assert_eq!(got, wanted, "{line}");
    }
}

/// What is written reads back, and the parts of a log give the log again unless 7 or 8 refuses one of its records.
#[test]
fn writer_and_reader_go_together() {
    let mut refused = 0;
    for seed in 0..600 {
        let log = generate(seed, &Settings::default());
        let passes = ![7, 8].contains(&run(&log).refusal);
        if passes {
            // Behind the refused record there may be another that 7 or 8 refuses.
            refused += usize::from(!reads_back(&log));
        } else {
            assert!(!reads_back(&log));
        }
    }
    assert_eq!(refused, 0);
    assert!(!reads_back(&[0; 8]));
    assert!(reads_back(&log(&in_edition(
        4,
        "note \"x\"\nwrite select 7"
    ))));
}

#[test]
fn every_answer_and_every_place_of_the_writer_comes_up() {
    assert_comes_up(WRITE_FAMILIES, [0, 1, 4, 5, 6, 7, 8]);
}

/// What one device finds that is never routed is what a fresh one finds of each record.
#[test]
fn each_record_by_itself() {
    let mut told = [0; 9];
    for request in WRITE_FAMILIES
        .iter()
        .flat_map(|family| family.requests(2, Size::Short))
    {
        let edition = u16::try_from(request.edition).ok();
        let edition = match edition.and_then(Edition::from_number) {
            Some(edition) if request.log.len() % 16 == 0 => edition,
            _ => continue,
        };
        let alone = |bytes| Device::fresh(edition).apply(&Fields::from_bytes(bytes));
        let refused = (0..)
            .zip(each_record(&request.log))
            .find_map(|(index, bytes)| {
                let refusal = alone(bytes).err()?;
                [7, 8].contains(&refusal).then_some((refusal, index))
            });
        let got = match write(request.edition, &request.beside, &request.log) {
            Err(Unwritten::Record(refusal, index)) => Some((refusal, index)),
            _ => None,
        };
        assert_eq!(got, refused);
        told[usize::from(refused.map_or(0, |(refusal, _)| refusal))] += 1;
    }
    assert!(
        [0, 7, 8].iter().all(|&refusal| told[refusal] > 200),
        "{told:?}"
    );
}
