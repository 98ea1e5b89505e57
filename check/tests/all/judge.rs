//! The judge: every verdict, its index, and the order of its refusals.

use crate::common::{in_edition, log};
use rivandoze_check::cases::{Size, FAMILIES};
use rivandoze_check::exchange::{Call, Request};
use rivandoze_check::packed;
use rivandoze_check::reference::judge::{negated, transcript, Comparison};
use rivandoze_check::reference::log::{each_reading, records, RECORDS_MAX};
use rivandoze_check::reference::{judge, replay, Verdict};

fn bytes(numbers: &[u64]) -> Vec<u8> {
    numbers.iter().flat_map(|n| n.to_le_bytes()).collect()
}

fn judged(text: &str, numbers: &[u64]) -> Result<Verdict, u8> {
    judge(&log(text), &bytes(numbers))
}

/// SELECT, a count of 1, STAT, and a count of -1.
const COUNTS: &str = "write select 10
    read select
    write encoder 0 cnfg 1
    pins encoder 0 0
    pins encoder 0 1
    read encoder 0 cntr
    read encoder 0 stat
    pins encoder 0 0
    pins encoder 0 2
    read encoder 0 cntr";
const MINUS_1: u64 = 4_294_967_295;

#[test]
fn the_whole_log_of_the_paper() {
    let text = "write select 10
        write encoder 0 cnfg 1
        pins encoder 0 0
        pins encoder 0 1
        read encoder 0 cntr";
    assert_eq!(judged(text, &[1]), Ok(Verdict::Same));
    assert_eq!(judged(text, &[MINUS_1]), Ok(Verdict::Negated));
    assert_eq!(judged(text, &[0]), Ok(Verdict::Different(0)));
    assert_eq!(judged(text, &[]), Err(17));
}

#[test]
fn counts_alone_are_negated() {
    assert_eq!(judged(COUNTS, &[10, 1, 0, MINUS_1]), Ok(Verdict::Same));
    assert_eq!(judged(COUNTS, &[10, MINUS_1, 0, 1]), Ok(Verdict::Negated));
    let select_negated = (1 << 32) - 10;
    let all_negated = [select_negated, MINUS_1, 0, 1];
    assert_eq!(judged(COUNTS, &all_negated), Ok(Verdict::Different(0)));
}

#[test]
fn one_count_negated_and_one_not_is_different() {
    let second = [10, 1, 0, 1];
    assert_eq!(judged(COUNTS, &second), Ok(Verdict::Different(3)));
    let first = [10, MINUS_1, 0, MINUS_1];
    assert_eq!(judged(COUNTS, &first), Ok(Verdict::Different(1)));
}

/// The counts of bank B are negated too.
#[test]
fn counts_of_both_banks_are_negated() {
    let text = "write select 10
        bank 1 write select 10
        write encoder 0 cnfg 1
        bank 1 write encoder 0 cnfg 1
        pins encoder 0 0
        bank 1 pins encoder 0 0
        pins encoder 0 1
        bank 1 pins encoder 0 1
        bank 1 read encoder 0 cntr
        read encoder 0 cntr";
    let text = in_edition(2, text);
    assert_eq!(judged(&text, &[1, 1]), Ok(Verdict::Same));
    assert_eq!(judged(&text, &[MINUS_1, MINUS_1]), Ok(Verdict::Negated));
    assert_eq!(judged(&text, &[1, MINUS_1]), Ok(Verdict::Different(1)));
    assert_eq!(judged(&text, &[MINUS_1, 1]), Ok(Verdict::Different(0)));
}

/// The index is of the plain replay, also where the transcript was negated up to there.
#[test]
fn the_index_is_by_the_plain_replay() {
    assert_eq!(
        judged(COUNTS, &[10, MINUS_1, 7, 1]),
        Ok(Verdict::Different(1))
    );
    assert_eq!(
        judged(COUNTS, &[10, 1, 7, MINUS_1]),
        Ok(Verdict::Different(2))
    );
    for index in 0..4 {
        let mut numbers = [10, 1, 0, MINUS_1];
        for later in &mut numbers[index..] {
            *later ^= 1 << 63;
        }
        let wanted = Ok(Verdict::Different(index as u64));
        assert_eq!(judged(COUNTS, &numbers), wanted);
    }
}

#[test]
fn all_64_bits_are_compared() {
    for bit in 32..64 {
        let plain = [10, 1 | 1 << bit, 0, MINUS_1];
        assert_eq!(judged(COUNTS, &plain), Ok(Verdict::Different(1)));
        let negated = [10, MINUS_1 | 1 << bit, 0, 1];
        assert_eq!(judged(COUNTS, &negated), Ok(Verdict::Different(1)));
    }
    // -1 and 1 as numbers of 64 bits.
    let wide = [10, u64::MAX, 0, 1];
    assert_eq!(judged(COUNTS, &wide), Ok(Verdict::Different(1)));
}

#[test]
fn both_where_negating_changes_nothing() {
    assert_eq!(judged("", &[]), Ok(Verdict::Both));
    assert_eq!(judged("ticks 3", &[]), Ok(Verdict::Both));
    assert_eq!(judged("read select", &[0]), Ok(Verdict::Both));
    assert_eq!(judged("read encoder 4 cntr", &[0]), Ok(Verdict::Both));
    let beside = "write select 10\nread encoder 0 cntr\nread select\n";
    assert_eq!(judged(beside, &[0, 10]), Ok(Verdict::Both));
    assert_eq!(judged(beside, &[0, 11]), Ok(Verdict::Different(1)));
}

/// No log counts as far as 2^31, so the comparison itself is asked.
#[test]
fn two_to_the_31_is_its_own_negative() {
    let verdict = |readings: &[(u64, bool)], written: &[u64]| {
        let written = bytes(written);
        let mut comparison = Comparison::with(&written);
        for &(reading, is_count) in readings {
            comparison.add(reading, is_count);
        }
        comparison.verdict()
    };
    let (half, zero) = ((1 << 31, true), (0, true));
    assert_eq!(negated(1 << 31), 1 << 31);
    assert_eq!(
        verdict(&[half, zero, half], &[1 << 31, 0, 1 << 31]),
        Ok(Verdict::Both)
    );
    assert_eq!(
        verdict(&[half, (1, true)], &[1 << 31, 1]),
        Ok(Verdict::Same)
    );
    assert_eq!(
        verdict(&[half, (1, true)], &[1 << 31, MINUS_1]),
        Ok(Verdict::Negated)
    );
    assert_eq!(
        verdict(&[half], &[(1 << 31) + 1]),
        Ok(Verdict::Different(0))
    );
    // As another reading it is no count.
    assert_eq!(
        verdict(&[(1, false), (MINUS_1, false)], &[1, MINUS_1]),
        Ok(Verdict::Both)
    );
}

#[test]
fn another_length_is_17() {
    let log = log(COUNTS);
    let right = transcript(&log, |count| count);
    for len in 0..=right.len() + 17 {
        let mut other = right.clone();
        other.resize(len, 0);
        let wanted = if len == right.len() {
            Ok(Verdict::Same)
        } else {
            Err(17)
        };
        assert_eq!(judge(&log, &other), wanted, "length {len}");
    }
}

const STOP_AFTER_ACK: &str = "write select 0xF0000000
    write i2c addr 1
    write i2c cntl 11
    write i2c go 1
    write i2c cntl 4
    write i2c go 1";

#[test]
fn the_log_then_its_records_then_the_length() {
    let wrong = [0; 3];
    assert_eq!(judge(&[0; 32_769], &wrong), Err(1));
    assert_eq!(judge(&[0; 7], &wrong), Err(2));
    for (trailer, refusal) in [
        ("trailer distance 1 edition 9 mark 51 4E", 3),
        ("trailer distance 1 edition 9", 4),
        ("trailer distance 1", 5),
    ] {
        let log = log(&format!("read i2c go\n{trailer}\n"));
        assert_eq!(judge(&log, &wrong), Err(refusal));
        assert_eq!(judge(&log, &[0; 8]), Err(refusal));
    }
    for (line, refusal) in [
        ("read i2c go", 7),
        ("ticks 0x100000000", 8),
        ("pins encoder 0 1", 9),
        ("write select 3", 10),
        ("write select 0xF0000000\nwrite i2c go 1", 11),
        (STOP_AFTER_ACK, 16),
    ] {
        let log = log(&format!("read select\n{line}\nread select\n"));
        // The length of the readings before it, of all reads, and another.
        for len in [8, 16, 3] {
            assert_eq!(judge(&log, &vec![0; len]), Err(refusal), "{line}");
        }
    }
}

#[test]
fn room_is_not_asked_for() {
    let reads = log(&"read select\n".repeat(RECORDS_MAX));
    assert_eq!(judge(&reads, &[0; 8 * RECORDS_MAX]), Ok(Verdict::Both));
    assert_eq!(judge(&reads, &[]), Err(17));
}

/// The judge as the paper says it: the whole replay first, then one comparison after another.
fn plain_judge(log: &[u8], transcript: &[u8]) -> Result<Verdict, u8> {
    let mut out = vec![0; 8 * RECORDS_MAX];
    let answer = replay(log, &mut out);
    if answer.refusal != 0 {
        return Err(answer.refusal);
    }
    let reads = records(log)?.filter(|record| record[0] == 2);
    let counts: Vec<bool> = reads
        .map(|record| (record[1], record[3]) == (1, 2))
        .collect();
    let readings: Vec<u64> = each_reading(&out).take(counts.len()).collect();
    if transcript.len() != 8 * readings.len() {
        return Err(17);
    }
    let written: Vec<u64> = each_reading(transcript).collect();
    let negated: Vec<u64> = readings
        .iter()
        .zip(&counts)
        .map(|(&reading, &count)| match count {
            true => ((1 << 32) - reading) % (1 << 32),
            false => reading,
        })
        .collect();
    let first = written.iter().zip(&readings).position(|(a, b)| a != b);
    Ok(match (first, written == negated) {
        (None, true) => Verdict::Both,
        (None, false) => Verdict::Same,
        (Some(_), true) => Verdict::Negated,
        (Some(index), false) => Verdict::Different(index as u64),
    })
}

fn asked() -> impl Iterator<Item = Request> {
    FAMILIES
        .iter()
        .flat_map(|family| family.requests(2, Size::Short))
        .filter(|request| request.call == Call::Judge)
}

#[test]
fn as_by_a_plainer_judge() {
    for request in asked() {
        assert_eq!(
            judge(&request.log, &request.beside),
            plain_judge(&request.log, &request.beside)
        );
    }
}

#[test]
fn every_verdict_and_refusal_is_asked_for_often() {
    let words: Vec<u64> = asked()
        .map(|request| packed::judge(&request.log, &request.beside))
        .collect();
    let often = |word: u64| words.iter().filter(|&&w| w & 0xFFFF == word).count();
    for refusal in [1, 2, 3, 4, 5, 7, 8, 9, 10, 11, 16, 17] {
        assert!(often(refusal) > 10, "{refusal}: {}", often(refusal));
    }
    for verdict in 1..=4 {
        assert!(often(verdict << 8) > 100, "verdict {verdict}");
    }
    let last = words.iter().filter(|&&w| w & 0xFFFF == 4 << 8).max();
    assert!(last > Some(&(300 << 16)), "{last:?}");
}

#[test]
fn packed_in_its_places() {
    let judged = |numbers: &[u64]| packed::judge(&log(COUNTS), &bytes(numbers));
    assert_eq!(judged(&[10, 1, 0, MINUS_1]), 1 << 8);
    assert_eq!(judged(&[10, MINUS_1, 0, 1]), 2 << 8);
    assert_eq!(packed::judge(&log(""), &[]), 3 << 8);
    assert_eq!(judged(&[10, 1, 0, 1]), 4 << 8 | 3 << 16);
    assert_eq!(judged(&[10]), 17);
    assert_eq!(packed::judge(&log("ticks 1\nread i2c go"), &[]), 7);
}
