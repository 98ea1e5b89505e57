use rivandoze_check::cases::{Family, Size};
use rivandoze_check::exchange::PLACES;
use rivandoze_check::reference::log::{each_reading, READING_LEN};
use rivandoze_check::reference::{replay, replay_fully, Bank};
use rivandoze_check::text::from_text;
use std::collections::BTreeSet;

/// What untouched output bytes hold in tests.
pub const UNTOUCHED: u8 = 0xEE;

#[derive(Debug, Clone, PartialEq, Eq)]
pub struct Run {
    pub refusal: u8,
    pub applied: u64,
    pub readings: Vec<u64>,
    pub bank: Bank,
    pub bank_b: Bank,
}

/// Replays with output to spare, and looks that nothing is written behind the readings.
pub fn run(log: &[u8]) -> Run {
    let mut out = vec![UNTOUCHED; 2_048 * READING_LEN];
    let outcome = replay_fully(log, &mut out);
    let mut again = vec![UNTOUCHED; out.len()];
    assert_eq!(replay(log, &mut again), outcome.answer);
    assert_eq!(again, out);
    let [bank, bank_b] = outcome.banks;
    let (written, rest) = out.split_at(outcome.readings * READING_LEN);
    assert!(rest.iter().all(|&byte| byte == UNTOUCHED));
    Run {
        refusal: outcome.answer.refusal,
        applied: outcome.answer.applied,
        readings: each_reading(written).collect(),
        bank,
        bank_b,
    }
}

pub fn log(text: &str) -> Vec<u8> {
    from_text(text).unwrap_or_else(|(line, message)| panic!("line {line}: {message}"))
}

/// The text of a log of another edition than 1.
pub fn in_edition(number: u16, text: &str) -> String {
    format!("{text}\ntrailer edition {number}\n")
}

pub fn run_text(text: &str) -> Run {
    run(&log(text))
}

/// The readings of a log that is not refused.
pub fn readings(text: &str) -> Vec<u64> {
    let run = run_text(text);
    assert_eq!(run.refusal, 0, "refused at record {}", run.applied);
    run.readings
}

pub fn bits_apart(first: &[u8], second: &[u8]) -> u32 {
    assert_eq!(first.len(), second.len());
    let pairs = first.iter().zip(second);
    pairs.map(|(one, other)| (one ^ other).count_ones()).sum()
}

/// That just these refusals come up, each in every place, and that another seed makes other requests.
pub fn assert_comes_up(families: &[Family], refusals: impl IntoIterator<Item = u64>) {
    let mut met = BTreeSet::new();
    for family in families {
        for request in family.requests(1, Size::Short) {
            met.insert((request.right_answer().word & 0xFF, request.place as u64));
        }
        let some = |seed| -> Vec<_> { family.requests(seed, Size::Short).take(60).collect() };
        assert_eq!(some(3), some(3), "{}", family.name);
        assert_ne!(some(3), some(4), "{}", family.name);
    }
    let wanted = refusals
        .into_iter()
        .flat_map(|refusal| PLACES.map(|place| (refusal, place as u64)));
    assert_eq!(met, wanted.collect());
}

/// The count and the flags of an encoder behind these pins.
pub fn walked(pins: &[u64]) -> Vec<u64> {
    let pins: String = pins
        .iter()
        .map(|pins| format!("pins encoder 0 {pins}\n"))
        .collect();
    readings(&format!(
        "write select 0xA\nwrite encoder 0 cnfg 1\n{pins}read encoder 0 cntr\nread encoder 0 stat"
    ))
}
