//! Transcripts for the judge: right ones, negated ones, and what is neither.

use super::by_chance::short_log;
use super::in_order::log_of;
use super::{banks, every_encoder, in_bank, judged, Requests, Size};
use crate::exchange::{Request, PLACES};
use crate::generate::{change_bytes, generate, near_miss_trailer, Rng, Settings};
use crate::reference::edition::{Edition, EDITIONS};
use crate::reference::encoder::{CNTR, STAT};
use crate::reference::judge::{negated, transcript};
use crate::reference::log::{build, each_reading, LOG_MAX, READING_LEN, RECORDS_MAX, TRAILER_LEN};
use crate::reference::record::{Fields, ENCODER, I2C, SELECT};

fn plain(log: &[u8]) -> Vec<u8> {
    transcript(log, |count| count)
}

fn of_negated_counts(log: &[u8]) -> Vec<u8> {
    transcript(log, negated)
}

/// Every kind of transcript with a short log, which may be refused.
pub fn transcripts(mut rng: Rng, size: Size) -> Requests {
    Box::new((0..size.of(3_000, 40_000)).map(move |_| {
        let log = short_log(&mut rng);
        let transcript = some_transcript(&log, &mut rng);
        judged(log, transcript, &mut rng)
    }))
}

fn some_transcript(log: &[u8], rng: &mut Rng) -> Vec<u8> {
    let (plain, negated) = (plain(log), of_negated_counts(log));
    let either = rng.pick(&[&plain, &negated]).clone();
    match rng.below(12) {
        0..=1 => plain,
        2..=3 => negated,
        4 => one_reading_from(&plain, &negated, rng),
        5 => one_reading_from(&negated, &plain, rng),
        6 => halves(&plain, &negated, rng),
        7 => transcript(log, |count| (count as u32 as i32 as u64).wrapping_neg()),
        8 => every_number_negated(&plain),
        9 => change_bytes(&either, rng),
        10 => cut_or_grown(either, rng),
        _ => plain_of_another(rng),
    }
}

/// The readings of the first, but for one.
fn one_reading_from(first: &[u8], second: &[u8], rng: &mut Rng) -> Vec<u8> {
    let mut bytes = first.to_vec();
    if let Some(at) = some_reading(first, rng) {
        bytes[at..at + READING_LEN].copy_from_slice(&second[at..at + READING_LEN]);
    }
    bytes
}

fn halves(first: &[u8], second: &[u8], rng: &mut Rng) -> Vec<u8> {
    let at = some_reading(first, rng).unwrap_or(0);
    [&first[..at], &second[at..]].concat()
}

/// Where one of the readings begins.
fn some_reading(transcript: &[u8], rng: &mut Rng) -> Option<usize> {
    let readings = transcript.len() / READING_LEN;
    (readings > 0).then(|| READING_LEN * rng.below(readings as u64) as usize)
}

fn every_number_negated(transcript: &[u8]) -> Vec<u8> {
    let numbers = each_reading(transcript);
    numbers
        .flat_map(|number| negated(number).to_le_bytes())
        .collect()
}

fn cut_or_grown(mut transcript: Vec<u8>, rng: &mut Rng) -> Vec<u8> {
    let len = transcript.len() as u64;
    let new_len = match rng.below(4) {
        0 => rng.below(len + 1),
        1 => len.saturating_sub(READING_LEN as u64),
        2 => len + READING_LEN as u64,
        _ => len + rng.between(1, 40),
    };
    transcript.resize(new_len as usize, rng.pick(&[0, 0xFF]));
    transcript
}

fn plain_of_another(rng: &mut Rng) -> Vec<u8> {
    plain(&short_log(rng))
}

/// Full logs, whose last reading may be the first that differs.
pub fn full_logs(mut rng: Rng, size: Size) -> Requests {
    Box::new((0..size.of(40, 1_000)).map(move |_| {
        let settings = Settings {
            least_records: RECORDS_MAX,
            refused_percent: 10,
            ..Settings::default()
        };
        let log = generate(rng.draw(), &settings);
        let mut transcript = if rng.chance(50) {
            plain(&log)
        } else {
            of_negated_counts(&log)
        };
        if rng.chance(40) {
            if let Some(byte) = transcript.last_mut() {
                *byte ^= 0x80;
            }
        }
        judged(log, transcript, &mut rng)
    }))
}

/// Counts of either sign between other readings, of one bank and of each edition's last too; a count of 0, which
/// is its own negative, alone; and a log without a count.
fn small_logs(rng: &mut Rng) -> Vec<Vec<u8>> {
    let edition = rng.pick(&EDITIONS);
    let encoder = last_encoder(edition);
    let count = Fields::read(ENCODER, encoder, CNTR);
    let route = Fields::write(SELECT, 0, 0, every_encoder(edition));
    let zero = [route, count, count];
    let none = [
        Fields::read(SELECT, 0, 0),
        Fields::read(ENCODER, encoder, STAT),
    ];
    let of_two_banks = EDITIONS
        .into_iter()
        .filter(|&edition| banks(edition).len() > 1);
    let both = of_two_banks.map(|edition| {
        let of_bank = |bank| in_bank(bank, &counts(edition));
        let records: Vec<Fields> = banks(edition).flat_map(of_bank).collect();
        log_of(edition, &records)
    });
    let mut logs: Vec<Vec<u8>> = both.collect();
    logs.extend([&counts(edition)[..], &zero, &none].map(|records| log_of(edition, records)));
    logs
}

fn last_encoder(edition: Edition) -> u8 {
    edition.rules().encoders as u8 - 1
}

fn counts(edition: Edition) -> [Fields; 12] {
    let encoder = last_encoder(edition);
    let count = Fields::read(ENCODER, encoder, CNTR);
    [
        Fields::write(SELECT, 0, 0, every_encoder(edition)),
        Fields::write(ENCODER, encoder, 0, 1),
        Fields::read(SELECT, 0, 0),
        count,
        Fields::pins(encoder, 0),
        Fields::pins(encoder, 2),
        count,
        Fields::read(ENCODER, encoder, STAT),
        Fields::pins(encoder, 0),
        Fields::pins(encoder, 1),
        count,
        Fields::read(I2C, 0, 3),
    ]
}

/// Right and negated transcripts, with each of their bits turned over, and with none.
pub fn bits(mut rng: Rng, _: Size) -> Requests {
    let pairs = small_logs(&mut rng).into_iter().flat_map(|log| {
        let transcripts = [plain(&log), of_negated_counts(&log)];
        transcripts.map(|transcript| (log.clone(), transcript))
    });
    Box::new(pairs.flat_map(move |(log, right)| {
        let turned = (0..8 * right.len()).map(|bit| {
            let mut transcript = right.clone();
            transcript[bit / 8] ^= 1 << (bit % 8);
            transcript
        });
        let all: Vec<Vec<u8>> = turned.chain([right.clone()]).collect();
        let requests: Vec<Request> = all
            .into_iter()
            .map(|transcript| judged(log.clone(), transcript, &mut rng))
            .collect();
        requests
    }))
}

/// Right and negated transcripts cut and grown to every length, in every place.
pub fn lengths(mut rng: Rng, _: Size) -> Requests {
    Box::new(small_logs(&mut rng).into_iter().flat_map(move |log| {
        let mut requests = Vec::new();
        for right in [plain(&log), of_negated_counts(&log)] {
            for len in 0..=right.len() + 2 * READING_LEN + 1 {
                let mut transcript = right.clone();
                transcript.resize(len, 0);
                requests.extend(PLACES.map(|place| Request {
                    place,
                    ..judged(log.clone(), transcript.clone(), &mut rng)
                }));
            }
        }
        requests
    }))
}

/// Every refusal of the log, with transcripts that are right as far as it goes and with others.
pub fn refused(mut rng: Rng, size: Size) -> Requests {
    Box::new((0..size.of(1_500, 20_000)).map(move |index| {
        let log = match index % 6 {
            0 => near_miss_trailer(&short_log(&mut rng), &mut rng),
            1 => vec![rng.draw() as u8; rng.below(8) as usize],
            2 => too_long(&mut rng),
            _ => refused_log(&mut rng),
        };
        let mut transcript = plain(&log);
        if rng.chance(60) {
            transcript = cut_or_grown(transcript, &mut rng);
        }
        judged(log, transcript, &mut rng)
    }))
}

fn too_long(rng: &mut Rng) -> Vec<u8> {
    let notes = vec![0; LOG_MAX + 1 + rng.below(3) as usize - TRAILER_LEN];
    build(rng.pick(&EDITIONS), &notes, &[])
}

fn refused_log(rng: &mut Rng) -> Vec<u8> {
    let settings = Settings {
        most_records: 60,
        refused_percent: 100,
        ..Settings::default()
    };
    generate(rng.draw(), &settings)
}
