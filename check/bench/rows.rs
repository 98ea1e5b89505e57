//! What each row of the benchmark is about: a full log, for one of the calls, or requests of the finder.

use rivandoze_check::generate::{generate, Rng, Settings};
use rivandoze_check::reference::edition::Edition;
use rivandoze_check::reference::log::{build, RECORDS_MAX};
use rivandoze_check::reference::rate::{HIGHEST_PWM_RATE, HIGHEST_SPI_RATE, LOWEST_RATE};
use rivandoze_check::reference::record::{Fields, ENCODER, I2C, PWM, SELECT, TICKS_MAX};

const ALL_ENCODERS: u64 = 0xAA_AAAA_AAAA;
const ALL_PWMS: u64 = 0x55_5555_5555;
const REQUESTS: usize = 4_096;
const REQUEST_LEN: usize = 16;

#[derive(Clone, Copy)]
pub enum Does {
    Replay,
    /// By a right transcript.
    Judge,
    Find,
    Dump,
    Sign,
    /// Of the log's records.
    Write,
    Shrink,
    /// By chunks of many records.
    Stream,
    /// By chunks of one record.
    StreamEach,
}

pub struct Row {
    pub name: &'static str,
    pub does: Does,
    /// The log, or the requests as bytes.
    pub make: fn() -> Vec<u8>,
}

pub const ROWS: &[Row] = &[
    row("pins of one encoder", Does::Replay, || pins(1, 1)),
    row("pins of ten encoders", Does::Replay, || pins(10, 1)),
    row("pins, changing bank", Does::Replay, || pins(10, 2)),
    row("reads", Does::Replay, || reads(1)),
    row("reads, changing bank", Does::Replay, || reads(2)),
    row("a mix, waits to 20 ticks", Does::Replay, || mix(1, 20)),
    row("a mix, waits of any length", Does::Replay, || {
        mix(1, TICKS_MAX)
    }),
    row("a mix over both banks", Does::Replay, || mix(2, 20)),
    row("waits only, 20 PWM channels", Does::Replay, || {
        waits_only(1)
    }),
    row("waits only, 40 PWM channels", Does::Replay, || {
        waits_only(2)
    }),
    row("reads, judged", Does::Judge, || reads(1)),
    row("a mix, waits to 20 ticks, judged", Does::Judge, || {
        mix(1, 20)
    }),
    row("the finder, a request", Does::Find, some_requests),
    row("pins, changing bank, dumped", Does::Dump, || pins(10, 2)),
    row("a mix over both banks, dumped", Does::Dump, || mix(2, 20)),
    row("pins, changing bank, signed", Does::Sign, || pins(10, 2)),
    row("a mix over both banks, signed", Does::Sign, || mix(2, 20)),
    row("pins, changing bank, written", Does::Write, || pins(10, 2)),
    row("a mix over both banks, written", Does::Write, || mix(2, 20)),
    row("pins, a third as before, shrunk", Does::Shrink, idle_pins),
    row("a mix over both banks, shrunk", Does::Shrink, || mix(2, 20)),
    row("pins, changing bank, streamed", Does::Stream, || {
        pins(10, 2)
    }),
    row("reads, changing bank, streamed", Does::Stream, || reads(2)),
    row("a mix over both banks, streamed", Does::Stream, || {
        mix(2, 20)
    }),
    row("a mix, a record a call", Does::StreamEach, || mix(2, 20)),
];

const fn row(name: &'static str, does: Does, make: fn() -> Vec<u8>) -> Row {
    Row { name, does, make }
}

impl Row {
    /// The records or requests that a round goes through.
    pub fn parts(&self) -> usize {
        match self.does {
            Does::Find => REQUESTS,
            _ => RECORDS_MAX,
        }
    }
}

/// The first edition that has so many banks.
fn edition(banks: u8) -> Edition {
    match banks {
        1 => Edition::One,
        _ => Edition::Two,
    }
}

/// Encoders in quadrature, walking on and back, in each bank by turns.
fn pins(encoders: u8, banks: u8) -> Vec<u8> {
    walks(encoders, banks, &[1, 2])
}

/// The same of both banks, but a third of the pins stay as they were.
fn idle_pins() -> Vec<u8> {
    walks(10, 2, &[0, 1, 2])
}

/// By steps that change these pins.
fn walks(encoders: u8, banks: u8, steps: &[u64]) -> Vec<u8> {
    let mut rng = Rng::new(1);
    let mut records = Vec::new();
    for bank in 0..banks {
        let writes = (0..encoders).map(|channel| Fields::write(ENCODER, channel, 0, 1));
        let select = Fields::write(SELECT, 0, 0, ALL_ENCODERS);
        let all = [select].into_iter().chain(writes);
        records.extend(all.map(|write| write.in_bank(bank)));
    }
    let mut pins = [[0; 10]; 2];
    while records.len() < RECORDS_MAX {
        let bank = records.len() % usize::from(banks);
        let channel = rng.below(encoders.into()) as usize;
        let pins = &mut pins[bank][channel];
        *pins ^= rng.pick(steps);
        records.push(Fields::pins(channel as u8, *pins).in_bank(bank as u8));
    }
    log_of(banks, &records)
}

/// Of each bank by turns.
fn reads(banks: u8) -> Vec<u8> {
    let mut rng = Rng::new(3);
    let mut read = || match rng.below(8) {
        0 => Fields::read(SELECT, 0, 0),
        1 => Fields::read(I2C, 0, rng.pick(&[0, 1, 3])),
        2..=4 => Fields::read(ENCODER, rng.below(10) as u8, rng.below(3) as u8),
        _ => Fields::read(PWM, rng.below(20) as u8, rng.below(6) as u8),
    };
    let records: Vec<Fields> = (0..RECORDS_MAX)
        .map(|index| read().in_bank((index % usize::from(banks)) as u8))
        .collect();
    log_of(banks, &records)
}

fn mix(banks: u8, most_ticks: u64) -> Vec<u8> {
    let settings = Settings {
        edition: Some(edition(banks)),
        least_records: RECORDS_MAX,
        most_ticks,
        refused_percent: 0,
        notes_percent: 0,
        ..Settings::default()
    };
    generate(2, &settings)
}

/// All twenty PWM channels of each bank at once.
fn waits_only(banks: u8) -> Vec<u8> {
    let mut rng = Rng::new(5);
    let mut records = Vec::new();
    let mut looks = Vec::new();
    for bank in 0..banks {
        records.push(Fields::write(SELECT, 0, 0, ALL_PWMS).in_bank(bank));
        for channel in 0..20 {
            let cnfg = rng.pick(&[0, 4, 5]);
            let values = [
                cnfg,
                rng.between(1, 7),
                rng.below(65_536),
                rng.below(65_536),
            ];
            let writes = (0..4).zip(values);
            let write = |(register, value)| Fields::write(PWM, channel, register, value);
            records.extend(writes.map(|one| write(one).in_bank(bank)));
            let look = [4, 5].map(|register| Fields::read(PWM, channel, register));
            looks.extend(look.map(|read| read.in_bank(bank)));
        }
    }
    while records.len() < RECORDS_MAX - looks.len() {
        records.push(Fields::ticks(rng.between(0, TICKS_MAX)));
    }
    records.extend(looks);
    log_of(banks, &records)
}

fn log_of(banks: u8, records: &[Fields]) -> Vec<u8> {
    let bytes: Vec<_> = records.iter().map(|fields| fields.to_bytes()).collect();
    build(edition(banks), &[], &bytes)
}

/// Half of the rates for PWM, half for SPI, as many of each size.
fn some_requests() -> Vec<u8> {
    let mut rng = Rng::new(4);
    let mut one = |index: usize| {
        let (least, most) = [
            (LOWEST_RATE, HIGHEST_PWM_RATE),
            (HIGHEST_PWM_RATE + 1, HIGHEST_SPI_RATE),
        ][index % 2];
        let most = most.min(least << rng.below(12));
        let rate = rng.between(least, most);
        let tolerance = rng.pick(&[0, 100, 10_000, 1_000_000]);
        [rate, tolerance].map(u64::to_le_bytes).concat()
    };
    (0..REQUESTS).flat_map(|index| one(index)).collect()
}

/// The requests of these bytes: a rate and a tolerance each.
pub fn requests(bytes: &[u8]) -> impl Iterator<Item = (u64, u64)> + '_ {
    let number = |bytes: &[u8]| u64::from_le_bytes(bytes.try_into().expect("eight bytes"));
    bytes
        .chunks_exact(REQUEST_LEN)
        .map(move |request| (number(&request[..8]), number(&request[8..])))
}
