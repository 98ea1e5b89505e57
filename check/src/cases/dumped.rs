//! Logs for the dump.

mod texts;

pub use texts::*;

use super::by_chance::short_log;
use super::in_order::log_of;
use super::{lent, Requests, Size};
use crate::exchange::{Call, Request, PLACES};
use crate::generate::{damage, generate, Rng, Settings};
use crate::reference::bank::ENCODERS;
use crate::reference::dump::{dump, DUMP_MAX};
use crate::reference::edition::{Edition, EDITIONS};
use crate::reference::log::{LOG_MAX, RECORDS_MAX};
use crate::reference::record::{Fields, ENCODER, SELECT, TICKS_MAX};
use crate::reference::Device;

/// A SELECT that routes all encoders of a bank, and one that routes that of a myRIO's port.
const ALL_ENCODERS: u64 = 0xAA_AAAA_AAAA;
const PORT_ENCODER: u64 = 0x20;

fn dumped(log: Vec<u8>, out_len: usize, rng: &mut Rng) -> Request {
    Request {
        call: Call::Dump,
        ..lent(log, out_len, rng)
    }
}

/// Mostly with as much room as is needed, to the byte.
fn dumped_well(log: Vec<u8>, rng: &mut Rng) -> Request {
    let out_len = match dump(&log) {
        Ok(text) => room(text.len(), rng),
        Err(_) => rng.pick(&[0, 130, DUMP_MAX]),
    };
    dumped(log, out_len, rng)
}

fn room(needed: usize, rng: &mut Rng) -> usize {
    match rng.below(12) {
        0 => 0,
        1 => rng.below(needed as u64 + 1) as usize,
        2..=3 => needed.saturating_sub(1),
        4..=6 => needed + rng.below(41) as usize,
        7 => DUMP_MAX.max(needed),
        _ => needed,
    }
}

/// The records of a log in the making, all of which are applied.
pub(super) struct Making {
    pub(super) device: Device,
    pub(super) records: Vec<Fields>,
}

impl Making {
    pub(super) fn new(edition: Edition) -> Self {
        Making {
            device: Device::fresh(edition),
            records: Vec::new(),
        }
    }

    /// Unless it is refused.
    pub(super) fn put(&mut self, fields: Fields) -> bool {
        let applied = self.device.apply(&fields).is_ok();
        if applied {
            self.records.push(fields);
        }
        applied
    }

    /// All encoders that the edition has.
    pub(super) fn route_all(&mut self) {
        for bank in 0..2 {
            let select = |value| Fields::write(SELECT, 0, 0, value).in_bank(bank);
            let _ = self.put(select(ALL_ENCODERS)) || self.put(select(PORT_ENCODER));
        }
    }

    pub(super) fn route_some(&mut self, bank: u8, rng: &mut Rng) {
        let pairs = (0..ENCODERS).filter(|_| rng.chance(70));
        let some = pairs.map(|pair| 0xA << (4 * pair)).sum();
        let value = rng.pick(&[some, some, PORT_ENCODER, ALL_ENCODERS, 0]);
        self.put(Fields::write(SELECT, 0, 0, value).in_bank(bank));
    }
}

/// How a log of pins is made.
struct Kind {
    /// Of both banks.
    encoders: u64,
    ticks_percent: u64,
    /// Neither pins nor ticks.
    other_percent: u64,
    ticks: fn(&mut Rng) -> u64,
}

fn some_kind(rng: &mut Rng) -> Kind {
    Kind {
        encoders: rng.pick(&[1, 2, 4, 20]),
        ticks_percent: rng.pick(&[5, 30, 60, 90]),
        other_percent: rng.pick(&[0, 5, 30]),
        ticks: rng.pick(&[some_ticks, |_| TICKS_MAX, |rng| rng.below(3)]),
    }
}

fn some_ticks(rng: &mut Rng) -> u64 {
    let any = rng.below(TICKS_MAX + 1);
    let few = rng.below(100);
    rng.pick(&[0, 0, 1, 4, few, few, 40_000_000, any, TICKS_MAX])
}

/// So many records, or one more.
fn pins_log(edition: Edition, kind: &Kind, records: usize, rng: &mut Rng) -> Making {
    let mut making = Making::new(edition);
    making.route_all();
    let first = rng.below(20);
    while making.records.len() < records {
        let (bank, fate) = (rng.below(2) as u8, rng.below(100));
        if fate < kind.ticks_percent {
            making.put(Fields::ticks((kind.ticks)(rng)));
        } else if fate < kind.ticks_percent + kind.other_percent {
            other_record(&mut making, bank, rng);
        } else {
            let at = (first + rng.below(kind.encoders)) % 20;
            let record = Fields::pins((at % 10) as u8, rng.below(4)).in_bank((at / 10) as u8);
            if !making.put(record) {
                making.put(Fields::pins(0, rng.below(4)).in_bank(bank));
            }
        }
    }
    making
}

/// What changes no wire: a rerouting, an encoder switched on, off or under reset, a read.
fn other_record(making: &mut Making, bank: u8, rng: &mut Rng) {
    let encoder = rng.below(10) as u8;
    match rng.below(4) {
        0 => making.route_some(bank, rng),
        1 => making.route_all(),
        2 => {
            let cnfg = Fields::write(ENCODER, encoder, 0, rng.below(4));
            making.put(cnfg.in_bank(bank));
        }
        _ => {
            making.put(Fields::read(ENCODER, encoder, 2).in_bank(bank));
        }
    }
}

/// Refused wherever it stands, or where the encoder is not routed.
pub(super) fn some_fault(rng: &mut Rng) -> Fields {
    let bank = rng.below(2) as u8;
    rng.pick(&[
        Fields::pins(0, 4).in_bank(bank),
        Fields::pins(10, 0).in_bank(bank),
        Fields::pins(9, 0).in_bank(bank),
        Fields::pins(0, 0).in_bank(2),
        Fields::ticks(TICKS_MAX + 1),
        Fields::ticks(1).in_bank(1),
        Fields::default(),
    ])
}

pub fn pins(mut rng: Rng, size: Size) -> Requests {
    Box::new((0..size.of(1_500, 12_000)).map(move |_| {
        let edition = rng.pick(&EDITIONS);
        let kind = some_kind(&mut rng);
        let records = rng.pick(&[3, 10, 30, 100]);
        let mut records = pins_log(edition, &kind, records, &mut rng).records;
        if rng.chance(15) {
            let at = rng.below(records.len() as u64 + 1) as usize;
            records.insert(at, some_fault(&mut rng));
        }
        dumped_well(log_of(edition, &records), &mut rng)
    }))
}

/// Among them the log with the longest dump of its edition.
pub fn full_logs(mut rng: Rng, size: Size) -> Requests {
    let longest: Vec<Request> = EDITIONS
        .into_iter()
        .flat_map(|edition| {
            let log = longest_dump(edition);
            let needed = dump(&log).map_or(0, |text| text.len());
            let rooms = [needed, needed - 1, needed + 1, DUMP_MAX];
            rooms.map(|room| dumped(log.clone(), room, &mut rng))
        })
        .collect();
    let others = (0..size.of(40, 600)).map(move |_| {
        let edition = rng.pick(&EDITIONS);
        let kind = some_kind(&mut rng);
        let mut records = pins_log(edition, &kind, RECORDS_MAX, &mut rng).records;
        records.truncate(RECORDS_MAX);
        dumped_well(log_of(edition, &records), &mut rng)
    });
    Box::new(longest.into_iter().chain(others))
}

/// A double change at the start, and behind each longest wait; each encoder comes up.
pub fn longest_dump(edition: Edition) -> Vec<u8> {
    let mut making = Making::new(edition);
    making.route_all();
    let routed: Vec<Fields> = (0..20)
        .map(|at| Fields::pins(at % 10, 0).in_bank(at / 10))
        .filter(|pins| making.device.clone().apply(pins).is_ok())
        .collect();
    for index in 0..RECORDS_MAX {
        let turn = index / routed.len();
        making.put(Fields {
            value: [0, 3][turn % 2],
            ..routed[index % routed.len()]
        });
        making.put(Fields::ticks(TICKS_MAX));
    }
    making.records.truncate(RECORDS_MAX);
    log_of(edition, &making.records)
}

pub fn generated(mut rng: Rng, size: Size) -> Requests {
    Box::new((0..size.of(1_200, 8_000)).map(move |_| {
        let settings = Settings {
            most_records: rng.pick(&[20, 60, 200]),
            refused_percent: 60,
            ..Settings::default()
        };
        let log = generate(rng.draw(), &settings);
        dumped_well(log, &mut rng)
    }))
}

/// And some that are too short or too long.
pub fn damaged(mut rng: Rng, size: Size) -> Requests {
    Box::new((0..size.of(600, 8_000)).map(move |index| {
        let edition = rng.pick(&EDITIONS);
        let kind = some_kind(&mut rng);
        let of_pins = log_of(edition, &pins_log(edition, &kind, 20, &mut rng).records);
        let log = match index % 20 {
            0 => of_pins[of_pins.len() - rng.below(8) as usize..].to_vec(),
            1 => {
                let notes = LOG_MAX + 1 + rng.below(3) as usize - of_pins.len();
                [vec![0; notes], of_pins].concat()
            }
            2..=10 => damage(&of_pins, &mut rng),
            _ => damage(&short_log(&mut rng), &mut rng),
        };
        dumped_well(log, &mut rng)
    }))
}

/// No encoder, each alone, and each together with each later one, which comes first.
pub fn each_encoder(mut rng: Rng, size: Size) -> Requests {
    let pairs = (0..20_u8).flat_map(|later| (0..=later).map(move |first| vec![later, first]));
    let sets: Vec<Vec<u8>> = [vec![], (0..20).rev().collect()]
        .into_iter()
        .chain(pairs)
        .collect();
    let editions = match size {
        Size::Full | Size::Percent(_) => EDITIONS.to_vec(),
        Size::Short => vec![Edition::Two, Edition::Four],
    };
    let all = editions
        .into_iter()
        .flat_map(move |edition| sets.clone().into_iter().map(move |set| (edition, set)));
    Box::new(all.map(move |(edition, set)| {
        let mut making = Making::new(edition);
        making.route_all();
        for at in set {
            making.put(Fields::ticks(rng.below(2)));
            for _ in 0..2 {
                let pins = Fields::pins(at % 10, rng.below(4)).in_bank(at / 10);
                making.put(pins);
            }
        }
        dumped_well(log_of(edition, &making.records), &mut rng)
    }))
}

/// A small log with every room, and with every place of it.
pub fn rooms(mut rng: Rng, size: Size) -> Requests {
    let logs: Vec<Vec<u8>> = (0..size.of(1, 3))
        .map(|_| {
            let edition = rng.pick(&EDITIONS[1..]);
            let kind = some_kind(&mut rng);
            log_of(edition, &pins_log(edition, &kind, 12, &mut rng).records)
        })
        .collect();
    Box::new(logs.into_iter().flat_map(move |log| {
        let needed = dump(&log).map_or(0, |text| text.len());
        let each = (0..=needed + 9).flat_map(|room| PLACES.map(|place| (room, place)));
        let requests: Vec<Request> = each
            .map(|(room, place)| Request {
                place,
                ..dumped(log.clone(), room, &mut rng)
            })
            .collect();
        requests
    }))
}
