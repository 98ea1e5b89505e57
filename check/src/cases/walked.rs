//! Logs of pins that walk, stand, and are disturbed: for shrinking, and for the sign.

use super::by_chance::short_log;
use super::dumped::{some_fault, Making};
use super::in_order::log_of;
use super::{banks, every_encoder, in_bank, lent, Requests, Size};
use crate::exchange::{Call, Request, PLACES};
use crate::generate::{damage, generate, generate_with, Rng, Settings, FAULTS};
use crate::reference::edition::{Edition, EDITIONS};
use crate::reference::log::{build, records, LOG_MAX, RECORDS_MAX};
use crate::reference::record::{Fields, ENCODER, I2C, PINS, PWM, RECORD_LEN, SELECT};
use crate::reference::shrink::shrink;
use crate::reference::sign::STRETCH_LEN;

/// What is asked of such a log.
#[derive(Clone, Copy)]
pub struct Asked(Call);

pub const SHRINK: Asked = Asked(Call::Shrink);
pub const SIGN: Asked = Asked(Call::Sign);

impl Asked {
    fn lent(self, log: Vec<u8>, out_len: usize, rng: &mut Rng) -> Request {
        Request {
            call: self.0,
            ..lent(log, out_len, rng)
        }
    }

    /// The room that it takes, or for a log that is refused some.
    fn needed(self, log: &[u8]) -> usize {
        match self.0 {
            Call::Sign => records(log).map_or(STRETCH_LEN, |all| {
                STRETCH_LEN * all.filter(|record| record[0] == PINS).count()
            }),
            _ => shrink(log).map_or(LOG_MAX, |smaller| smaller.length()),
        }
    }

    /// Mostly with as much room as is needed, to the byte.
    fn lent_well(self, log: Vec<u8>, rng: &mut Rng) -> Request {
        let needed = self.needed(&log);
        let out_len = match rng.below(16) {
            0 => 0,
            1 => rng.below(needed as u64 + 1) as usize,
            2..=3 => needed.saturating_sub(1),
            4..=5 => needed + rng.below(41) as usize,
            6 => LOG_MAX,
            7 => log.len(),
            _ => needed,
        };
        self.lent(log, out_len, rng)
    }

    fn lent_roomy(self, log: Vec<u8>, rng: &mut Rng) -> Request {
        let out_len = self.needed(&log) + rng.pick(&[0, 0, 1, 33]);
        self.lent(log, out_len, rng)
    }

    /// Pins that stand and walk, and all that may come between.
    pub fn walks(self, mut rng: Rng, size: Size) -> Requests {
        Box::new((0..size.of(2_500, 30_000)).map(move |_| {
            let edition = rng.pick(&EDITIONS);
            let len = rng.pick(&[5, 15, 40, 120]);
            let mut records = walk(edition, len, &mut rng);
            if rng.chance(15) {
                let at = rng.below(records.len() as u64 + 1) as usize;
                records.insert(at, some_fault(&mut rng));
            }
            let bytes: Vec<_> = records.iter().map(|fields| fields.to_bytes()).collect();
            let notes = vec![rng.draw() as u8; rng.pick(&[0, 0, 1, 16, 33])];
            self.lent_well(build(edition, &notes, &bytes), &mut rng)
        }))
    }

    pub fn full_logs(self, mut rng: Rng, size: Size) -> Requests {
        Box::new((0..size.of(24, 400)).map(move |index| {
            let edition = rng.pick(&EDITIONS);
            let mut records = match index % 4 {
                // A stretch of its own for each pins record, or nothing that can be left out.
                0 => alternating(edition, &mut rng),
                // All pins equal, or all waits 0.
                1 => standing(edition, &mut rng),
                _ => walk(edition, RECORDS_MAX, &mut rng),
            };
            records.truncate(RECORDS_MAX);
            self.lent_well(log_of(edition, &records), &mut rng)
        }))
    }

    pub fn generated(self, mut rng: Rng, size: Size) -> Requests {
        Box::new((0..size.of(1_500, 12_000)).map(move |_| {
            let settings = Settings {
                most_records: rng.pick(&[30, 100, 400]),
                refused_percent: 30,
                ..Settings::default()
            };
            let log = generate(rng.draw(), &settings);
            self.lent_well(log, &mut rng)
        }))
    }

    /// Each record that is refused, behind records that are not and before more, in every place.
    pub fn faults(self, mut rng: Rng, size: Size) -> Requests {
        let times = size.of(1, 10);
        let all = (0..times).flat_map(|_| FAULTS.iter());
        let all = all.flat_map(|fault| PLACES.map(|place| (fault, place)));
        Box::new(all.map(move |(fault, place)| {
            let settings = Settings {
                most_records: rng.pick(&[10, 40]),
                ..Settings::default()
            };
            let log = generate_with(rng.draw(), &settings, *fault);
            Request {
                place,
                ..self.lent_roomy(log, &mut rng)
            }
        }))
    }

    /// And some that are too short or too long.
    pub fn damaged(self, mut rng: Rng, size: Size) -> Requests {
        Box::new((0..size.of(900, 8_000)).map(move |index| {
            let edition = rng.pick(&EDITIONS);
            let of_pins = log_of(edition, &walk(edition, 20, &mut rng));
            let log = match index % 20 {
                0 => of_pins[of_pins.len() - rng.below(8) as usize..].to_vec(),
                1 => {
                    let notes = LOG_MAX + rng.below(3) as usize - of_pins.len();
                    [vec![0; notes], of_pins].concat()
                }
                2..=12 => damage(&of_pins, &mut rng),
                _ => damage(&short_log(&mut rng), &mut rng),
            };
            self.lent_well(log, &mut rng)
        }))
    }

    /// Small logs in every room, in every place.
    pub fn rooms(self, mut rng: Rng, size: Size) -> Requests {
        let logs: Vec<Vec<u8>> = (0..size.of(2, 6))
            .map(|index| {
                let edition = EDITIONS[index as usize % EDITIONS.len()];
                let records = walk(edition, 12, &mut rng);
                let bytes: Vec<[u8; RECORD_LEN]> =
                    records.iter().map(|fields| fields.to_bytes()).collect();
                build(edition, b"notes", &bytes)
            })
            .collect();
        Box::new(logs.into_iter().flat_map(move |log| {
            let each =
                (0..=self.needed(&log) + 33).flat_map(|room| PLACES.map(|place| (room, place)));
            let requests: Vec<Request> = each
                .map(|(room, place)| Request {
                    place,
                    ..self.lent(log.clone(), room, &mut rng)
                })
                .collect();
            requests
        }))
    }

    /// Two pins with each record in between that might disturb them or not, in every edition and bank.
    pub fn between(self, mut rng: Rng, _: Size) -> Requests {
        let all = EDITIONS.into_iter().flat_map(|edition| {
            banks(edition).flat_map(move |bank| {
                (0..16_u64).flat_map(move |pins| {
                    let between = between_pins(edition, bank).into_iter();
                    between.map(move |between| (edition, bank, pins, between))
                })
            })
        });
        Box::new(all.map(move |(edition, bank, pins, between)| {
            let encoder = rng.pick(&[0, edition.rules().encoders as u8 - 1]);
            let here = |fields: Fields| fields.in_bank(bank);
            let mut records = routed(edition);
            records.extend([1, 3].map(|cnfg| here(Fields::write(ENCODER, encoder, 0, cnfg))));
            records.extend([0, 1].map(|pins| here(Fields::pins(encoder, pins))));
            records.push(here(Fields::write(ENCODER, encoder, 0, 1)));
            records.push(here(Fields::pins(encoder, pins & 3)));
            records.extend(between.into_iter().map(|fields| match fields {
                Between::Same(fields) => here(Fields {
                    channel: encoder,
                    ..fields
                }),
                Between::Other(fields) => fields,
            }));
            let then = Fields::pins(encoder, pins >> 2);
            let reads = [0, 1, 2].map(|register| Fields::read(ENCODER, encoder, register));
            records.extend([then, then].map(here));
            records.extend(in_bank(bank, &reads));
            self.lent_roomy(log_of(edition, &records), &mut rng)
        }))
    }

    /// Every six pins in a row.
    pub fn every_walk(self, mut rng: Rng, _: Size) -> Requests {
        Box::new((0..4_u64.pow(6)).map(move |walk| {
            let edition = rng.pick(&EDITIONS);
            let bank = super::some_bank(edition, &mut rng);
            let encoder = super::some_encoder(edition, &mut rng);
            let mut records = routed(edition);
            records.push(Fields::write(ENCODER, encoder, 0, 1).in_bank(bank));
            for step in 0..6 {
                records.push(Fields::pins(encoder, walk >> (2 * step) & 3).in_bank(bank));
            }
            self.lent_roomy(log_of(edition, &records), &mut rng)
        }))
    }
}

/// All encoders of all banks.
fn routed(edition: Edition) -> Vec<Fields> {
    let select = Fields::write(SELECT, 0, 0, every_encoder(edition));
    banks(edition).map(|bank| select.in_bank(bank)).collect()
}

fn walk(edition: Edition, len: usize, rng: &mut Rng) -> Vec<Fields> {
    let mut making = Making::new(edition);
    making.route_all();
    let rules = edition.rules();
    let encoders: Vec<(u8, u8)> = (0..rng.pick(&[1, 2, 3]))
        .map(|_| {
            let bank = super::some_bank(edition, rng);
            (bank, super::some_encoder(edition, rng))
        })
        .collect();
    for &(bank, encoder) in &encoders {
        let cnfg = rng.pick(&[0, 1, 1, 1, 1, 3]);
        making.put(Fields::write(ENCODER, encoder, 0, cnfg).in_bank(bank));
    }
    let calm = rng.chance(40);
    while making.records.len() < len {
        let (bank, encoder) = rng.pick(&encoders);
        let here = |fields: Fields| fields.in_bank(bank);
        let state = &making.device.banks[usize::from(bank)].encoders[usize::from(encoder)];
        let (cnfg, seen) = (u64::from(state.cnfg), u64::from(state.seen.unwrap_or(0)));
        let disturb = if calm { 60 } else { 100 };
        let fields = match rng.below(disturb) {
            0..=24 => here(Fields::pins(encoder, seen)),
            25..=36 => here(Fields::pins(encoder, seen ^ rng.pick(&[1, 2]))),
            37..=42 => here(Fields::pins(encoder, [1, 3, 0, 2][seen as usize])),
            43..=47 => here(Fields::pins(encoder, seen ^ 3)),
            48..=52 => Fields::ticks(rng.pick(&[0, 0, 0, 1, 5])),
            53..=56 => here(Fields::write(
                ENCODER,
                encoder,
                0,
                cnfg ^ rng.pick(&[0, 8, 16]),
            )),
            57..=59 => {
                let select = making.device.banks[usize::from(bank)].select.value;
                here(Fields::write(SELECT, 0, 0, select))
            }
            60..=69 => {
                let other = rng.below(2) as u8;
                making.route_some(if rng.chance(50) { bank } else { other }, rng);
                continue;
            }
            70..=79 => {
                making.route_all();
                continue;
            }
            80..=91 => here(Fields::write(
                ENCODER,
                encoder,
                0,
                rng.pick(&[0, 1, 1, 3, 5]),
            )),
            92..=94 => here(Fields::read(ENCODER, encoder, 2)),
            95..=96 => Fields::pins(rng.below(10) as u8, rng.below(4)).in_bank(rng.below(2) as u8),
            _ => here(Fields::read(PWM, rng.below(rules.pwms as u64) as u8, 4)),
        };
        if !making.put(fields) {
            making.put(Fields::ticks(rng.below(2)));
        }
    }
    making.records
}

fn alternating(edition: Edition, rng: &mut Rng) -> Vec<Fields> {
    let mut records = routed(edition);
    let by_cnfg = rng.chance(50);
    records.push(Fields::write(ENCODER, 0, 0, 1));
    while records.len() < RECORDS_MAX {
        records.push(Fields::pins(0, rng.below(4)));
        if by_cnfg {
            records.extend([3, 1].map(|cnfg| Fields::write(ENCODER, 0, 0, cnfg)));
        } else {
            let back = every_encoder(edition);
            records.extend([0, back].map(|value| Fields::write(SELECT, 0, 0, value)));
        }
    }
    records
}

fn standing(edition: Edition, rng: &mut Rng) -> Vec<Fields> {
    let mut records = routed(edition);
    records.push(Fields::write(ENCODER, 0, 0, 1));
    let same = rng.pick(&[Fields::pins(0, 2), Fields::ticks(0)]);
    while records.len() < RECORDS_MAX {
        records.push(same);
    }
    records
}

/// A record between two pins.
#[derive(Clone, Copy)]
enum Between {
    /// Of the same bank, and of the same channel if it has one.
    Same(Fields),
    Other(Fields),
}

fn between_pins(edition: Edition, bank: u8) -> Vec<Vec<Between>> {
    use Between::{Other, Same};
    let here = every_encoder(edition);
    // Routes every encoder still, and something more or less beside.
    let beside = if edition.rules().port { here | 1 } else { here };
    let select = |value| Fields::write(SELECT, 0, 0, value);
    let cnfg = |value| Same(Fields::write(ENCODER, 0, 0, value));
    let away = Other(select(0).in_bank(bank));
    let back = Other(select(here).in_bank(bank));
    let mut all = vec![
        vec![],
        vec![Other(Fields::ticks(0))],
        vec![Other(Fields::ticks(1))],
        vec![cnfg(1)],
        vec![cnfg(9)],
        vec![cnfg(17), cnfg(1)],
        vec![cnfg(3), cnfg(1)],
        vec![cnfg(0), cnfg(1)],
        vec![cnfg(3)],
        vec![cnfg(0)],
        vec![back],
        vec![Other(select(beside).in_bank(bank))],
        vec![away, back],
        vec![Same(Fields::read(ENCODER, 0, 2))],
        vec![Same(Fields::read(ENCODER, 0, 0)), Other(Fields::ticks(0))],
        vec![Same(Fields::pins(0, 0))],
        vec![Same(Fields::pins(0, 3)), Other(Fields::ticks(0))],
        vec![Other(Fields::read(I2C, 0, 0).in_bank(bank))],
    ];
    if !edition.rules().quadrature_only {
        all.push(vec![cnfg(5)]);
        all.push(vec![cnfg(5), cnfg(1)]);
    }
    if banks(edition).len() > 1 {
        let other = |fields: Fields| Other(fields.in_bank(1 - bank));
        all.push(vec![other(select(here))]);
        all.push(vec![other(select(0))]);
        for channel in [0, edition.rules().encoders as u8 - 1] {
            all.push(vec![other(Fields::write(ENCODER, channel, 0, 0))]);
            all.push(vec![other(Fields::pins(channel, 0))]);
            all.push(vec![other(Fields::pins(channel, 2))]);
        }
    }
    if edition.rules().encoders > 1 {
        let other = |fields: Fields| Other(fields.in_bank(bank));
        all.push(vec![other(Fields::write(ENCODER, 4, 0, 3))]);
        all.push(vec![other(Fields::pins(4, 1))]);
        all.push(vec![other(Fields::pins(4, 2)), Other(Fields::ticks(0))]);
    }
    all
}
