//! Families that go through everything of a kind.

use super::{
    all_reads, banks, every_encoder, every_pwm, i2c_alone, in_bank, lent, lent_roomy, needed,
    reads_of_a_bank, some_bank, some_encoder, some_pwm, Requests, Size,
};
use crate::exchange::{Request, PLACES};
use crate::generate::{generate, Rng, Settings};
use crate::reference::edition::{Edition, EDITIONS};
use crate::reference::i2c::STATE;
use crate::reference::log::{build, Trailer, LOG_MAX, MARK, RECORDS_MAX, TRAILER_LEN};
use crate::reference::record::{Fields, ENCODER, I2C, PWM, READ, RECORD_LEN, SELECT, TICKS_MAX};
use std::collections::BTreeSet;

/// A SELECT that is allowed in every edition: PWM channels 0 to 2 of a bank, 0 and 2 of a port.
const SOME_PWMS: u64 = 0b1_0101;

pub fn log_of(edition: Edition, records: &[Fields]) -> Vec<u8> {
    let bytes: Vec<_> = records.iter().map(|fields| fields.to_bytes()).collect();
    build(edition, &[], &bytes)
}

/// All of them again for each edition.
fn in_each_edition<I: Iterator>(all: fn() -> I) -> impl Iterator<Item = (Edition, I::Item)> {
    EDITIONS
        .into_iter()
        .flat_map(move |edition| all().map(move |one| (edition, one)))
}

/// A log of these records in some bank.
fn lent_somewhere(edition: Edition, records: &[Fields], rng: &mut Rng) -> Request {
    let records = in_bank(some_bank(edition, rng), records);
    lent_roomy(log_of(edition, &records), rng)
}

fn made_log(most_records: usize, rng: &mut Rng) -> Vec<u8> {
    let settings = Settings {
        most_records,
        ..Settings::default()
    };
    generate(rng.draw(), &settings)
}

/// Cut off at every byte, from the end and from the beginning.
pub fn truncations(mut rng: Rng, size: Size) -> Requests {
    let logs: Vec<Vec<u8>> = (0..size.of(3, 12))
        .map(|_| made_log(40, &mut rng))
        .collect();
    Box::new(logs.into_iter().flat_map(move |log| {
        let cuts: Vec<Request> = (0..=log.len())
            .flat_map(|at| [log[..at].to_vec(), log[at..].to_vec()])
            .map(|cut| lent(cut, needed(&log), &mut rng))
            .collect();
        cuts
    }))
}

/// Every length up to 64, and around the longest, in every place.
pub fn lengths(mut rng: Rng, _: Size) -> Requests {
    let lengths = (0..=64).chain(LOG_MAX - 16..=LOG_MAX + 16);
    Box::new(lengths.flat_map(move |len| {
        let logs = logs_of_length(len, &mut rng);
        let pairs = logs
            .into_iter()
            .flat_map(|log| PLACES.map(|place| (log.clone(), place)));
        let requests: Vec<Request> = pairs
            .map(|(log, place)| Request {
                place,
                ..lent(log, RECORDS_MAX * 8, &mut rng)
            })
            .collect();
        requests
    }))
}

/// Zeros, anything, and good and bad trailers behind reads.
fn logs_of_length(len: usize, rng: &mut Rng) -> Vec<Vec<u8>> {
    let mut logs = vec![vec![0; len], (0..len).map(|_| rng.draw() as u8).collect()];
    let in_front = match len.checked_sub(TRAILER_LEN) {
        Some(in_front) => in_front,
        None => return logs,
    };
    let notes_len = in_front % RECORD_LEN;
    let mut front = vec![0xEE; notes_len];
    for _ in 0..in_front / RECORD_LEN {
        front.extend_from_slice(&Fields::read(SELECT, 0, 0).to_bytes());
    }
    let whole = in_front - notes_len;
    for distance in [0, whole, whole + RECORD_LEN, in_front, len] {
        let trailer = Trailer::of(rng.pick(&EDITIONS), distance as u32).to_bytes();
        logs.push([front.as_slice(), &trailer].concat());
    }
    logs
}

fn with_trailer(log: &[u8], trailer: Trailer) -> Vec<u8> {
    [&log[..log.len() - TRAILER_LEN], &trailer.to_bytes()].concat()
}

/// Notes, then a few records with two reads.
fn small_log(edition: Edition) -> Vec<u8> {
    let records = [
        Fields::write(SELECT, 0, 0, SOME_PWMS),
        Fields::read(SELECT, 0, 0),
        Fields::ticks(1),
        Fields::read(ENCODER, 0, 2),
    ];
    build(edition, &[2; 21], &records.map(Fields::to_bytes))
}

/// Every distance up to beyond the log, and every one that is a few bits away from a right one.
pub fn distances(mut rng: Rng, _: Size) -> Requests {
    let edition = rng.pick(&EDITIONS);
    let log = small_log(edition);
    let len = log.len() as u32;
    let right = [0, 16, 64, 80].into_iter();
    let flipped = right.flat_map(|right| {
        (0..32).flat_map(move |one| (0..32).map(move |other| right ^ 1 << one ^ 1 << other))
    });
    let flipped: Vec<u32> = flipped.collect();
    let distances = (0..=len + 64)
        .chain(flipped)
        .chain(u32::MAX - 40..=u32::MAX);
    Box::new(distances.map(move |distance| {
        let near = with_trailer(&log, Trailer::of(edition, distance));
        lent_roomy(near, &mut rng)
    }))
}

/// Every number for an edition; with some that are none the distance is wrong too.
pub fn editions(mut rng: Rng, size: Size) -> Requests {
    let log = small_log(Edition::One);
    Box::new(numbers(size).map(move |number| {
        let distance = match Edition::from_number(number) {
            Some(_) => 64,
            None => rng.pick(&[64, 64, 65]),
        };
        let near = Trailer {
            edition: number,
            ..Trailer::of(Edition::One, distance)
        };
        lent(with_trailer(&log, near), 16, &mut rng)
    }))
}

/// Every mark; with some of them the edition and the distance are wrong too.
pub fn marks(mut rng: Rng, size: Size) -> Requests {
    let log = small_log(Edition::One);
    Box::new(numbers(size).map(move |mark| {
        let near = Trailer {
            distance: rng.pick(&[64, 64, 65]),
            edition: rng.pick(&[1, 1, 0]),
            mark: mark.to_le_bytes(),
        };
        let near = if near.mark == MARK {
            Trailer::of(Edition::One, 64)
        } else {
            near
        };
        lent(with_trailer(&log, near), 16, &mut rng)
    }))
}

/// All numbers of 16 bits; in a short run those with a small high or low byte or right halves.
fn numbers(size: Size) -> impl Iterator<Item = u16> {
    (0..=u16::MAX).filter(move |number| {
        let [low, high] = number.to_le_bytes();
        size == Size::Full || low < 3 || high < 3 || low == 0x51 || high == 0x4D
    })
}

/// Logs of some reads, some of them listed, with outputs of every length up to more than enough.
pub fn outputs(mut rng: Rng, _: Size) -> Requests {
    let few = (0..=12).flat_map(|reads| (0..=8 * reads + 17).map(move |len| (reads, len)));
    let most = 8 * RECORDS_MAX;
    let many = [0, 1, 8, 4_096].into_iter().chain(most - 17..=most + 17);
    let many = many.map(|len| (RECORDS_MAX, len));
    Box::new(few.chain(many).flat_map(move |(reads, out_len)| {
        PLACES.map(|place| Request {
            place,
            ..lent(log_with_reads(reads, &mut rng), out_len, &mut rng)
        })
    }))
}

fn log_with_reads(reads: usize, rng: &mut Rng) -> Vec<u8> {
    let edition = rng.pick(&EDITIONS);
    let mut records = Vec::new();
    for _ in 0..reads {
        if reads < RECORDS_MAX && rng.chance(30) {
            records.push(Fields::ticks(1));
        }
        let read = Fields::read(PWM, some_pwm(edition, rng), rng.below(6) as u8);
        records.push(read.in_bank(some_bank(edition, rng)));
    }
    if rng.chance(50) && reads > 0 {
        // Refused, or the first of the reads that do not count as listed: all need room.
        let at = rng.below(records.len() as u64) as usize;
        let odd = Fields::read(I2C, 0, 2);
        records[at] = rng.pick(&[odd, Fields { value: 1, ..odd }]);
    }
    log_of(edition, &records)
}

const VALUES: [u64; 22] = [
    0,
    1,
    2,
    3,
    4,
    5,
    6,
    7,
    8,
    15,
    16,
    31,
    32,
    255,
    256,
    65_535,
    65_536,
    0xFFFF_FFFF,
    0xFFFF_FFFF + 1,
    1 << 40,
    1 << 63,
    u64::MAX,
];

/// Every kind, block, channel and register next to those that are listed, with edges of values; then
/// a read of the same register.
pub fn accesses(mut rng: Rng, size: Size) -> Requests {
    let step = size.of(79, 1) as usize;
    let all = in_each_edition(every_access).step_by(step);
    Box::new(all.map(move |(edition, access)| {
        let mut select = |bank| {
            let (pwms, i2c) = (every_pwm(edition), i2c_alone(edition));
            let value = rng.pick(&[0, every_encoder(edition), pwms, pwms | i2c]);
            Fields::write(SELECT, 0, 0, value).in_bank(bank)
        };
        let mut records: Vec<Fields> = banks(edition).map(&mut select).collect();
        let again = Fields {
            kind: 2,
            value: 0,
            ..access
        };
        let accesses = in_bank(some_bank(edition, &mut rng), &[access, again]);
        records.extend(accesses);
        lent_roomy(log_of(edition, &records), &mut rng)
    }))
}

pub fn every_access() -> impl Iterator<Item = Fields> {
    let kinds = [0, 1, 2, 3, 4, 5, 6, 0x81, 0x82, 255];
    let blocks = [0, 1, 2, 3, 4, 255];
    let channels = (0..=21).chain([128, 255]);
    let registers = [0, 1, 2, 3, 4, 5, 6, 255];
    let places = blocks.into_iter().flat_map(move |block| {
        let channels = channels.clone();
        channels.flat_map(move |channel| registers.map(|register| (block, channel, register)))
    });
    kinds.into_iter().flat_map(move |kind| {
        let places = places.clone();
        places.flat_map(move |(block, channel, register)| {
            VALUES.map(|value| Fields {
                kind,
                block,
                channel,
                register,
                value,
                ..Fields::default()
            })
        })
    })
}

/// Every kind of record for every register, and for what is next to those that are listed, in every bank, once
/// where its block is routed as far as can be and once where nothing is; then reads. The value is in each range.
pub fn registers(mut rng: Rng, size: Size) -> Requests {
    let all = EDITIONS.into_iter().flat_map(move |edition| {
        banks(edition).flat_map(move |bank| {
            every_register(size).flat_map(move |access| {
                [true, false].map(|routed| (edition, access.in_bank(bank), routed))
            })
        })
    });
    Box::new(all.map(move |(edition, access, routed)| {
        let mut records = Vec::new();
        if routed {
            records.extend(whole_block(edition, access.block));
        }
        records.push(Fields { bank: 0, ..access });
        records.push(Fields::read(access.block, access.channel, access.register));
        records.push(Fields::read(SELECT, 0, 0));
        lent_roomy(log_of(edition, &in_bank(access.bank, &records)), &mut rng)
    }))
}

pub fn every_register(size: Size) -> impl Iterator<Item = Fields> {
    let short = size == Size::Short;
    let kinds = (0..=6).chain([255]);
    let kinds = kinds.filter(move |kind| !short || (1..=5).contains(kind));
    let places = (0..=4u8).flat_map(|block| {
        let channels = (0..=21).chain([255]);
        channels.flat_map(move |channel| {
            let registers = (0..=6u8).chain([255]);
            registers.map(move |register| (block, channel, register))
        })
    });
    let near = |(block, channel, register): (u8, u8, u8)| {
        block <= 3 && [0, 1, 2, 3, 9, 10, 19, 20].contains(&channel) && register <= 5
    };
    let places = places.filter(move |&place| !short || near(place));
    kinds.flat_map(move |kind| {
        places
            .clone()
            .map(move |(block, channel, register)| Fields {
                kind,
                block,
                channel,
                register,
                value: u64::from(kind != READ),
                ..Fields::default()
            })
    })
}

/// Routes all channels of a block, and makes GO one that is allowed.
fn whole_block(edition: Edition, block: u8) -> Vec<Fields> {
    let select = |value| Fields::write(SELECT, 0, 0, value);
    match block {
        ENCODER => vec![select(every_encoder(edition))],
        PWM => vec![select(every_pwm(edition))],
        I2C => vec![select(i2c_alone(edition)), Fields::write(I2C, 0, 1, 0b0011)],
        _ => Vec::new(),
    }
}

/// A record of each kind for each register, with every one of its bits turned over, in a short run in some
/// edition and bank, but for the register's bits: an edition that lacks one is seen by one of these. Then what
/// shows what has become of the banks.
pub fn bits(mut rng: Rng, size: Size) -> Requests {
    let all =
        |edition| one_of_each(edition).flat_map(|fields| (0..128).map(move |bit| (fields, bit)));
    let turned = EDITIONS
        .into_iter()
        .flat_map(move |edition| all(edition).map(move |turned| (edition, turned)));
    let short = size == Size::Short;
    let parts = EDITIONS
        .map(|edition| banks(edition).len() as u64)
        .iter()
        .sum();
    let mut sample = rng.clone();
    let of_register = |bit| bit / 8 == 3;
    let taken =
        turned.filter(move |&(_, (_, bit))| !short || of_register(bit) || sample.below(parts) == 0);
    Box::new(taken.map(move |(edition, (fields, bit))| {
        let right = u128::from_le_bytes(fields.to_bytes());
        shown(edition, (right ^ 1 << bit).to_le_bytes(), &mut rng)
    }))
}

/// The same records with every byte that might be the bank, in a short run with some.
pub fn bank_bytes(mut rng: Rng, size: Size) -> Requests {
    let all = EDITIONS.into_iter().flat_map(|edition| {
        one_of_each(edition)
            .flat_map(move |fields| (0..=u8::MAX).map(move |byte| (edition, fields, byte)))
    });
    let near = |byte: u8| byte <= 4 || byte.is_power_of_two() || byte == u8::MAX;
    let taken = all.filter(move |&(_, _, byte)| size == Size::Full || near(byte));
    Box::new(taken.map(move |(edition, fields, byte)| {
        shown(edition, fields.in_bank(byte).to_bytes(), &mut rng)
    }))
}

/// The record behind those that turn all on, and then what shows what has become of the banks.
fn shown(edition: Edition, record: [u8; RECORD_LEN], rng: &mut Rng) -> Request {
    let (encoder, _) = channels_on(edition);
    let more = [Fields::pins(encoder, 3), Fields::ticks(77)];
    let more = banks(edition).flat_map(|bank| in_bank(bank, &more));
    let mut records: Vec<_> = all_on(edition).map(Fields::to_bytes).collect();
    records.push(record);
    records.extend(more.chain(all_reads(edition)).map(Fields::to_bytes));
    lent_roomy(build(edition, &[], &records), rng)
}

/// One of each of a bank at work, in every bank.
fn all_on(edition: Edition) -> impl Iterator<Item = Fields> {
    banks(edition).flat_map(move |bank| in_bank(bank, &all_on_in(edition, bank)))
}

/// Each is applied behind those.
pub fn one_of_each(edition: Edition) -> impl Iterator<Item = Fields> {
    banks(edition).flat_map(move |bank| in_bank(bank, &one_of_each_in(edition, bank)))
}

/// The encoder and the PWM channel that are at work.
fn channels_on(edition: Edition) -> (u8, u8) {
    if edition.rules().port {
        (0, 2)
    } else {
        (2, 9)
    }
}

/// Encoders, PWM channels and I2C routed side by side, and one of each at work, otherwise in each bank.
fn all_on_in(edition: Edition, bank: u8) -> Vec<Fields> {
    let other = u64::from(bank);
    let (encoder, pwm) = channels_on(edition);
    let select = if edition.rules().port {
        0xBF - other
    } else {
        0xAAAA | 0x555 << 16 | 0xF << 28 | (0x55 - other) << 32
    };
    vec![
        Fields::write(SELECT, 0, 0, select),
        Fields::write(ENCODER, encoder, 0, 1),
        Fields::pins(encoder, 0),
        Fields::write(PWM, pwm, 0, 4),
        Fields::write(PWM, pwm, 1, 2),
        Fields::write(PWM, pwm, 2, 40 + other),
        Fields::write(PWM, pwm, 3, 20 + other),
        Fields::ticks(33),
        Fields::write(I2C, 0, 0, 8 + 2 * other),
        Fields::write(I2C, 0, 1, 0b0011),
    ]
}

fn one_of_each_in(edition: Edition, bank: u8) -> Vec<Fields> {
    let (encoder, pwm) = channels_on(edition);
    let mut records = all_on_in(edition, bank);
    if edition.rules().slaves_answer {
        records.push(Fields::answer(2));
    }
    records.push(Fields::write(PWM, pwm, 0, 5));
    records.push(Fields::write(I2C, 0, 2, 1));
    records.push(Fields::pins(encoder, 1));
    records.extend(reads_of_a_bank(edition).filter(|read| match read.block {
        ENCODER => read.channel == encoder,
        PWM => read.channel == pwm,
        _ => true,
    }));
    records
}

#[derive(Clone, Copy)]
enum Which {
    First,
    Last,
    Some,
}

/// Every CNFG and some above the range, in every bank, of an encoder that is routed and of one that is not; then
/// what has become of it, and of the same encoder in the other bank.
pub fn encoder_cnfgs(mut rng: Rng, _: Size) -> Requests {
    let values = (0..=64u64).chain([0x104, 0x1_0000_0004, 1 << 63 | 4, u64::MAX]);
    let all = EDITIONS.into_iter().flat_map(move |edition| {
        let values = values.clone();
        banks(edition).flat_map(move |bank| {
            let values = values.clone();
            let ways = values.flat_map(|value| [(value, true), (value, false)]);
            ways.flat_map(move |(value, routed)| {
                [Which::First, Which::Last, Which::Some]
                    .map(|which| (edition, bank, value, routed, which))
            })
        })
    });
    Box::new(all.map(move |(edition, bank, value, routed, which)| {
        let channel = match which {
            Which::First => 0,
            Which::Last => edition.rules().encoders as u8 - 1,
            Which::Some => some_encoder(edition, &mut rng),
        };
        let select = Fields::write(SELECT, 0, 0, every_encoder(edition));
        let mut records: Vec<Fields> = banks(edition)
            .filter(|&other| routed || other != bank)
            .map(|bank| select.in_bank(bank))
            .collect();
        records.push(Fields::write(ENCODER, channel, 0, value).in_bank(bank));
        for pins in [0, 1, 3] {
            records.push(Fields::pins(channel, pins).in_bank(bank));
        }
        for bank in banks(edition) {
            let reads = [0, 1, 2].map(|register| Fields::read(ENCODER, channel, register));
            records.extend(in_bank(bank, &reads));
        }
        lent_roomy(log_of(edition, &records), &mut rng)
    }))
}

/// Every setting of EN, RST and MODE with every five pins, read after each.
pub fn pins(mut rng: Rng, _: Size) -> Requests {
    let all = (0..8u64).flat_map(|cnfg| (0..4u64.pow(5)).map(move |walk| (cnfg, walk)));
    Box::new(all.map(move |(cnfg, walk)| {
        let allowed = |edition: &Edition| cnfg & 4 == 0 || !edition.rules().quadrature_only;
        let taken: Vec<Edition> = EDITIONS.into_iter().filter(allowed).collect();
        let edition = rng.pick(&taken);
        let channel = some_encoder(edition, &mut rng);
        let mut records = vec![
            Fields::write(SELECT, 0, 0, every_encoder(edition)),
            Fields::write(ENCODER, channel, 0, cnfg),
        ];
        for step in 0..5 {
            records.push(Fields::pins(channel, walk >> (2 * step) & 3));
            records.push(Fields::read(ENCODER, channel, 1));
            records.push(Fields::read(ENCODER, channel, 2));
        }
        // A rise of CERR or COVR, then one that stays, between two more pins.
        let clear = cnfg | rng.pick(&[8, 16, 24]);
        for _ in 0..2 {
            records.push(Fields::write(ENCODER, channel, 0, clear));
            records.push(Fields::pins(channel, rng.below(4)));
            records.push(Fields::read(ENCODER, channel, 1));
        }
        lent_somewhere(edition, &records, &mut rng)
    }))
}

/// Every small MAX and CMP, either level first, three dividers, read after every tick.
pub fn pwms(mut rng: Rng, _: Size) -> Requests {
    let all = in_each_edition(|| {
        (0..5u64).flat_map(|max| {
            (0..7u64).flat_map(move |cmp| {
                [0, 1, 4, 5]
                    .into_iter()
                    .flat_map(move |cnfg| (1..=3u64).map(move |cs| (max, cmp, cnfg, cs)))
            })
        })
    });
    Box::new(all.map(move |(edition, (max, cmp, cnfg, cs))| {
        let channel = some_pwm(edition, &mut rng);
        let mut records = vec![Fields::write(SELECT, 0, 0, every_pwm(edition))];
        let writes = [cnfg, cs, max, cmp];
        for (register, value) in (0..4).zip(writes) {
            records.push(Fields::write(PWM, channel, register, value));
        }
        for tick in 0..32 {
            records.push(Fields::ticks(1));
            records.push(Fields::read(PWM, channel, 4));
            records.push(Fields::read(PWM, channel, 5));
            if tick == 13 {
                let register = rng.below(4) as usize;
                records.push(Fields::write(
                    PWM,
                    channel,
                    register as u8,
                    writes[register],
                ));
            }
        }
        lent_somewhere(edition, &records, &mut rng)
    }))
}

/// Every divider and level with edges of MAX and CMP: waits of some rounds, to the step and one tick to
/// either side, and the longest with and without a remainder; then waits of powers of two, from a counter
/// above the top.
pub fn waits(mut rng: Rng, _: Size) -> Requests {
    let all = in_each_edition(|| {
        (1..=7u64).flat_map(|cs| {
            [0, 1, 4, 5].into_iter().flat_map(move |cnfg| {
                let maxes = [0, 1, 2, 999, 65_534, 65_535u64].into_iter();
                maxes.flat_map(move |max| cmps(max).map(move |cmp| [cnfg, cs, max, cmp]))
            })
        })
    });
    Box::new(all.map(move |(edition, writes)| {
        let channel = some_pwm(edition, &mut rng);
        let write = |register: u8, value| Fields::write(PWM, channel, register, value);
        let look = [4, 5].map(|register| Fields::read(PWM, channel, register));
        let [_, cs, max, _] = writes;
        let mut records = vec![Fields::write(SELECT, 0, 0, every_pwm(edition))];
        records.extend(
            (0..4)
                .zip(writes)
                .map(|(register, value)| write(register, value)),
        );
        for ticks in edges_of_waits(writes) {
            records.push(Fields::ticks(ticks));
            records.extend(look);
        }
        for bit in 15..32 {
            let high = Fields::ticks(60_000 << (cs - 1));
            records.extend([
                write(2, 65_535),
                high,
                write(2, max),
                Fields::ticks(1 << bit),
            ]);
            records.extend(look);
        }
        lent_somewhere(edition, &records, &mut rng)
    }))
}

fn cmps(max: u64) -> impl Iterator<Item = u64> {
    let cmps = [0, 1, max / 2, max, max + 1, 65_535].into_iter();
    let cmps: BTreeSet<u64> = cmps.filter(|&cmp| cmp <= 65_535).collect();
    cmps.into_iter()
}

fn edges_of_waits([cnfg, cs, max, cmp]: [u64; 4]) -> Vec<u64> {
    let n = 1 << (cs - 1);
    let round = if cnfg < 4 { 65_536 } else { max + 1 };
    let rounds = [1, 2, 3, 1_000].map(|rounds| rounds * round);
    let steps = rounds
        .into_iter()
        .chain([1, 2, cmp, round + cmp, 65_536, 65_537]);
    let around = |steps: u64| [n * steps, n * steps + 1, (n * steps).saturating_sub(1)];
    let longest = [TICKS_MAX, 1, TICKS_MAX, TICKS_MAX - 1, 1, TICKS_MAX];
    let waits = steps.flat_map(around).chain(longest);
    waits.filter(|&ticks| ticks <= TICKS_MAX).collect()
}

/// Counters at MAX and above it, near it and near 65,535, with CMP at every edge: read after every step, then
/// led to where a counter that runs on comes to 65,535, and again read after every step.
pub fn counters_above(mut rng: Rng, _: Size) -> Requests {
    let all = in_each_edition(|| {
        [0, 2, 65_533u64].into_iter().flat_map(|max| {
            counters_from(max).flat_map(move |counter| {
                edges_above(max, counter).flat_map(move |cmp| {
                    [4, 5]
                        .into_iter()
                        .flat_map(move |cnfg| [1, 2u64].map(|cs| (max, counter, cmp, cnfg, cs)))
                })
            })
        })
    });
    Box::new(all.map(move |(edition, (max, counter, cmp, cnfg, cs))| {
        let channel = some_pwm(edition, &mut rng);
        let write = |register: u8, value| Fields::write(PWM, channel, register, value);
        let look = [4, 5].map(|register| Fields::read(PWM, channel, register));
        let mut records = vec![
            Fields::write(SELECT, 0, 0, every_pwm(edition)),
            write(0, cnfg),
            write(1, 1),
            write(3, rng.pick(&[0, 65_535])),
            // An arrival at 0 for a first level.
            Fields::ticks(rng.below(2)),
            write(2, 65_535),
            Fields::ticks(counter),
            write(2, max),
            write(3, cmp),
            write(1, cs),
        ];
        let n = 1 << (cs - 1);
        let led = [0, (65_532 - STEPS).saturating_sub(counter)];
        for led in led {
            records.push(Fields::ticks(n * led));
            for _ in 0..STEPS {
                records.push(Fields::ticks(n));
                records.extend(look);
            }
        }
        lent_somewhere(edition, &records, &mut rng)
    }))
}

/// How many steps are looked at in a row.
const STEPS: u64 = 8;

fn counters_from(max: u64) -> impl Iterator<Item = u64> {
    let near = [max, max + 1, max + 2, 300, 65_530, 65_534, 65_535];
    let near: BTreeSet<u64> = near.into_iter().collect();
    near.into_iter()
        .filter(move |&at| max <= at && at <= 65_535)
}

fn edges_above(max: u64, counter: u64) -> impl Iterator<Item = u64> {
    let edges = [
        0,
        max,
        max + 1,
        counter,
        counter + 1,
        counter + 3,
        65_534,
        65_535,
    ];
    let edges: BTreeSet<u64> = edges.into_iter().filter(|&cmp| cmp <= 65_535).collect();
    edges.into_iter()
}

/// Every state, R/S and control code, after a byte that was acknowledged and after one that was not, and with
/// every answer of the slave, straight on and with SELECT away and back in between; then STOP alone, which shows
/// what is recalled, or another byte.
pub fn i2c_codes(mut rng: Rng, _: Size) -> Requests {
    // The codes that lead to idle, TX idle and RX idle, if any, by R/S and CNTL.
    let before = [
        None,
        Some((0, 0b0011)),
        Some((0, 0b1011)),
        Some((1, 0b0011)),
        Some((1, 0b1011)),
    ];
    let all = before.into_iter().flat_map(|before| {
        (0..2u64).flat_map(move |receive| (0..16u64).map(move |cntl| (before, receive, cntl)))
    });
    let all = all.flat_map(|(before, receive, cntl)| {
        [false, true].map(|away| (before, away, receive, cntl))
    });
    Box::new(all.flat_map(move |(before, away, receive, cntl)| {
        let mut requests = Vec::new();
        for edition in EDITIONS {
            let select = |value| Fields::write(SELECT, 0, 0, value);
            let here = select(i2c_alone(edition));
            let look: Vec<Fields> = reads_of_a_bank(edition)
                .filter(|read| read.block == I2C && read.register >= STATE)
                .collect();
            for answers in answers(edition, &mut rng) {
                let mut records = vec![here];
                records.extend(before.into_iter().flat_map(|(addr, cntl)| go(addr, cntl)));
                records.extend(answers.into_iter().map(Fields::answer));
                if away {
                    records.extend([select(0), here]);
                }
                records.extend(&look);
                records.extend(go((rng.below(128) << 1) | receive, cntl));
                records.extend(&look);
                let then = rng.pick(&[0b0100, 0b1100, 0b0100, 0b1100, 0b0011, 0b0001]);
                records.extend(go(rng.below(256), then));
                records.extend(&look);
                requests.push(lent_somewhere(edition, &records, &mut rng));
            }
        }
        requests
    }))
}

/// None, each, and two of which the last counts.
fn answers(edition: Edition, rng: &mut Rng) -> Vec<Vec<u64>> {
    let mut answers = vec![Vec::new()];
    if edition.rules().slaves_answer {
        answers.extend((0..4).map(|answer| vec![answer]));
        answers.push(vec![rng.below(4), rng.below(4)]);
    }
    answers
}

fn go(addr: u64, cntl: u64) -> [Fields; 3] {
    [(0, addr), (1, cntl), (2, 1)].map(|(register, value)| Fields::write(I2C, 0, register, value))
}

/// Every four functions of two neighbouring pairs, with and without SPI and I2C whole beside them;
/// then a write to what may have become routed.
pub fn selects(mut rng: Rng, _: Size) -> Requests {
    let all = (0..9u64).flat_map(|pair| (0..256u64).map(move |bits| bits << (4 * pair)));
    Box::new(all.map(move |bits| {
        let of_pins = |edition: &Edition| !edition.rules().port;
        let of_pins: Vec<Edition> = EDITIONS.into_iter().filter(of_pins).collect();
        let beside = rng.pick(&[0, 0b11_1111 << 10, 0xF << 28]);
        let (encoder, pwm) = (rng.below(10) as u8, rng.below(20) as u8);
        let touched = rng.pick(&[
            Fields::write(ENCODER, encoder, 0, 1),
            Fields::write(PWM, pwm, 1, 1),
            Fields::write(I2C, 0, 0, 9),
        ]);
        let records = [
            Fields::write(SELECT, 0, 0, bits | beside),
            Fields::read(SELECT, 0, 0),
            touched,
            Fields::read(SELECT, 0, 0),
        ];
        lent_somewhere(rng.pick(&of_pins), &records, &mut rng)
    }))
}

/// Every byte for a port, and numbers above one; then a record for each of what may have become routed, and for the
/// other port.
pub fn port_selects(mut rng: Rng, _: Size) -> Requests {
    let touches = [
        Fields::write(ENCODER, 0, 0, 1),
        Fields::pins(0, 1),
        Fields::write(PWM, 0, 1, 1),
        Fields::write(PWM, 1, 1, 1),
        Fields::write(PWM, 2, 1, 1),
        Fields::write(I2C, 0, 0, 9),
        Fields::answer(1),
    ];
    let bytes = 0..=255u64;
    let above =
        (256..=520).chain((8..64).flat_map(|bit| [0, 0x24, 0xBF].map(|low| low | 1 << bit)));
    let above = above.chain([u64::MAX]);
    let of_bytes = bytes.flat_map(move |byte| touches.map(|touched| (byte, touched)));
    let all = of_bytes.chain(above.map(move |value| (value, touches[0])));
    let of_ports = EDITIONS.into_iter().filter(|edition| edition.rules().port);
    let all = of_ports.flat_map(move |edition| {
        let all = all.clone();
        banks(edition).flat_map(move |bank| all.clone().map(move |one| (edition, bank, one)))
    });
    Box::new(all.map(move |(edition, bank, (value, touched))| {
        let select = Fields::read(SELECT, 0, 0);
        let mut records = in_bank(
            bank,
            &[Fields::write(SELECT, 0, 0, value), select, touched, select],
        );
        records.push(select.in_bank(1 - bank));
        records.push(touched.in_bank(1 - bank));
        lent_roomy(log_of(edition, &records), &mut rng)
    }))
}

/// From every byte to every other: an encoder that has seen its pins, and PWM channels that run.
pub fn ports_rerouted(mut rng: Rng, size: Size) -> Requests {
    let free = |byte: &u64| byte & 1 << 6 == 0;
    let pairs = (0..256u64).flat_map(|from| (0..256u64).map(move |to| (from, to)));
    let pairs = pairs.filter(move |(from, to)| free(from) && free(to));
    let step = size.of(11, 1) as usize;
    Box::new(pairs.step_by(step).map(move |(from, to)| {
        let select = |value| Fields::write(SELECT, 0, 0, value);
        let mut records = vec![select(0xBC), Fields::write(ENCODER, 0, 0, 1)];
        records
            .extend((0..3).map(|channel| Fields::write(PWM, channel, 1, 1 + u64::from(channel))));
        records.extend([
            select(from | 1 << 5),
            Fields::pins(0, 0),
            Fields::ticks(5),
            select(from),
            Fields::ticks(9),
            select(to),
            Fields::ticks(12),
            select(to | 1 << 5),
            Fields::pins(0, 1),
            Fields::pins(0, 3),
        ]);
        records.extend(reads_of_a_bank(Edition::Four));
        lent_somewhere(Edition::Four, &records, &mut rng)
    }))
}
