//! Families that are never done.

use super::in_order::log_of;
use super::{
    all_reads, banks, every_encoder, every_pwm, in_bank, lent, lent_well, some_bank, Requests, Size,
};
use crate::generate::{change_bytes, damage, flip_bits, generate, wait, Rng, Settings};
use crate::reference::edition::{Edition, EDITIONS};
use crate::reference::log::{build, Trailer, LOG_MAX, RECORDS_MAX, TRAILER_LEN};
use crate::reference::pwm::Pwm;
use crate::reference::record::{Fields, PWM, RECORD_LEN, SELECT, TICKS_MAX};
use crate::reference::Device;

/// The longest wait, by turns: short ones meet every edge of small MAX and CMP.
const LONGEST_WAITS: [u64; 3] = [300, 70_000, TICKS_MAX];

pub fn generated(mut rng: Rng, size: Size) -> Requests {
    Box::new((0..size.of(4_000, 200_000)).map(move |index| {
        let edition = rng.pick(&EDITIONS);
        let mut log = generate(rng.draw(), &settings(index, edition, &mut rng));
        if rng.chance(50) {
            log = with_end_read(edition, &log);
        }
        lent_well(log, &mut rng)
    }))
}

/// Five logs in a hundred are full, or will be; most are short, so that there can be many.
fn settings(index: u64, edition: Edition, rng: &mut Rng) -> Settings {
    let nearly_full = RECORDS_MAX - all_reads(edition).count();
    let (least_records, most_records) = match index % 100 {
        0..=1 => (nearly_full, nearly_full),
        2..=4 => (RECORDS_MAX, RECORDS_MAX),
        5..=14 => (1, RECORDS_MAX),
        15..=49 => (1, 400),
        _ => (1, 80),
    };
    Settings {
        edition: Some(edition),
        least_records,
        most_records,
        most_ticks: rng.pick(&LONGEST_WAITS),
        ..Settings::default()
    }
}

/// The log, and behind its records a read of every register, as far as there is room.
fn with_end_read(edition: Edition, log: &[u8]) -> Vec<u8> {
    let (in_front, trailer) = Trailer::split_off(log).expect("a made log has a trailer");
    let room = (LOG_MAX - log.len()) / RECORD_LEN;
    let reads: Vec<_> = all_reads(edition)
        .take(room)
        .map(Fields::to_bytes)
        .collect();
    let distance = trailer.distance + (reads.len() * RECORD_LEN) as u32;
    let trailer = Trailer {
        distance,
        ..trailer
    };
    [in_front, &reads.concat(), &trailer.to_bytes()].concat()
}

pub fn short_log(rng: &mut Rng) -> Vec<u8> {
    let settings = Settings {
        most_records: 60,
        most_ticks: rng.pick(&LONGEST_WAITS),
        ..Settings::default()
    };
    generate(rng.draw(), &settings)
}

/// Damage anywhere, or to the records alone, so that the trailer lets them be seen.
pub fn damaged(mut rng: Rng, size: Size) -> Requests {
    Box::new((0..size.of(2_000, 40_000)).map(move |_| {
        let mut log = short_log(&mut rng);
        let trailer = log.split_off(log.len() - TRAILER_LEN);
        if rng.chance(60) {
            let records = if rng.chance(50) {
                flip_bits(&log, &mut rng)
            } else {
                change_bytes(&log, &mut rng)
            };
            log = [records, trailer].concat();
        } else {
            log = [log, trailer].concat();
            for _ in 0..rng.between(1, 3) {
                log = damage(&log, &mut rng);
            }
        }
        lent_well(log, &mut rng)
    }))
}

/// Records whose bytes are small numbers by chance, so that many of them name something.
pub fn random_records(mut rng: Rng, size: Size) -> Requests {
    Box::new((0..size.of(2_000, 20_000)).map(move |_| {
        let edition = rng.pick(&EDITIONS);
        let wide = rng.chance(30);
        let count = if wide { 1 } else { rng.between(1, 12) };
        let mut records = Vec::new();
        for bank in banks(edition) {
            if rng.chance(70) {
                let select = if edition.rules().port {
                    rng.pick(&[0xBF, 0xA0, 0x3C, 0x20])
                } else {
                    rng.pick(&[0x55_5555_5555, 0xAA_AAAA_AAAA, 0xAA_F555_5AAA])
                };
                let write = Fields::write(SELECT, 0, 0, select).in_bank(bank);
                records.push(write.to_bytes());
            }
        }
        for _ in 0..count {
            records.push(random_record(edition, wide, &mut rng).to_bytes());
        }
        lent_well(build(edition, &[], &records), &mut rng)
    }))
}

fn random_record(edition: Edition, wide: bool, rng: &mut Rng) -> Fields {
    let small = |most: u64, rng: &mut Rng| {
        if wide && rng.chance(20) {
            rng.draw() as u8
        } else {
            rng.below(most + 1) as u8
        }
    };
    let bits = rng.below(if wide { 65 } else { 9 });
    let mut fields = Fields {
        kind: small(5, rng),
        block: small(3, rng),
        channel: small(if edition.rules().port { 3 } else { 10 }, rng),
        register: small(4, rng),
        ..Fields::default()
    };
    if fields.kind != 2 || rng.chance(5) {
        fields.value = rng.draw().checked_shr(64 - bits as u32).unwrap_or(0);
    }
    if fields.kind != 4 || rng.chance(5) {
        fields.bank = some_bank(edition, rng);
    }
    if rng.chance(if wide { 10 } else { 1 }) {
        fields.bank = rng.draw() as u8 >> rng.below(8);
    }
    if rng.chance(if wide { 10 } else { 1 }) {
        fields.reserved = (rng.draw() as u32 & 0xFF) << (8 * rng.below(3));
    }
    fields
}

/// Bytes by chance in front of a good trailer, or behind it.
pub fn random_bytes(mut rng: Rng, size: Size) -> Requests {
    Box::new((0..size.of(2_000, 20_000)).map(move |_| {
        let len = rng.below(200) as usize;
        let mut bytes: Vec<u8> = (0..len).map(|_| rng.draw() as u8).collect();
        if rng.chance(20) {
            let mut log = short_log(&mut rng);
            log.append(&mut bytes);
            return lent_well(log, &mut rng);
        }
        let records = (0..len / RECORD_LEN).map(|_| random_bytes_of_record(&mut rng));
        let records: Vec<_> = records.collect();
        let log = build(rng.pick(&EDITIONS), &bytes, &records);
        lent_well(log, &mut rng)
    }))
}

fn random_bytes_of_record(rng: &mut Rng) -> [u8; RECORD_LEN] {
    let mut record = [0; RECORD_LEN];
    record[..8].copy_from_slice(&rng.draw().to_le_bytes());
    record[8..].copy_from_slice(&rng.draw().to_le_bytes());
    if rng.chance(50) {
        record[0] = rng.below(6) as u8;
    }
    if rng.chance(50) {
        record[4..8].copy_from_slice(&[rng.below(2) as u8, 0, 0, 0]);
    }
    record
}

pub fn random_selects(mut rng: Rng, size: Size) -> Requests {
    Box::new((0..size.of(1_000, 10_000)).map(move |_| {
        let edition = rng.pick(&EDITIONS);
        let mut value = rng.draw() >> 24;
        if rng.chance(80) {
            value = if edition.rules().port {
                value & 0xFF
            } else {
                without_lone_threes(value, &mut rng)
            };
        }
        let first = rng.pick(&[every_pwm(edition), every_encoder(edition), 0]);
        let records = [
            Fields::write(SELECT, 0, 0, first),
            Fields::write(SELECT, 0, 0, value),
            Fields::read(SELECT, 0, 0),
        ];
        let records = in_bank(some_bank(edition, &mut rng), &records);
        lent(log_of(edition, &records), 8, &mut rng)
    }))
}

/// Some PWM channels of any settings, with waits of any length; now and then a register is written anew
/// in between, so that the counter may stand above the top.
pub fn long_waits(mut rng: Rng, size: Size) -> Requests {
    Box::new((0..size.of(1_000, 30_000)).map(move |_| {
        let edition = rng.pick(&EDITIONS);
        let all = Fields::write(SELECT, 0, 0, every_pwm(edition));
        let mut records: Vec<Fields> = banks(edition).map(|bank| all.in_bank(bank)).collect();
        let first = rng.below(edition.rules().pwms as u64 - 2) as u8;
        // One and the same channel of both banks may be among them.
        let channels = [first, first + 1, first + rng.below(3) as u8]
            .map(|channel| (some_bank(edition, &mut rng), channel));
        for (bank, channel) in channels {
            let writes = (0..4).map(|register| pwm_write(channel, register, &mut rng));
            records.extend(writes.map(|write| write.in_bank(bank)));
        }
        for _ in 0..12 {
            let (bank, channel) = rng.pick(&channels);
            if rng.chance(30) {
                let register = rng.below(4) as u8;
                records.push(pwm_write(channel, register, &mut rng).in_bank(bank));
            }
            let pwm = pwm_after(edition, &records, bank, channel);
            let ticks = wait(&pwm, edition.rules().runs_on, TICKS_MAX, &mut rng);
            records.push(Fields::ticks(ticks));
            for (bank, channel) in channels {
                let reads = [4, 5].map(|register| Fields::read(PWM, channel, register));
                records.extend(reads.map(|read| read.in_bank(bank)));
            }
        }
        lent_well(log_of(edition, &records), &mut rng)
    }))
}

fn pwm_write(channel: u8, register: u8, rng: &mut Rng) -> Fields {
    let value = match register {
        0 => rng.pick(&[0, 1, 4, 4, 5, 5]),
        1 => rng.between(1, 7),
        _ => match rng.below(4) {
            0 => rng.pick(&[0, 1, 65_534, 65_535]),
            1 => rng.below(10),
            _ => rng.below(65_536),
        },
    };
    Fields::write(PWM, channel, register, value)
}

/// The channel as records that are all applied leave it.
fn pwm_after(edition: Edition, records: &[Fields], bank: u8, channel: u8) -> Pwm {
    let mut device = Device::fresh(edition);
    for fields in records {
        device.apply(fields).expect("a record of this family");
    }
    device.banks[usize::from(bank)].pwms[usize::from(channel)].clone()
}

/// Pins in pairs, and a 3 only where it may stand: about half of these are allowed.
fn without_lone_threes(value: u64, rng: &mut Rng) -> u64 {
    let mut select = 0;
    for pair in 0..10 {
        let nibble = match value >> (4 * pair) & 3 {
            0 => 0b0000,
            1 => 0b0101,
            2 => 0b1010,
            _ => 0b0100,
        };
        select |= nibble << (4 * pair);
    }
    if rng.chance(40) {
        select |= 0b11_1111 << 10;
        select &= !(0b11 << 8);
    }
    if rng.chance(40) {
        select |= 0b1111 << 28;
    }
    if rng.chance(30) {
        select ^= 1 << rng.below(40);
    }
    select
}
