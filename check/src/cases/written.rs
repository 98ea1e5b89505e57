//! Notes and records for the writer.

use super::by_chance::short_log;
use super::in_order::{every_access, every_register, one_of_each};
use super::{lent, Requests, Size};
use crate::exchange::{Call, Request, PLACES};
use crate::generate::{change_bytes, flip_bits, Rng};
use crate::packed;
use crate::reference::edition::{Edition, EDITIONS};
use crate::reference::log::{Log, LOG_MAX, TRAILER_LEN};
use crate::reference::record::{Fields, RECORD_LEN, SELECT};

fn written(
    edition: u64,
    notes: Vec<u8>,
    records: Vec<u8>,
    out_len: usize,
    rng: &mut Rng,
) -> Request {
    Request {
        call: Call::Write,
        beside: notes,
        edition,
        ..lent(records, out_len, rng)
    }
}

/// Mostly with as much room as is needed, to the byte.
fn written_well(edition: u64, notes: Vec<u8>, records: Vec<u8>, rng: &mut Rng) -> Request {
    let needed = notes.len() + records.len() + TRAILER_LEN;
    let out_len = match rng.below(12) {
        0 => 0,
        1 => rng.below(needed as u64 + 1) as usize,
        2..=3 => needed - 1,
        4..=5 => needed + rng.below(41) as usize,
        6 => LOG_MAX.max(needed),
        _ => needed,
    };
    written(edition, notes, records, out_len, rng)
}

/// With room to spare or none.
fn written_roomy(edition: u64, notes: Vec<u8>, records: Vec<u8>, rng: &mut Rng) -> Request {
    let spare = rng.pick(&[0, 0, 1, 30]);
    let out_len = notes.len() + records.len() + TRAILER_LEN + spare;
    written(edition, notes, records, out_len, rng)
}

fn bytes_of(records: &[Fields]) -> Vec<u8> {
    let bytes = records.iter().flat_map(|fields| fields.to_bytes());
    bytes.collect()
}

fn some_edition(rng: &mut Rng) -> u64 {
    rng.pick(&EDITIONS).number().into()
}

/// The parts of made logs, whole or a little damaged, in their own edition or in another one.
pub fn parts_of_logs(mut rng: Rng, size: Size) -> Requests {
    Box::new((0..size.of(2_500, 30_000)).map(move |_| {
        let log = short_log(&mut rng);
        let parts = Log::open(&log).expect("a made log");
        let (notes, mut records) = (parts.notes.to_vec(), parts.record_bytes.to_vec());
        match rng.below(10) {
            0 => records = flip_bits(&records, &mut rng),
            1 => records = change_bytes(&records, &mut rng),
            2 => records.truncate(rng.below(records.len() as u64 + 1) as usize),
            3 => records.extend(vec![0; rng.below(RECORD_LEN as u64) as usize]),
            _ => {}
        }
        let edition = if rng.chance(70) {
            parts.edition.number().into()
        } else {
            rng.below(6)
        };
        written_well(edition, notes, records, &mut rng)
    }))
}

/// Several faults at once, of which the first by order counts; and none.
pub fn faults(mut rng: Rng, size: Size) -> Requests {
    let all = (0..32_u64).flat_map(|faults| (0..2).map(move |which| (faults, which)));
    let all: Vec<_> = all.collect();
    let times = size.of(8, 60);
    Box::new((0..times).flat_map(move |_| {
        let requests: Vec<Request> = all
            .iter()
            .map(|&(faults, which)| with_faults(faults, which, &mut rng))
            .collect();
        requests
    }))
}

fn with_faults(faults: u64, which: usize, rng: &mut Rng) -> Request {
    let wrong = |bit: u32| faults >> bit & 1 == 1;
    let edition = if wrong(0) {
        rng.pick(&[
            0,
            5,
            6,
            256,
            257,
            0x10001,
            1 << 32 | 1,
            1 << 63 | 2,
            u64::MAX,
        ])
    } else {
        some_edition(rng)
    };
    // All of these are in range, although some would be refused by what is routed or was before.
    let good = [
        Fields::ticks(7),
        Fields::read(SELECT, 0, 0),
        Fields::pins(0, 2),
        Fields::write(1, 0, 0, 31),
        Fields::write(2, 2, 1, 7),
        Fields::write(3, 0, 2, 1),
        Fields::write(SELECT, 0, 0, 3),
    ];
    let of_7 = [
        Fields::default(),
        Fields::ticks(1).in_bank(1),
        Fields::read(3, 0, 2),
    ];
    let of_8 = [
        Fields::pins(0, 4),
        Fields::write(1, 0, 0, 32),
        Fields::ticks(1 << 32),
    ];
    let mut records: Vec<Fields> = (0..rng.between(0, 20)).map(|_| rng.pick(&good)).collect();
    if wrong(2) {
        // Two of them, of either number, and some behind.
        let (first, second) = (rng.pick(&of_7), rng.pick(&of_8));
        let pair = if which == 0 {
            [first, second]
        } else {
            [second, first]
        };
        let at = rng.below(records.len() as u64 + 1) as usize;
        records.splice(at..at, pair);
    }
    let mut records = bytes_of(&records);
    if wrong(1) {
        records.extend(vec![rng.pick(&[0, 1, 2]); rng.between(1, 15) as usize]);
    }
    let room = LOG_MAX - TRAILER_LEN - records.len();
    let notes_len = if wrong(3) {
        room + rng.between(1, 20) as usize
    } else {
        rng.below(30) as usize
    };
    let notes = vec![rng.draw() as u8; notes_len];
    let needed = notes.len() + records.len() + TRAILER_LEN;
    let out_len = if wrong(4) {
        needed - rng.between(1, 8) as usize
    } else {
        needed + rng.below(9) as usize
    };
    written(edition, notes, records, out_len, rng)
}

/// Every number that might be an edition.
pub fn editions(mut rng: Rng, size: Size) -> Requests {
    let small = 0..size.of(1_000, 65_600);
    let large = (8..64).flat_map(|bit| (0..=5).map(move |low| (1 << bit) + low));
    let numbers = small.chain(large).chain([u64::MAX]);
    Box::new(numbers.map(move |number| {
        let records = bytes_of(&[Fields::read(SELECT, 0, 0)]);
        written_roomy(number, b"note".to_vec(), records, &mut rng)
    }))
}

/// Every length of short notes and records, and all that come near to the longest log; in every room near by.
pub fn lengths(mut rng: Rng, _: Size) -> Requests {
    let short =
        (0..=40_usize).flat_map(|notes| (0..=50_usize).map(move |records| (notes, records)));
    let longest = LOG_MAX - TRAILER_LEN;
    let full = [0, 16, 4_096, longest - 24, longest - 8, longest + 8, 65_536].into_iter();
    let near = full.flat_map(move |records| {
        let room = longest.saturating_sub(records);
        (room.saturating_sub(3)..=room + 3).map(move |notes| (notes, records))
    });
    let more = [(40_000, 32), (65_536, 0), (1 << 17, 16)];
    Box::new(
        short
            .chain(near)
            .chain(more)
            .flat_map(move |(notes, records)| {
                let read = Fields::read(SELECT, 0, 0).to_bytes();
                let records: Vec<u8> = read.into_iter().cycle().take(records).collect();
                let notes: Vec<u8> = (0..notes).map(|_| rng.draw() as u8).collect();
                let needed = notes.len() + records.len() + TRAILER_LEN;
                let edition = some_edition(&mut rng);
                let rooms = [needed, needed - 1, needed + 2];
                let requests: Vec<Request> = rooms
                    .into_iter()
                    .map(|room| written(edition, notes.clone(), records.clone(), room, &mut rng))
                    .collect();
                requests
            }),
    )
}

/// Every room of a small log, in every place.
pub fn rooms(mut rng: Rng, _: Size) -> Requests {
    let records = bytes_of(&[Fields::ticks(3), Fields::read(SELECT, 0, 0)]);
    Box::new((0..=80_usize).flat_map(move |room| {
        PLACES.map(|place| Request {
            place,
            ..written(2, vec![7; 13], records.clone(), room, &mut rng)
        })
    }))
}

/// Every kind for every register, with edges of values, of every edition, behind a record that is good.
pub fn registers(mut rng: Rng, size: Size) -> Requests {
    let all = EDITIONS.into_iter().flat_map(move |edition| {
        let step = size.of(61, 1) as usize;
        let values = every_access().step_by(step);
        every_register(size)
            .chain(values)
            .map(move |access| (edition, access))
    });
    Box::new(all.map(move |(edition, access)| {
        let access = match access.kind {
            4 => access,
            _ => access.in_bank(super::some_bank(edition, &mut rng)),
        };
        let records = bytes_of(&[Fields::ticks(1), access, Fields::ticks(2)]);
        written_roomy(edition.number().into(), Vec::new(), records, &mut rng)
    }))
}

/// Every byte that might be the bank, and every bit of a record turned over, of every edition.
pub fn bytes(mut rng: Rng, size: Size) -> Requests {
    let all = EDITIONS.into_iter().flat_map(move |edition| {
        one_of_each(edition).flat_map(move |fields| {
            let right = u128::from_le_bytes(fields.to_bytes());
            let bits = (0..128).map(move |bit| (right ^ 1 << bit).to_le_bytes());
            let banks = (0..=u8::MAX).map(move |bank| fields.in_bank(bank).to_bytes());
            bits.chain(banks).map(move |bytes| (edition, bytes))
        })
    });
    let step = size.of(13, 1) as usize;
    Box::new(all.step_by(step).map(move |(edition, bytes)| {
        written_roomy(
            edition.number().into(),
            Vec::new(),
            bytes.to_vec(),
            &mut rng,
        )
    }))
}

/// Whether writing what was read gives the same bytes, for a log whose records pass 7 and 8.
pub fn reads_back(log: &[u8]) -> bool {
    let parts = match Log::open(log) {
        Ok(parts) => parts,
        Err(_) => return false,
    };
    let mut out = vec![0; log.len()];
    let edition = Edition::number(parts.edition).into();
    let word = packed::write(edition, parts.notes, parts.record_bytes, &mut out);
    word == (log.len() as u64) << 8 && out == log
}
