//! What the library is asked in a comparison: families of logs, each with a name of its own.
//!
//! A seed and a size give the same requests on every machine.

mod by_chance;
mod dumped;
mod in_order;
mod judged;
mod streamed;
mod walked;
mod written;

pub use dumped::longest_dump;
pub use written::reads_back;

use crate::exchange::{Call, Request, PLACES};
use crate::generate::Rng;
use crate::reference::log::{records, READING_LEN, RECORDS_MAX};
use crate::reference::record::{Fields, ENCODER, I2C, PWM, READ, SELECT, TICKS};
use crate::reference::Edition;
use std::ops::Range;

/// How many requests a family makes, where it could make any number.
#[derive(Debug, Clone, Copy, PartialEq, Eq)]
pub enum Size {
    /// Enough to tell a library with a mistake from a right one.
    Short,
    /// As the gate wants it.
    Full,
    /// So many hundredths of that.
    Percent(u64),
}

impl Size {
    fn of(self, short: u64, full: u64) -> u64 {
        match self {
            Size::Short => short,
            Size::Full => full,
            Size::Percent(percent) => full.saturating_mul(percent) / 100,
        }
    }
}

pub type Requests = Box<dyn Iterator<Item = Request> + Send>;

#[derive(Clone, Copy)]
pub struct Family {
    pub name: &'static str,
    /// Whether another seed makes other logs, so that a longer run is worth its time.
    pub by_chance: bool,
    make: fn(Rng, Size) -> Requests,
}

impl Family {
    pub fn requests(&self, seed: u64, size: Size) -> Requests {
        let own = self.name.bytes().fold(seed, |sum, byte| {
            sum.wrapping_mul(31).wrapping_add(byte.into())
        });
        (self.make)(Rng::new(own), size)
    }
}

macro_rules! family {
    ($name:expr, $by_chance:literal, $make:expr) => {
        Family {
            name: $name,
            by_chance: $by_chance,
            make: $make,
        }
    };
}

pub const FAMILIES: &[Family] = &[
    family!("generated logs", true, by_chance::generated),
    family!("damaged logs", true, by_chance::damaged),
    family!("random records", true, by_chance::random_records),
    family!(
        "random bytes around a trailer",
        true,
        by_chance::random_bytes
    ),
    family!("random SELECT values", true, by_chance::random_selects),
    family!("long waits", true, by_chance::long_waits),
    family!("every truncation", false, in_order::truncations),
    family!("lengths", false, in_order::lengths),
    family!("every distance", false, in_order::distances),
    family!("every edition", false, in_order::editions),
    family!("every mark", false, in_order::marks),
    family!("outputs of every length", false, in_order::outputs),
    family!("every access", false, in_order::accesses),
    family!("every register", false, in_order::registers),
    family!("every bit of a record", false, in_order::bits),
    family!("every byte for the bank", false, in_order::bank_bytes),
    family!("every encoder CNFG", false, in_order::encoder_cnfgs),
    family!("every five pins", false, in_order::pins),
    family!("every small PWM", false, in_order::pwms),
    family!("waits to every edge", false, in_order::waits),
    family!("counters above MAX", false, in_order::counters_above),
    family!("every I2C code", false, in_order::i2c_codes),
    family!("every pair of pin functions", false, in_order::selects),
    family!("every byte for a port", false, in_order::port_selects),
    family!("ports rerouted", false, in_order::ports_rerouted),
    family!("transcripts", true, judged::transcripts),
    family!("transcripts of full logs", true, judged::full_logs),
    family!("every bit of a transcript", false, judged::bits),
    family!("transcripts of every length", false, judged::lengths),
    family!("transcripts beside refused logs", false, judged::refused),
];

/// For the dump and its reader.
pub const DUMP_FAMILIES: &[Family] = &[
    family!("dumps of pins", true, dumped::pins),
    family!("dumps of full logs", true, dumped::full_logs),
    family!("dumps of generated logs", true, dumped::generated),
    family!("dumps of damaged logs", true, dumped::damaged),
    family!("dumps of each encoder", false, dumped::each_encoder),
    family!("dumps in every room", false, dumped::rooms),
    family!("texts of dumps", true, dumped::texts_of_dumps),
    family!("made texts", true, dumped::made_texts),
    family!("damaged texts", true, dumped::damaged_texts),
    family!("random texts", true, dumped::random_texts),
    family!("every damage to a text", false, dumped::every_damage),
    family!("times at every edge", false, dumped::times),
    family!("texts of every length", false, dumped::text_lengths),
];

/// For the writer.
pub const WRITE_FAMILIES: &[Family] = &[
    family!("written parts of logs", true, written::parts_of_logs),
    family!("written with faults", true, written::faults),
    family!("written in every edition", false, written::editions),
    family!("written in every length", false, written::lengths),
    family!("written in every room", false, written::rooms),
    family!("written for every register", false, written::registers),
    family!("written with every bit and bank", false, written::bytes),
];

/// Those of a call that walks through a log, under its own word.
macro_rules! walked {
    ($word:literal, $call:ident) => {
        &[
            family!(concat!($word, " walks"), true, |rng, size| walked::$call
                .walks(rng, size)),
            family!(concat!($word, " full logs"), true, |rng, size| {
                walked::$call.full_logs(rng, size)
            }),
            family!(concat!($word, " generated logs"), true, |rng, size| {
                walked::$call.generated(rng, size)
            }),
            family!(
                concat!($word, " logs with each fault"),
                true,
                |rng, size| { walked::$call.faults(rng, size) }
            ),
            family!(concat!($word, " damaged logs"), true, |rng, size| {
                walked::$call.damaged(rng, size)
            }),
            family!(concat!($word, " logs in every room"), false, |rng, size| {
                walked::$call.rooms(rng, size)
            }),
            family!(
                concat!($word, " pins with each record between"),
                false,
                |rng, size| walked::$call.between(rng, size)
            ),
            family!(concat!($word, " every six pins"), false, |rng, size| {
                walked::$call.every_walk(rng, size)
            }),
        ]
    };
}

/// For shrinking.
pub const SHRINK_FAMILIES: &[Family] = walked!("shrunk", SHRINK);

/// For the sign.
pub const SIGN_FAMILIES: &[Family] = walked!("signs of", SIGN);

/// For the stream.
pub const STREAM_FAMILIES: &[Family] = &[
    family!("streams by chance", true, streamed::by_chance),
    family!("streams with each fault", true, streamed::faults),
    family!("two streams side by side", true, streamed::side_by_side),
    family!("damaged states", true, streamed::damaged),
    family!("long streams", true, streamed::long),
    family!("streams cut everywhere", false, streamed::every_cut),
    family!("streams of every edition", false, streamed::starts),
    family!("streams in every room", false, streamed::rooms),
];

/// For states that no log comes to, whose bytes are edited.
pub const FAR_FAMILIES: &[Family] = &[family!("edited states", true, streamed::far)];

/// For a state that only a long run comes to.
pub const COUNTED_FAMILIES: &[Family] =
    &[family!("a run of 2^31 steps", false, streamed::counted_far)];

/// A log lent with an output of the given length, somewhere.
fn lent(log: Vec<u8>, out_len: usize, rng: &mut Rng) -> Request {
    Request {
        call: Call::Replay,
        log,
        beside: Vec::new(),
        out_len,
        pattern: rng.draw(),
        place: rng.pick(&PLACES),
        edition: 0,
    }
}

/// A log lent to the judge with a transcript, somewhere.
fn judged(log: Vec<u8>, transcript: Vec<u8>, rng: &mut Rng) -> Request {
    Request {
        call: Call::Judge,
        beside: transcript,
        ..lent(log, 0, rng)
    }
}

/// A log lent with an output that is mostly long enough.
fn lent_well(log: Vec<u8>, rng: &mut Rng) -> Request {
    let needed = needed(&log);
    let out_len = match rng.below(20) {
        0 => needed.saturating_sub(1 + rng.below(8) as usize),
        1 => rng.below(needed as u64 + 1) as usize,
        2 => RECORDS_MAX * READING_LEN,
        3..=6 => needed + rng.below(41) as usize,
        _ => needed,
    };
    lent(log, out_len, rng)
}

/// A log lent with an output that is long enough, to the byte or with some to spare.
fn lent_roomy(log: Vec<u8>, rng: &mut Rng) -> Request {
    let spare = rng.pick(&[0, 0, 0, 1, 7, 8, 40]);
    let out_len = needed(&log) + spare;
    lent(log, out_len, rng)
}

fn banks(edition: Edition) -> Range<u8> {
    0..1 + u8::from(edition.rules().bank_b)
}

fn some_encoder(edition: Edition, rng: &mut Rng) -> u8 {
    rng.below(edition.rules().encoders as u64) as u8
}

fn some_pwm(edition: Edition, rng: &mut Rng) -> u8 {
    rng.below(edition.rules().pwms as u64) as u8
}

/// A SELECT that routes all encoders of a bank.
fn every_encoder(edition: Edition) -> u64 {
    if edition.rules().port {
        1 << 5
    } else {
        0xAA_AAAA_AAAA
    }
}

/// A SELECT that routes all PWM channels of a bank.
fn every_pwm(edition: Edition) -> u64 {
    if edition.rules().port {
        0b111 << 2
    } else {
        0x55_5555_5555
    }
}

/// A SELECT that routes I2C.
fn i2c_alone(edition: Edition) -> u64 {
    if edition.rules().port {
        1 << 7
    } else {
        0xF << 28
    }
}

fn some_bank(edition: Edition, rng: &mut Rng) -> u8 {
    rng.below(banks(edition).len() as u64) as u8
}

/// The same records for this bank, but for ticks, which are for all.
fn in_bank(bank: u8, records: &[Fields]) -> Vec<Fields> {
    let moved = records.iter().map(|fields| match fields.kind {
        TICKS => *fields,
        _ => fields.in_bank(bank),
    });
    moved.collect()
}

/// A read of each register that can be read, of each channel of each bank.
fn all_reads(edition: Edition) -> impl Iterator<Item = Fields> {
    banks(edition)
        .flat_map(move |bank| reads_of_a_bank(edition).map(move |read| read.in_bank(bank)))
}

fn reads_of_a_bank(edition: Edition) -> impl Iterator<Item = Fields> {
    let of_i2c: &[u8] = if edition.rules().slaves_answer {
        &[0, 1, 3, 4]
    } else {
        &[0, 1, 3]
    };
    let rules = edition.rules();
    let of = |block, channels: usize, registers: &'static [u8]| {
        (0..channels as u8).flat_map(move |channel| {
            let read = move |&register| Fields::read(block, channel, register);
            registers.iter().map(read)
        })
    };
    of(SELECT, 1, &[0])
        .chain(of(ENCODER, rules.encoders, &[0, 1, 2]))
        .chain(of(PWM, rules.pwms, &[0, 1, 2, 3, 4, 5]))
        .chain(of(I2C, 1, of_i2c))
}

/// What refusal 6 asks of the output; little where it does not come to that.
fn needed(log: &[u8]) -> usize {
    records(log).map_or(READING_LEN, |all| {
        READING_LEN * all.filter(|record| record[0] == READ).count()
    })
}
