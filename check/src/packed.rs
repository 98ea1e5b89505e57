//! The answers as single numbers, the way they cross the C boundary: refusal in the low byte, the
//! rest 0 when refused but for the records applied.

use crate::reference::log::Made;
use crate::reference::refusal::{Refusal, NONE, OUTPUT_TOO_SHORT};
use crate::reference::sign::STRETCH_LEN;
use crate::reference::writer::Unwritten;
use crate::reference::{self, Pair, Verdict};

pub fn replay(log: &[u8], out: &mut [u8]) -> u64 {
    let answer = reference::replay(log, out);
    u64::from(answer.refusal) | answer.applied << 8
}

pub fn judge(log: &[u8], transcript: &[u8]) -> u64 {
    let (number, index) = match reference::judge(log, transcript) {
        Ok(Verdict::Same) => (1, 0),
        Ok(Verdict::Negated) => (2, 0),
        Ok(Verdict::Both) => (3, 0),
        Ok(Verdict::Different(index)) => (4, index),
        Err(refusal) => return refusal.into(),
    };
    u64::from(NONE) | number << 8 | index << 16
}

pub fn dump(log: &[u8], out: &mut [u8]) -> u64 {
    match reference::dump(log) {
        Ok(text) => laid(&text, text.len(), out),
        Err(refusal) => refusal.into(),
    }
}

pub fn dump_read(text: &[u8], out: &mut [u8]) -> u64 {
    match reference::dump_read(text) {
        Ok(entries) => {
            let bytes: Vec<u8> = entries.iter().flat_map(|entry| entry.to_bytes()).collect();
            laid(&bytes, entries.len(), out)
        }
        Err(refusal) => refusal.into(),
    }
}

pub fn write(edition: u64, notes: &[u8], records: &[u8], out: &mut [u8]) -> u64 {
    match reference::write(edition, notes, records) {
        Ok(log) => made(&log, out),
        Err(Unwritten::By(refusal)) => refusal.into(),
        Err(Unwritten::Record(refusal, index)) => u64::from(refusal) | index << 8,
    }
}

pub fn shrink(log: &[u8], out: &mut [u8]) -> u64 {
    match reference::shrink(log) {
        Ok(smaller) => made(&smaller, out),
        Err(refusal) => refusal.into(),
    }
}

pub fn sign(log: &[u8], out: &mut [u8]) -> u64 {
    let (refusal, _, stretches) = reference::sign(log, out.len());
    for (stretch, entry) in stretches.iter().zip(out.chunks_exact_mut(STRETCH_LEN)) {
        entry.copy_from_slice(&stretch.to_bytes());
    }
    u64::from(refusal) | (stretches.len() as u64) << 8
}

/// So many, where their bytes fit.
fn laid(bytes: &[u8], number: usize, out: &mut [u8]) -> u64 {
    fitting(bytes.len(), number, out, |room| room.copy_from_slice(bytes))
}

fn made(log: &Made<'_>, out: &mut [u8]) -> u64 {
    fitting(log.length(), log.length(), out, |room| log.lay(room))
}

fn fitting(len: usize, number: usize, out: &mut [u8], fill: impl FnOnce(&mut [u8])) -> u64 {
    match out.get_mut(..len) {
        Some(room) => {
            fill(room);
            u64::from(NONE) | (number as u64) << 8
        }
        None => OUTPUT_TOO_SHORT.into(),
    }
}

pub fn find_pwm(rate: u64, tol: u64) -> u64 {
    pair(reference::find_pwm(rate, tol))
}

pub fn find_spi(rate: u64, tol: u64) -> u64 {
    pair(reference::find_spi(rate, tol))
}

pub fn rate_pwm(choice: u64, x: u64) -> u64 {
    fraction(reference::rate_pwm(choice, x))
}

pub fn rate_spi(choice: u64, x: u64) -> u64 {
    fraction(reference::rate_spi(choice, x))
}

fn pair(answer: Result<Pair, Refusal>) -> u64 {
    match answer {
        Ok(pair) => {
            let registers = u64::from(pair.choice) << 8 | u64::from(pair.x) << 16;
            u64::from(NONE) | registers | pair.period << 32
        }
        Err(refusal) => u64::from(refusal),
    }
}

fn fraction(answer: Result<(u64, u64), Refusal>) -> u64 {
    match answer {
        Ok((clock, period)) => u64::from(NONE) | period << 8 | clock << 32,
        Err(refusal) => u64::from(refusal),
    }
}
