//! The judge: the transcript of a reader against the replay.

use super::device::Device;
use super::encoder::CNTR;
use super::log::{Log, READING_LEN};
use super::record::{Fields, ENCODER};
use super::refusal::{Refusal, TRANSCRIPT_LENGTH_WRONG};
use std::slice::ChunksExact;

#[derive(Debug, Clone, Copy, PartialEq, Eq)]
pub enum Verdict {
    Same,
    /// Same once every encoder CNTR reading is negated.
    Negated,
    /// Both of these.
    Both,
    /// Neither; the index of the first reading that differs from the plain replay.
    Different(u64),
}

/// What a transcript is, or the log's refusal, or that of its length.
pub fn judge(log: &[u8], transcript: &[u8]) -> Result<Verdict, Refusal> {
    let log = Log::open(log)?;
    let mut device = Device::fresh(log.edition);
    let mut comparison = Comparison::with(transcript);
    for bytes in log.records() {
        let record = Fields::from_bytes(bytes);
        if let Some(reading) = device.apply(&record)? {
            comparison.add(reading, is_count(&record));
        }
    }
    comparison.verdict()
}

/// Whether a read is one of an encoder's CNTR.
pub fn is_count(read: &Fields) -> bool {
    (read.block, read.register) == (ENCODER, CNTR)
}

/// Modulo 2^32, as a reading has it.
pub fn negated(count: u64) -> u64 {
    u64::from((count as u32).wrapping_neg())
}

/// What a reader writes down of a log, up to a refused record: its readings, with `said` of each count.
pub fn transcript(log: &[u8], said: fn(u64) -> u64) -> Vec<u8> {
    let log = match Log::open(log) {
        Ok(log) => log,
        Err(_) => return Vec::new(),
    };
    let mut device = Device::fresh(log.edition);
    let all = log.records().map(Fields::from_bytes);
    let readings = all.map_while(|record| match device.apply(&record) {
        Ok(Some(count)) if is_count(&record) => Some(Some(said(count))),
        Ok(reading) => Some(reading),
        Err(_) => None,
    });
    readings.flatten().flat_map(u64::to_le_bytes).collect()
}

/// The readings of a replay beside those of a transcript, as they come.
pub struct Comparison<'a> {
    /// Those that no reading was compared with yet.
    rest: ChunksExact<'a, u8>,
    too_short: bool,
    /// Whether none so far differs from the plain replay.
    same: bool,
    /// How many there are in front of the first that does.
    same_readings: u64,
    /// Whether none so far differs from the replay with its counts negated.
    negated: bool,
}

impl<'a> Comparison<'a> {
    pub fn with(transcript: &'a [u8]) -> Self {
        Comparison {
            rest: transcript.chunks_exact(READING_LEN),
            too_short: false,
            same: true,
            same_readings: 0,
            negated: true,
        }
    }

    #[inline]
    pub fn add(&mut self, reading: u64, is_count: bool) {
        let written = match self.rest.next() {
            Some(bytes) => u64::from_le_bytes(bytes.try_into().expect("eight bytes")),
            None => {
                self.too_short = true;
                return;
            }
        };
        self.same &= written == reading;
        self.same_readings += u64::from(self.same);
        self.negated &= written == if is_count { negated(reading) } else { reading };
    }

    pub fn verdict(self) -> Result<Verdict, Refusal> {
        let too_long = self.rest.len() > 0 || !self.rest.remainder().is_empty();
        if self.too_short || too_long {
            return Err(TRANSCRIPT_LENGTH_WRONG);
        }
        Ok(match (self.same, self.negated) {
            (true, true) => Verdict::Both,
            (true, false) => Verdict::Same,
            (false, true) => Verdict::Negated,
            (false, false) => Verdict::Different(self.same_readings),
        })
    }
}
