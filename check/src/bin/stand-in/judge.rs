//! The judge, with one mistake.

use crate::mistakes::Mistake::{self, *};
use rivandoze_check::packed;
use rivandoze_check::reference::judge::{is_count, negated};
use rivandoze_check::reference::log::{each_reading, Log, READING_LEN};
use rivandoze_check::reference::record::{Fields, READ};
use rivandoze_check::reference::refusal::{Refusal, TRANSCRIPT_LENGTH_WRONG};
use rivandoze_check::reference::Device;

pub fn judge(mistake: Option<Mistake>, log: &[u8], transcript: &[u8]) -> u64 {
    match mistake {
        Some(mistake) => Wrong(mistake).judge(log, transcript),
        None => packed::judge(log, transcript),
    }
}

/// What a replay reads.
#[derive(Clone, Copy)]
struct Reading {
    number: u64,
    is_count: bool,
}

/// A judge with this mistake.
#[derive(Clone, Copy)]
struct Wrong(Mistake);

impl Wrong {
    fn judge(self, log: &[u8], transcript: &[u8]) -> u64 {
        let readings = match self.readings(log, transcript) {
            Ok(readings) => readings,
            Err((refusal, applied)) => {
                let tally = if self.0 == JudgeTallyWhenRefused {
                    applied
                } else {
                    0
                };
                return u64::from(refusal) | tally << 8;
            }
        };
        if self.wrong_length(transcript.len(), READING_LEN * readings.len()) {
            return TRANSCRIPT_LENGTH_WRONG.into();
        }
        let (verdict, index) = self.verdict(&readings, transcript);
        verdict << 8 | index << 16
    }

    /// The readings of the log, or its refusal and how many records were applied.
    fn readings(self, log: &[u8], transcript: &[u8]) -> Result<Vec<Reading>, (Refusal, u64)> {
        let refused = |refusal| (refusal, 0);
        if self.0 == JudgeLengthBeforeTrailer && transcript.len() % READING_LEN != 0 {
            return Err(refused(TRANSCRIPT_LENGTH_WRONG));
        }
        let log = Log::open(log).map_err(refused)?;
        let reads = log.records().filter(|bytes| bytes[0] == READ).count();
        if self.0 == JudgeLengthBeforeRecords && transcript.len() != READING_LEN * reads {
            return Err(refused(TRANSCRIPT_LENGTH_WRONG));
        }
        let (mut device, mut readings) = (Device::fresh(log.edition), Vec::new());
        for (index, bytes) in (0..).zip(log.records()) {
            let record = Fields::from_bytes(bytes);
            match device.apply(&record) {
                Ok(None) => {}
                Ok(Some(number)) => readings.push(Reading {
                    number,
                    is_count: is_count(&record)
                        && (self.0 != JudgeNegatesBankAOnly || record.bank == 0),
                }),
                Err(_) if self.0 == JudgeUpToRefusedRecord => break,
                Err(refusal) => return Err((refusal, index)),
            }
        }
        Ok(readings)
    }

    fn wrong_length(self, len: usize, wanted: usize) -> bool {
        match self.0 {
            JudgeOddBytesIgnored => len / READING_LEN * READING_LEN != wanted,
            JudgeLongerAllowed => len < wanted,
            JudgeShorterAllowed => len > wanted,
            _ => len != wanted,
        }
    }

    /// The number of the verdict, and the index.
    fn verdict(self, readings: &[Reading], transcript: &[u8]) -> (u64, u64) {
        let written: Vec<u64> = each_reading(transcript).collect();
        let same = |index: usize| self.cut(written[index]) == self.cut(readings[index].number);
        let same_negated = |index: usize| {
            self.cut(written[index]) == self.cut(self.negated(readings[index]))
                || self.0 == JudgeCountsEachByItself && same(index)
        };
        let compared = written.len().min(readings.len());
        let differing: Vec<usize> = (0..compared).filter(|&index| !same(index)).collect();
        let mut differing_negated = (0..compared).filter(|&index| !same_negated(index));
        let first_negated = differing_negated.next();
        match (differing.first(), first_negated) {
            (None, None) => (self.both(readings), 0),
            (None, Some(_)) => (1, 0),
            (Some(&first), None) if self.0 == JudgeIndexOfNegatedToo => (2, first as u64),
            (Some(_), None) => (2, 0),
            (Some(&first), Some(first_negated)) => {
                let index = match self.0 {
                    JudgeIndexByNegated => first_negated,
                    JudgeIndexFromOne => first + 1,
                    JudgeLastDifference => differing[differing.len() - 1],
                    _ => first,
                };
                (4, index as u64)
            }
        }
    }

    fn both(self, readings: &[Reading]) -> u64 {
        let counts = readings.iter().any(|reading| reading.is_count);
        match self.0 {
            JudgeNeverBoth => 1,
            JudgeBothNeedsACount if !counts => 1,
            _ => 3,
        }
    }

    fn negated(self, reading: Reading) -> u64 {
        match self.0 {
            JudgeNegatesEveryReading => negated(reading.number),
            JudgeNegates64Bits if reading.is_count => reading.number.wrapping_neg(),
            _ if reading.is_count => negated(reading.number),
            _ => reading.number,
        }
    }

    fn cut(self, number: u64) -> u64 {
        match self.0 {
            JudgeLow32Bits => number & 0xFFFF_FFFF,
            _ => number,
        }
    }
}
