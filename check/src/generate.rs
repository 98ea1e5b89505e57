//! A seeded maker of logs that reach deep states, and of damage to logs.
//!
//! The same seed and settings give the same log, on every machine.

mod damage;
mod faults;
mod maker;
mod rng;
mod routing;
mod scenes;
mod waits;

pub use damage::{change_bytes, damage, flip_bits, near_miss_trailer, splice, truncate};
pub use faults::{Fault, FAULTS};
pub use rng::Rng;
pub use waits::wait;

use crate::reference::edition::{Edition, EDITIONS};
use crate::reference::log::RECORDS_MAX;
use crate::reference::record::TICKS_MAX;
use maker::Maker;

#[derive(Debug, Clone, PartialEq, Eq)]
pub struct Settings {
    /// The edition of the log, or nothing for any.
    pub edition: Option<Edition>,
    /// The fewest records of a log.
    pub least_records: usize,
    /// The most records of a log; a log has room for 2,047. A record that is refused may need
    /// up to eight more to lead up to it.
    pub most_records: usize,
    /// The longest wait of one record.
    pub most_ticks: u64,
    /// How many of a hundred logs hold a record that is refused.
    pub refused_percent: u64,
    /// How many of a hundred logs begin with notes. Notes are left out where they would not fit.
    pub notes_percent: u64,
}

impl Default for Settings {
    fn default() -> Self {
        Settings {
            edition: None,
            least_records: 1,
            most_records: RECORDS_MAX,
            most_ticks: TICKS_MAX,
            refused_percent: 25,
            notes_percent: 20,
        }
    }
}

pub fn generate(seed: u64, settings: &Settings) -> Vec<u8> {
    let mut rng = Rng::new(seed);
    let edition = settings.edition.unwrap_or_else(|| rng.pick(&EDITIONS));
    let refused = rng.chance(settings.refused_percent);
    let faults: Vec<&Fault> = FAULTS.iter().filter(|fault| fault.fits(edition)).collect();
    let fault = refused.then(|| *rng.pick(&faults));
    log_with(rng, settings, edition, fault)
}

/// A log in which the first refused record is the given fault, of an edition that has it.
pub fn generate_with(seed: u64, settings: &Settings, fault: Fault) -> Vec<u8> {
    let mut rng = Rng::new(seed);
    let editions = EDITIONS.into_iter().filter(|&edition| fault.fits(edition));
    let editions: Vec<Edition> = editions.collect();
    let edition = settings.edition.unwrap_or_else(|| rng.pick(&editions));
    log_with(rng, settings, edition, Some(fault))
}

fn log_with(mut rng: Rng, settings: &Settings, edition: Edition, fault: Option<Fault>) -> Vec<u8> {
    let most = settings.most_records.clamp(1, RECORDS_MAX);
    let wanted = length(&mut rng, most).max(settings.least_records.min(most));
    let mut maker = Maker::new(rng, edition, settings.most_ticks);
    if let Some(fault) = fault {
        let latest = wanted.min(RECORDS_MAX - faults::MOST_RECORDS);
        let before = maker.rng.below(latest as u64 + 1) as usize;
        maker.play_until(before);
        maker.put_fault(fault);
    }
    maker.play_until(wanted);
    maker.finish(settings.notes_percent)
}

/// Half of the lengths are spread evenly, half are as often short as long.
fn length(rng: &mut Rng, most: usize) -> usize {
    let bits = u64::from(usize::BITS - most.leading_zeros());
    let bound = if rng.chance(50) {
        most
    } else {
        most.min(1 << rng.below(bits + 1))
    };
    1 + rng.below(bound as u64) as usize
}
