//! The edition of a log: which boxes it is from, and what is otherwise there.

use super::bank::{ENCODERS, PWMS};

#[derive(Debug, Clone, Copy, PartialEq, Eq, PartialOrd, Ord)]
pub enum Edition {
    One = 1,
    Two = 2,
    Three = 3,
    /// Of a myRIO, whose banks are its expansion ports.
    Four = 4,
}

pub const EDITIONS: [Edition; 4] = [Edition::One, Edition::Two, Edition::Three, Edition::Four];

/// What an edition decides.
#[derive(Debug, Clone, Copy, PartialEq, Eq)]
pub struct Rules {
    /// Whether a PWM counter above MAX runs on to 65,535, instead of going to 0 at once.
    pub runs_on: bool,
    /// Whether byte 4 of a record is its bank, instead of 0.
    pub bank_b: bool,
    /// Whether a log tells how a slave answers, and reads whether it failed to.
    pub slaves_answer: bool,
    /// Whether an encoder's MODE stays 0.
    pub quadrature_only: bool,
    /// Whether SELECT is one byte for a port, instead of two bits for each pin.
    pub port: bool,
    /// How many channels a bank has.
    pub encoders: usize,
    pub pwms: usize,
}

impl Edition {
    pub fn from_number(number: u16) -> Option<Self> {
        EDITIONS
            .into_iter()
            .find(|edition| edition.number() == number)
    }

    pub fn number(self) -> u16 {
        self as u16
    }

    pub fn rules(self) -> Rules {
        let port = self == Edition::Four;
        Rules {
            runs_on: self != Edition::One,
            bank_b: self != Edition::One,
            slaves_answer: self != Edition::One,
            quadrature_only: self == Edition::Three,
            port,
            encoders: if port { 1 } else { ENCODERS },
            pwms: if port { 3 } else { PWMS },
        }
    }
}
