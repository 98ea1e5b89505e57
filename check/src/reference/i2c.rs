//! The I2C control sequencer.

use super::refusal::{
    check, Refusal, GO_NOT_ALLOWED, NOT_ROUTED, RECORD_UNKNOWN, STOP_AFTER_ACK, VALUE_OUT_OF_RANGE,
};

pub const ADDR: u8 = 0;
pub const CNTL: u8 = 1;
pub const GO: u8 = 2;
pub const STATE: u8 = 3;
pub const FAILURE: u8 = 4;

pub const RECEIVE: u8 = 1 << 0;
pub const ADDR_MAX: u64 = 255;

pub const TX_RX: u8 = 1 << 0;
pub const START: u8 = 1 << 1;
pub const STOP: u8 = 1 << 2;
pub const ACK: u8 = 1 << 3;
pub const CNTL_MAX: u64 = 15;

pub const GO_VALUE: u64 = 1;

pub const ADDRESS_ANSWERED: u8 = 1 << 0;
pub const DATA_ANSWERED: u8 = 1 << 1;
pub const ANSWER_MAX: u64 = 3;
const ALL_ANSWERED: u8 = ADDRESS_ANSWERED | DATA_ANSWERED;

#[derive(Debug, Clone, Copy, PartialEq, Eq, Default)]
pub enum State {
    #[default]
    Idle = 0,
    TxIdle = 1,
    RxIdle = 2,
}

/// What the slave did not acknowledge.
#[derive(Debug, Clone, Copy, PartialEq, Eq, Default)]
pub enum Failure {
    #[default]
    None = 0,
    Address = 1,
    Data = 2,
}

#[derive(Debug, Clone, PartialEq, Eq, Default)]
pub struct I2c {
    pub addr: u8,
    pub cntl: u8,
    pub state: State,
    /// Whether the last received byte was acknowledged: false after a send and after a STOP.
    pub acknowledged: bool,
    /// How the slave answers the next GO; without it, it acknowledges all.
    pub answer: Option<u8>,
    /// Of the last GO.
    pub failure: Failure,
}

/// Whether the value is, or nothing where no such register can be written.
pub fn in_range(register: u8, value: u64) -> Option<bool> {
    Some(match register {
        ADDR => value <= ADDR_MAX,
        CNTL => value <= CNTL_MAX,
        GO => value == GO_VALUE,
        _ => return None,
    })
}

impl I2c {
    #[inline]
    pub fn read(&self, register: u8, slaves_answer: bool) -> Option<u64> {
        match register {
            ADDR => Some(self.addr.into()),
            CNTL => Some(self.cntl.into()),
            STATE => Some(self.state as u64),
            FAILURE if slaves_answer => Some(self.failure as u64),
            _ => None,
        }
    }

    pub fn write(&mut self, register: u8, value: u64, routed: bool) -> Result<(), Refusal> {
        let fits = in_range(register, value).ok_or(RECORD_UNKNOWN)?;
        check(fits, VALUE_OUT_OF_RANGE)?;
        check(routed, NOT_ROUTED)?;
        match register {
            ADDR => self.addr = value as u8,
            CNTL => self.cntl = value as u8,
            _ => self.go()?,
        }
        Ok(())
    }

    fn go(&mut self) -> Result<(), Refusal> {
        let ends = self.after_go()?;
        let answer = self.answer.take().unwrap_or(ALL_ANSWERED);
        self.failure = self.failure_by(answer);
        self.state = match self.failure {
            Failure::Address => State::Idle,
            Failure::Data | Failure::None => ends,
        };
        // Only a byte that is received without STOP ends there.
        self.acknowledged = self.state == State::RxIdle && self.set(ACK);
        Ok(())
    }

    /// There is an address only with START, and data that the slave acknowledges only when sending.
    fn failure_by(&self, answer: u8) -> Failure {
        let sends = self.set(TX_RX) && self.addr & RECEIVE == 0;
        if self.set(START) && answer & ADDRESS_ANSWERED == 0 {
            Failure::Address
        } else if sends && answer & DATA_ANSWERED == 0 {
            Failure::Data
        } else {
            Failure::None
        }
    }

    /// The state that GO would end in, if the address is acknowledged.
    pub fn after_go(&self) -> Result<State, Refusal> {
        let ends = self.after_code().ok_or(GO_NOT_ALLOWED)?;
        let stops_alone = !self.set(TX_RX);
        let must_not_stop = self.state == State::RxIdle && self.acknowledged;
        check(!(stops_alone && must_not_stop), STOP_AFTER_ACK)?;
        Ok(ends)
    }

    /// The same, or nothing if the control code is not allowed. Without TX/RX only STOP alone is.
    fn after_code(&self) -> Option<State> {
        let receive = self.addr & RECEIVE != 0;
        if !self.set(TX_RX) {
            let stops = !self.set(START) && self.set(STOP) && self.state != State::Idle;
            return stops.then_some(State::Idle);
        }
        if receive && self.set(ACK) && self.set(STOP) {
            return None;
        }
        let addressed = if receive {
            State::RxIdle
        } else {
            State::TxIdle
        };
        if !self.set(START) && self.state != addressed {
            return None;
        }
        Some(if self.set(STOP) {
            State::Idle
        } else {
            addressed
        })
    }

    fn set(&self, bit: u8) -> bool {
        self.cntl & bit != 0
    }
}
