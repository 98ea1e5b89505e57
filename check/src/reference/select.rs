//! Function select: of a bank two bits per pin, pin 0 lowest; of a myRIO's expansion port one byte.

use super::refusal::{check, Refusal, SELECT_NOT_ALLOWED, VALUE_OUT_OF_RANGE};
use std::iter;
use std::num::NonZeroU64;

const USED_BITS: u32 = 40;

/// The lower function bit of every pin. Sets of pins are written in these places.
const EVERY_PIN: u64 = 0x55_5555_5555;
const FIRST_OF_PAIRS: u64 = 0x11_1111_1111;
const SPI_PINS: u64 = pin_place(5) | pin_place(6) | pin_place(7);
const I2C_PINS: u64 = pin_place(14) | pin_place(15);

/// The bits of a port's byte. SPI is whatever bits 0 and 1 say.
const PORT_MAX: u64 = 255;
const PORT_RESERVED: u64 = 1 << 6;
const PORT_ENCODER: u32 = 5;
const PORT_PWM: [u32; 3] = [2, 3, 4];
const PORT_I2C: u32 = 7;

const fn pin_place(pin: u32) -> u64 {
    1 << (2 * pin)
}

/// Of a port's byte, or of a bank.
pub fn in_range(value: u64, port: bool) -> bool {
    if port {
        value <= PORT_MAX && value & PORT_RESERVED == 0
    } else {
        value >> USED_BITS == 0
    }
}

/// What was written, and what it routes.
#[derive(Debug, Clone, Copy, PartialEq, Eq, Default)]
pub struct Select {
    pub value: u64,
    /// Encoder i in the place of the first pin of pair i.
    encoders: u64,
    /// PWM i in the place of pin i.
    pwms: u64,
    i2c: bool,
}

impl Select {
    pub fn of_bank(value: u64) -> Result<Self, Refusal> {
        check(in_range(value, false), VALUE_OUT_OF_RANGE)?;
        check(Functions(value).allowed(), SELECT_NOT_ALLOWED)?;
        Ok(Select::routed_by(value))
    }

    /// Of any combination of functions, also one that is not allowed.
    pub fn routed_by(value: u64) -> Self {
        let functions = Functions(value);
        Select {
            value,
            encoders: functions.encoder_pairs(),
            pwms: functions.low() & !functions.high(),
            i2c: functions.serial() & I2C_PINS == I2C_PINS,
        }
    }

    pub fn of_port(value: u64) -> Result<Self, Refusal> {
        check(in_range(value, true), VALUE_OUT_OF_RANGE)?;
        let bit = |place: u32| value >> place & 1;
        let [first, second, third] = PORT_PWM.map(bit);
        Ok(Select {
            value,
            encoders: bit(PORT_ENCODER),
            pwms: first * pin_place(0) + second * pin_place(1) + third * pin_place(2),
            i2c: bit(PORT_I2C) == 1,
        })
    }

    pub fn encoder_routed(self, channel: usize) -> bool {
        self.encoders >> (4 * channel) & 1 == 1
    }

    pub fn pwm_routed(self, channel: usize) -> bool {
        self.pwms >> (2 * channel) & 1 == 1
    }

    pub fn i2c_routed(self) -> bool {
        self.i2c
    }

    /// The channels of all encoders that are routed here and were not before.
    pub fn newly_routed_encoders(self, before: Select) -> impl Iterator<Item = usize> {
        places(self.encoders & !before.encoders).map(|place| place / 4)
    }

    /// Whether each PWM channel is routed, in order, up to the last that is.
    pub fn pwms(self) -> impl Iterator<Item = bool> {
        let mut pins = self.pwms;
        iter::from_fn(move || {
            let routed = pins & 1 != 0;
            let any = pins != 0;
            pins >>= 2;
            any.then_some(routed)
        })
    }
}

/// What each pin of a bank is used for.
#[derive(Clone, Copy)]
pub struct Functions(pub u64);

impl Functions {
    pub fn allowed(self) -> bool {
        let serial = self.serial();
        let encoder = self.encoder();
        serial & !(SPI_PINS | I2C_PINS) == 0
            && all_or_none(serial, SPI_PINS)
            && all_or_none(serial, I2C_PINS)
            && encoder & FIRST_OF_PAIRS == (encoder >> 2) & FIRST_OF_PAIRS
    }

    /// The first pins of all pairs that are used as encoders.
    fn encoder_pairs(self) -> u64 {
        let pins = self.encoder();
        pins & (pins >> 2) & FIRST_OF_PAIRS
    }

    fn encoder(self) -> u64 {
        self.high() & !self.low()
    }

    fn serial(self) -> u64 {
        self.low() & self.high()
    }

    fn low(self) -> u64 {
        self.0 & EVERY_PIN
    }

    fn high(self) -> u64 {
        (self.0 >> 1) & EVERY_PIN
    }
}

fn all_or_none(pins: u64, group: u64) -> bool {
    pins & group == 0 || pins & group == group
}

/// The places of the bits that are 1, lowest first.
fn places(mut bits: u64) -> impl Iterator<Item = usize> {
    iter::from_fn(move || {
        let left = NonZeroU64::new(bits)?;
        bits &= bits - 1;
        Some(left.trailing_zeros() as usize)
    })
}
