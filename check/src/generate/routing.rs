//! What a SELECT routes, in the making: of a bank pin by pin, of a port bit by bit.

use super::Rng;
use crate::reference::bank::ENCODERS;
use crate::reference::edition::Rules;
use std::ops::Range;

const PINS: usize = 20;
/// What each of the twenty pins is used for, 0 to 3 as in SELECT.
pub type Functions = [u8; PINS];
pub const SPI_PINS: Range<usize> = 5..8;
pub const I2C_PINS: Range<usize> = 14..16;

/// The bits of a port's byte, but for the one that is reserved.
const PORT_BITS: [u64; 7] = [1 << 0, 1 << 1, 1 << 2, 1 << 3, 1 << 4, 1 << 5, 1 << 7];
const PORT_ENCODER: u64 = 1 << 5;
const PORT_FIRST_PWM: u64 = 1 << 2;
const PORT_I2C: u64 = 1 << 7;

#[derive(Debug, Clone, Copy)]
pub enum Routing {
    Bank(Functions),
    Port(u64),
}

use Routing::{Bank, Port};

impl Routing {
    /// As this SELECT has it.
    pub fn of(select: u64, rules: Rules) -> Self {
        if rules.port {
            Port(select)
        } else {
            Bank(functions(select))
        }
    }

    pub fn nothing(rules: Rules) -> Self {
        Routing::of(0, rules)
    }

    pub fn random(rules: Rules, rng: &mut Rng) -> Self {
        if rules.port {
            // As often much as little.
            let some = |rng: &mut Rng| PORT_BITS.into_iter().filter(|_| rng.chance(70)).sum();
            return Port(some(rng));
        }
        let mut functions = [0; PINS];
        for pair in 0..ENCODERS as u8 {
            set_pair(&mut functions, pair, random_pair(rng));
        }
        if rng.chance(30) {
            functions[SPI_PINS].fill(3);
        }
        if rng.chance(60) {
            functions[I2C_PINS].fill(3);
        }
        Bank(functions)
    }

    /// A little of it otherwise.
    pub fn change(&mut self, rng: &mut Rng) {
        match self {
            Bank(functions) => {
                let pair = rng.below(ENCODERS as u64) as u8;
                set_pair(functions, pair, random_pair(rng));
            }
            Port(byte) => *byte ^= rng.pick(&PORT_BITS),
        }
    }

    pub fn with_encoder(&mut self, channel: u8) {
        match self {
            Bank(functions) => set_pair(functions, channel, [2, 2]),
            Port(byte) => *byte |= PORT_ENCODER,
        }
    }

    pub fn without_encoder(&mut self, channel: u8, rng: &mut Rng) {
        match self {
            Bank(functions) => {
                let pair = rng.pick(&[[0, 0], [1, 0], [0, 1], [1, 1]]);
                set_pair(functions, channel, pair);
            }
            Port(byte) => *byte &= !PORT_ENCODER,
        }
    }

    pub fn with_pwm(&mut self, channel: u8) {
        match self {
            Bank(functions) => functions[usize::from(channel)] = 1,
            Port(byte) => *byte |= PORT_FIRST_PWM << channel,
        }
    }

    pub fn without_pwm(&mut self, channel: u8) {
        match self {
            Bank(functions) => functions[usize::from(channel)] = 0,
            Port(byte) => *byte &= !(PORT_FIRST_PWM << channel),
        }
    }

    pub fn with_i2c(&mut self) {
        match self {
            Bank(functions) => functions[I2C_PINS].fill(3),
            Port(byte) => *byte |= PORT_I2C,
        }
    }

    pub fn without_i2c(&mut self) {
        match self {
            Bank(functions) => functions[I2C_PINS].fill(0),
            Port(byte) => *byte &= !PORT_I2C,
        }
    }

    /// A SELECT that is allowed, with as much of it as can be.
    pub fn select(self) -> u64 {
        match self {
            Bank(functions) => select_value(settled(functions)),
            Port(byte) => byte,
        }
    }
}

fn random_pair(rng: &mut Rng) -> [u8; 2] {
    rng.pick(&[
        [0, 0],
        [0, 1],
        [1, 0],
        [1, 1],
        [1, 1],
        [2, 2],
        [2, 2],
        [2, 2],
    ])
}

pub fn functions(select: u64) -> Functions {
    std::array::from_fn(|pin| (select >> (2 * pin)) as u8 & 3)
}

pub fn select_value(functions: Functions) -> u64 {
    let bits = |(pin, &function): (usize, &u8)| u64::from(function) << (2 * pin);
    functions.iter().enumerate().map(bits).sum()
}

pub fn set_pair(functions: &mut Functions, pair: u8, pins: [u8; 2]) {
    let first = 2 * usize::from(pair);
    functions[first..first + 2].copy_from_slice(&pins);
}

/// The nearest arrangement that is allowed: groups broken up become plain pins, half pairs PWM.
pub fn settled(mut functions: Functions) -> Functions {
    let whole = |group: Range<usize>| functions[group].iter().all(|&function| function == 3);
    let (spi, i2c) = (whole(SPI_PINS), whole(I2C_PINS));
    for (pin, function) in functions.iter_mut().enumerate() {
        let held = spi && SPI_PINS.contains(&pin) || i2c && I2C_PINS.contains(&pin);
        if *function == 3 && !held {
            *function = 0;
        }
    }
    for pair in functions.chunks_mut(2) {
        if pair.contains(&2) && pair != [2, 2] {
            pair.iter_mut()
                .filter(|pin| **pin == 2)
                .for_each(|pin| *pin = 1);
        }
    }
    functions
}
