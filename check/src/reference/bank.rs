//! One bank: what each record for it does.

use super::edition::Rules;
use super::encoder::{self, Encoder};
use super::i2c::{I2c, ANSWER_MAX};
use super::pwm::Pwm;
use super::record::{ENCODER, I2C, PWM, SELECT};
use super::refusal::{check, Refusal, NOT_ROUTED, RECORD_UNKNOWN, VALUE_OUT_OF_RANGE};
use super::select::Select;

pub const ENCODERS: usize = 10;
pub const PWMS: usize = 20;

#[derive(Debug, Clone, PartialEq, Eq, Default)]
pub struct Bank {
    pub select: Select,
    pub encoders: [Encoder; ENCODERS],
    pub pwms: [Pwm; PWMS],
    pub i2c: I2c,
}

impl Bank {
    pub fn write(
        &mut self,
        block: u8,
        channel: usize,
        register: u8,
        value: u64,
        rules: Rules,
    ) -> Result<(), Refusal> {
        match block {
            SELECT if (channel, register) == (0, 0) => self.write_select(value, rules),
            ENCODER => {
                check(channel < rules.encoders, RECORD_UNKNOWN)?;
                let encoder = self.encoders.get_mut(channel).ok_or(RECORD_UNKNOWN)?;
                encoder.write(register, value, self.select.encoder_routed(channel), rules)
            }
            PWM => {
                check(channel < rules.pwms, RECORD_UNKNOWN)?;
                let pwm = self.pwms.get_mut(channel).ok_or(RECORD_UNKNOWN)?;
                pwm.write(register, value, self.select.pwm_routed(channel))
            }
            I2C if channel == 0 => self.i2c.write(register, value, self.select.i2c_routed()),
            _ => Err(RECORD_UNKNOWN),
        }
    }

    fn write_select(&mut self, value: u64, rules: Rules) -> Result<(), Refusal> {
        let select = if rules.port {
            Select::of_port(value)?
        } else {
            Select::of_bank(value)?
        };
        for channel in select.newly_routed_encoders(self.select) {
            self.encoders[channel].forget_pins();
        }
        self.select = select;
        Ok(())
    }

    /// The reading, or nothing where no such register can be read.
    #[inline(always)]
    pub fn read(&self, block: u8, channel: usize, register: u8, rules: Rules) -> Option<u64> {
        match block {
            SELECT if (channel, register) == (0, 0) => Some(self.select.value),
            ENCODER if channel < rules.encoders => self.encoders.get(channel)?.read(register),
            PWM if channel < rules.pwms => self.pwms.get(channel)?.read(register),
            I2C if channel == 0 => self.i2c.read(register, rules.slaves_answer),
            _ => None,
        }
    }

    #[inline(always)]
    pub fn pins(&mut self, channel: usize, value: u64, rules: Rules) -> Result<(), Refusal> {
        check(channel < rules.encoders, RECORD_UNKNOWN)?;
        let encoder = self.encoders.get_mut(channel).ok_or(RECORD_UNKNOWN)?;
        check(value <= encoder::PINS_MAX, VALUE_OUT_OF_RANGE)?;
        check(self.select.encoder_routed(channel), NOT_ROUTED)?;
        encoder.pins(value as u8);
        Ok(())
    }

    /// How the slave answers the next GO.
    pub fn answer(&mut self, value: u64) -> Result<(), Refusal> {
        check(value <= ANSWER_MAX, VALUE_OUT_OF_RANGE)?;
        check(self.select.i2c_routed(), NOT_ROUTED)?;
        self.i2c.answer = Some(value as u8);
        Ok(())
    }

    pub fn ticks(&mut self, count: u32, runs_on: bool) {
        for (pwm, routed) in self.pwms.iter_mut().zip(self.select.pwms()) {
            if routed {
                pwm.ticks(count, runs_on);
            }
        }
    }
}
