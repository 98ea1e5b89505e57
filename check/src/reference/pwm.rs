//! One PWM channel.

use super::clock::divider;
use super::refusal::{check, Refusal, NOT_ROUTED, RECORD_UNKNOWN, VALUE_OUT_OF_RANGE};

pub const CNFG: u8 = 0;
pub const CS: u8 = 1;
pub const MAX: u8 = 2;
pub const CMP: u8 = 3;
pub const CNTR: u8 = 4;
pub const LEVEL: u8 = 5;

pub const INV: u8 = 1 << 0;
pub const MODE: u8 = 1 << 2;
pub const CS_MAX: u64 = 7;
pub const COUNTER_MAX: u16 = u16::MAX;

#[derive(Debug, Clone, PartialEq, Eq, Default)]
pub struct Pwm {
    pub cnfg: u8,
    pub cs: u8,
    pub max: u16,
    pub cmp: u16,
    pub counter: u16,
    pub output: bool,
    pub remainder: u8,
}

/// Only INV and MODE may be set.
pub fn cnfg_fits(value: u64) -> bool {
    value & !u64::from(INV | MODE) == 0
}

/// Whether the value is, or nothing where no such register can be written.
pub fn in_range(register: u8, value: u64) -> Option<bool> {
    Some(match register {
        CNFG => cnfg_fits(value),
        CS => value <= CS_MAX,
        MAX | CMP => value <= COUNTER_MAX.into(),
        _ => return None,
    })
}

impl Pwm {
    #[inline]
    pub fn read(&self, register: u8) -> Option<u64> {
        Some(match register {
            CNFG => self.cnfg.into(),
            CS => self.cs.into(),
            MAX => self.max.into(),
            CMP => self.cmp.into(),
            CNTR => self.counter.into(),
            LEVEL => self.output.into(),
            _ => return None,
        })
    }

    pub fn write(&mut self, register: u8, value: u64, routed: bool) -> Result<(), Refusal> {
        let fits = in_range(register, value).ok_or(RECORD_UNKNOWN)?;
        check(fits, VALUE_OUT_OF_RANGE)?;
        check(routed, NOT_ROUTED)?;
        match register {
            CNFG => self.write_cnfg(value as u8),
            CS => self.write_cs(value as u8),
            MAX => self.max = value as u16,
            _ => self.cmp = value as u16,
        }
        Ok(())
    }

    pub fn write_cnfg(&mut self, cnfg: u8) {
        self.cnfg = cnfg;
        if !self.generates() {
            self.output = false;
        }
    }

    pub fn write_cs(&mut self, cs: u8) {
        self.cs = cs;
        self.remainder = 0;
    }

    /// `count` ticks at once. A wait of any length costs the same. Above MAX the counter runs on to 65,535,
    /// or goes to 0.
    pub fn ticks(&mut self, count: u32, runs_on: bool) {
        if self.cs == 0 {
            return;
        }
        // N is two to this power, so that a mask and a shift divide.
        let power = u32::from(self.cs) - 1;
        let total = u64::from(self.remainder) + u64::from(count);
        self.remainder = (total & ((1 << power) - 1)) as u8;
        // With N 1 there is no remainder, so that the steps fit in 32 bits.
        self.steps((total >> power) as u32, runs_on);
    }

    /// The same as [`Pwm::ticks`], one tick after another as the papers say it.
    pub fn ticks_one_by_one(&mut self, count: u32, runs_on: bool) {
        for _ in 0..count {
            self.tick(runs_on);
        }
    }

    pub fn tick(&mut self, runs_on: bool) {
        let n = match divider(self.cs.into()) {
            Some(n) => n,
            None => return,
        };
        self.remainder += 1;
        if u64::from(self.remainder) == n {
            self.remainder = 0;
            self.step(runs_on);
        }
    }

    fn step(&mut self, runs_on: bool) {
        let above = self.counter > self.top();
        self.counter = if self.counter == self.top() || above && !runs_on {
            0
        } else {
            // 65,535 is the last that it can run on to.
            self.counter.wrapping_add(1)
        };
        if !self.generates() {
            return;
        }
        if self.counter == 0 {
            self.output = !self.inverted();
        }
        if self.counter == self.cmp {
            self.output = self.inverted();
        }
    }

    fn steps(&mut self, count: u32, runs_on: bool) {
        if !self.generates() {
            // 65,535 is the top: the counter goes round by itself.
            self.counter = self.counter.wrapping_add(count as u16);
            return;
        }
        let (start, top) = (u32::from(self.counter), u32::from(self.max));
        let cmp = u32::from(self.cmp);
        // The last count before 0.
        let last = if start <= top {
            top
        } else if runs_on {
            COUNTER_MAX.into()
        } else {
            start
        };
        let until_zero = last - start + 1;
        if count < until_zero {
            let end = start + count;
            self.counter = end as u16;
            if start < cmp && cmp <= end {
                self.output = self.inverted();
            }
        } else {
            let end = (count - until_zero) % (top + 1);
            self.counter = end as u16;
            // Only the arrivals since the last 0 matter: 0 itself decides the output anew.
            self.output = self.inverted() == (cmp <= end);
        }
    }

    fn generates(&self) -> bool {
        self.cnfg & MODE != 0
    }

    fn inverted(&self) -> bool {
        self.cnfg & INV != 0
    }

    fn top(&self) -> u16 {
        if self.generates() {
            self.max
        } else {
            COUNTER_MAX
        }
    }
}
