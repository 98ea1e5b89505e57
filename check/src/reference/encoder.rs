//! One encoder channel.

use super::edition::Rules;
use super::refusal::{check, Refusal, MODE_GONE, NOT_ROUTED, RECORD_UNKNOWN, VALUE_OUT_OF_RANGE};

pub const CNFG: u8 = 0;
pub const STAT: u8 = 1;
pub const CNTR: u8 = 2;

pub const EN: u8 = 1 << 0;
pub const RST: u8 = 1 << 1;
pub const MODE: u8 = 1 << 2;
pub const CERR: u8 = 1 << 3;
pub const COVR: u8 = 1 << 4;
pub const CNFG_MAX: u64 = 31;

pub const DIR: u8 = 1 << 0;
pub const ERR: u8 = 1 << 1;
pub const UOVR: u8 = 1 << 2;
pub const SOVR: u8 = 1 << 3;
pub const UOERR: u8 = 1 << 4;
pub const SOERR: u8 = 1 << 5;
const OVERFLOWS: u8 = UOVR | SOVR | UOERR | SOERR;

pub const A: u8 = 1 << 0;
pub const B: u8 = 1 << 1;
pub const PINS_MAX: u64 = 3;

/// What a change of pins asks of the count.
#[derive(Debug, Clone, Copy, PartialEq, Eq)]
enum Turn {
    Still,
    Forward,
    Back,
    Double,
}

#[derive(Debug, Clone, PartialEq, Eq, Default)]
pub struct Encoder {
    pub cnfg: u8,
    pub stat: u8,
    pub count: i32,
    /// The stored pins, or nothing while they are unseen.
    pub seen: Option<u8>,
}

/// Whether the value is, or nothing where no such register can be written.
pub fn in_range(register: u8, value: u64) -> Option<bool> {
    (register == CNFG).then_some(value <= CNFG_MAX)
}

impl Encoder {
    #[inline]
    pub fn read(&self, register: u8) -> Option<u64> {
        match register {
            CNFG => Some(self.cnfg.into()),
            STAT => Some(self.stat.into()),
            CNTR => Some(self.cntr()),
            _ => None,
        }
    }

    pub fn write(
        &mut self,
        register: u8,
        value: u64,
        routed: bool,
        rules: Rules,
    ) -> Result<(), Refusal> {
        let fits = in_range(register, value).ok_or(RECORD_UNKNOWN)?;
        check(fits, VALUE_OUT_OF_RANGE)?;
        check(routed, NOT_ROUTED)?;
        let cnfg = value as u8;
        check(cnfg & MODE == 0 || !rules.quadrature_only, MODE_GONE)?;
        self.write_cnfg(cnfg);
        Ok(())
    }

    pub fn write_cnfg(&mut self, cnfg: u8) {
        let risen = cnfg & !self.cnfg;
        let changed = cnfg ^ self.cnfg;
        self.cnfg = cnfg;
        if risen & CERR != 0 {
            self.stat &= !ERR;
        }
        if risen & COVR != 0 {
            self.stat &= !OVERFLOWS;
        }
        if cnfg & RST != 0 {
            self.count = 0;
        }
        if changed & (EN | MODE) != 0 {
            self.forget_pins();
        }
    }

    pub fn forget_pins(&mut self) {
        self.seen = None;
    }

    #[inline(always)]
    pub fn pins(&mut self, new: u8) {
        if self.cnfg & EN == 0 {
            return;
        }
        let old = match self.seen.replace(new) {
            Some(old) => old,
            None => return,
        };
        if self.cnfg & RST != 0 {
            return;
        }
        let turn = if self.cnfg & MODE == 0 {
            quadrature(old, new)
        } else {
            step_and_direction(old, new)
        };
        match turn {
            Turn::Still => {}
            Turn::Forward => self.step_forward(),
            Turn::Back => self.step_back(),
            Turn::Double => self.stat |= ERR,
        }
    }

    pub fn cntr(&self) -> u64 {
        u64::from(self.count as u32)
    }

    #[inline]
    fn step_forward(&mut self) {
        self.count = self.count.wrapping_add(1);
        self.stat &= !DIR;
        self.pass_below(self.count);
    }

    #[inline]
    fn step_back(&mut self) {
        self.pass_below(self.count);
        self.count = self.count.wrapping_sub(1);
        self.stat |= DIR;
    }

    /// A step up to this count, or down from it. The borders are below 0 and below the least number.
    #[inline]
    fn pass_below(&mut self, count: i32) {
        match count {
            0 => self.overflow(UOVR, UOERR),
            i32::MIN => self.overflow(SOVR, SOERR),
            _ => {}
        }
    }

    // Out of line, where it costs a walk that never comes here nothing.
    #[cold]
    #[inline(never)]
    fn overflow(&mut self, first: u8, again: u8) {
        self.stat |= if self.stat & first == 0 { first } else { again };
    }
}

fn quadrature(old: u8, new: u8) -> Turn {
    match place(new).wrapping_sub(place(old)) % 4 {
        0 => Turn::Still,
        1 => Turn::Forward,
        2 => Turn::Double,
        _ => Turn::Back,
    }
}

/// The place of the pins on the forward round 00, 10, 11, 01 (A first), which is a Gray code.
fn place(pins: u8) -> u8 {
    pins ^ (pins >> 1)
}

fn step_and_direction(old: u8, new: u8) -> Turn {
    if old & A != 0 || new & A == 0 {
        Turn::Still
    } else if new & B == 0 {
        Turn::Forward
    } else {
        Turn::Back
    }
}
