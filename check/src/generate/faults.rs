//! Records that are refused: refusals 7 to 11, 16 and 18 in every clause.

use super::maker::Maker;
use super::routing::{functions, select_value, set_pair, settled, Functions, I2C_PINS, SPI_PINS};
use crate::reference::edition::{Edition, Rules};
use crate::reference::encoder::{CNFG_MAX, MODE, PINS_MAX};
use crate::reference::i2c::{
    State, ACK, ADDR_MAX, ANSWER_MAX, CNTL_MAX, FAILURE, START, STOP, TX_RX,
};
use crate::reference::pwm::CS_MAX;
use crate::reference::record::{Fields, ENCODER, I2C, PWM, READ, SELECT, TICKS_MAX, WRITE};
use crate::reference::refusal::{
    Refusal, GO_NOT_ALLOWED, MODE_GONE, NOT_ROUTED, RECORD_UNKNOWN, SELECT_NOT_ALLOWED,
    STOP_AFTER_ACK, VALUE_OUT_OF_RANGE,
};

/// The most records that a fault takes, with those that lead up to it.
pub const MOST_RECORDS: usize = 9;

#[derive(Clone, Copy)]
pub struct Fault {
    pub name: &'static str,
    pub refusal: Refusal,
    /// Whether it is one by these rules.
    when: fn(Rules) -> bool,
    /// Leads the log to where the record is refused, and gives the record.
    make: fn(&mut Maker) -> Fields,
}

impl Fault {
    pub fn fits(&self, edition: Edition) -> bool {
        (self.when)(edition.rules())
    }
}

impl Maker {
    pub fn put_fault(&mut self, fault: Fault) {
        let fields = (fault.make)(self);
        self.put(fields);
    }
}

macro_rules! fault {
    ($name:literal, $refusal:ident, $make:expr $(,)?) => {
        fault!($name, $refusal, |_| true, $make)
    };
    ($name:literal, $refusal:ident, $when:expr, $make:expr $(,)?) => {
        Fault {
            name: $name,
            refusal: $refusal,
            when: $when,
            make: $make,
        }
    };
}

pub const FAULTS: &[Fault] = &[
    fault!("no such kind", RECORD_UNKNOWN, |maker| Fields {
        kind: maker.rng.pick(&[0, 6, 18, 129, 255]),
        ..maker.good_record()
    }),
    fault!(
        "an answer where slaves do not",
        RECORD_UNKNOWN,
        |rules| !rules.slaves_answer,
        |maker| {
            maker.route_i2c();
            Fields::answer(maker.rng.below(4))
        },
    ),
    fault!("an answer of another block", RECORD_UNKNOWN, |maker| {
        Fields {
            block: maker.rng.pick(&[0, 1, 2, 4, 255]),
            ..Fields::answer(0)
        }
    }),
    fault!("an answer of another channel", RECORD_UNKNOWN, |maker| {
        maker.route_i2c();
        Fields {
            channel: byte_above(maker, 0),
            ..Fields::answer(3)
        }
    }),
    fault!("an answer of another register", RECORD_UNKNOWN, |maker| {
        maker.route_i2c();
        Fields {
            register: byte_above(maker, 0),
            ..Fields::answer(3)
        }
    }),
    fault!("no such block", RECORD_UNKNOWN, |maker| {
        let block = byte_above(maker, 3);
        access(maker, block, 0, 0)
    }),
    fault!("no such SELECT channel", RECORD_UNKNOWN, |maker| {
        let channel = byte_above(maker, 0);
        access(maker, SELECT, channel, 0)
    }),
    fault!("no such encoder", RECORD_UNKNOWN, |maker| {
        let channel = channel_above(maker, maker.rules().encoders);
        access(maker, ENCODER, channel, 0)
    }),
    fault!("no such PWM channel", RECORD_UNKNOWN, |maker| {
        let channel = channel_above(maker, maker.rules().pwms);
        access(maker, PWM, channel, 0)
    }),
    fault!("no such I2C channel", RECORD_UNKNOWN, |maker| {
        let channel = byte_above(maker, 0);
        access(maker, I2C, channel, 0)
    }),
    fault!("no such SELECT register", RECORD_UNKNOWN, |maker| {
        let register = byte_above(maker, 0);
        access(maker, SELECT, 0, register)
    }),
    fault!("no such encoder register", RECORD_UNKNOWN, |maker| {
        let (channel, register) = (maker.routed_encoder(), byte_above(maker, 2));
        access(maker, ENCODER, channel, register)
    }),
    fault!("no such PWM register", RECORD_UNKNOWN, |maker| {
        let (channel, register) = (maker.routed_pwm(), byte_above(maker, 5));
        access(maker, PWM, channel, register)
    }),
    fault!("no such I2C register", RECORD_UNKNOWN, |maker| {
        maker.route_i2c();
        let last = 3 + u8::from(maker.rules().slaves_answer);
        let register = byte_above(maker, last);
        access(maker, I2C, 0, register)
    }),
    fault!("write of the I2C failure", RECORD_UNKNOWN, |maker| {
        maker.route_i2c();
        Fields::write(I2C, 0, FAILURE, maker.rng.below(3))
    }),
    fault!(
        "write of an encoder's STAT or CNTR",
        RECORD_UNKNOWN,
        |maker| {
            let channel = maker.routed_encoder();
            Fields::write(ENCODER, channel, maker.rng.pick(&[1, 2]), 0)
        },
    ),
    fault!(
        "write of a PWM channel's CNTR or level",
        RECORD_UNKNOWN,
        |maker| {
            let channel = maker.routed_pwm();
            Fields::write(PWM, channel, maker.rng.pick(&[4, 5]), 0)
        },
    ),
    fault!("write of the I2C state", RECORD_UNKNOWN, |maker| {
        maker.route_i2c();
        Fields::write(I2C, 0, 3, 0)
    }),
    fault!("read of GO", RECORD_UNKNOWN, |_| Fields::read(I2C, 0, 2)),
    fault!("no such bank", RECORD_UNKNOWN, |maker| {
        let bank = byte_above(maker, u8::from(maker.two_banks()));
        maker.good_record().in_bank(bank)
    }),
    fault!("ticks with a bank", RECORD_UNKNOWN, |maker| {
        Fields::ticks(1).in_bank(byte_above(maker, 0))
    }),
    fault!("reserved byte", RECORD_UNKNOWN, |maker| {
        let mut fields = maker.good_record();
        let place = 8 * maker.rng.below(3);
        fields.reserved = u32::from(byte_above(maker, 0)) << place;
        fields
    }),
    fault!("read with a value", RECORD_UNKNOWN, |maker| Fields {
        value: maker.rng.above(0),
        ..Fields::read(ENCODER, 0, 2)
    }),
    fault!("pins of another block", RECORD_UNKNOWN, |maker| Fields {
        block: maker.rng.pick(&[0, 2, 3, 4, 255]),
        ..Fields::pins(0, 0)
    }),
    fault!("pins of no encoder", RECORD_UNKNOWN, |maker| {
        let channel = channel_above(maker, maker.rules().encoders);
        Fields::pins(channel, 0)
    }),
    fault!("pins of another register", RECORD_UNKNOWN, |maker| Fields {
        register: byte_above(maker, 0),
        ..Fields::pins(maker.routed_encoder(), 0)
    }),
    fault!("ticks with a block", RECORD_UNKNOWN, |maker| Fields {
        block: byte_above(maker, 0),
        ..Fields::ticks(1)
    }),
    fault!("ticks with a channel", RECORD_UNKNOWN, |maker| Fields {
        channel: byte_above(maker, 0),
        ..Fields::ticks(1)
    }),
    fault!("ticks with a register", RECORD_UNKNOWN, |maker| Fields {
        register: byte_above(maker, 0),
        ..Fields::ticks(1)
    }),
    fault!(
        "SELECT above 40 bits",
        VALUE_OUT_OF_RANGE,
        |rules| !rules.port,
        |maker| {
            let above = maker.rng.above((1 << 40) - 1);
            Fields::write(SELECT, 0, 0, above)
        },
    ),
    fault!(
        "SELECT above a byte",
        VALUE_OUT_OF_RANGE,
        |rules| rules.port,
        |maker| {
            let above = maker.rng.above(255);
            Fields::write(SELECT, 0, 0, above)
        },
    ),
    fault!(
        "SELECT with the reserved bit",
        VALUE_OUT_OF_RANGE,
        |rules| rules.port,
        |maker| {
            let byte = maker.rng.below(256) | 1 << 6;
            Fields::write(SELECT, 0, 0, byte)
        },
    ),
    fault!("encoder CNFG above 31", VALUE_OUT_OF_RANGE, |maker| {
        let channel = some_encoder(maker);
        Fields::write(ENCODER, channel, 0, maker.rng.above(CNFG_MAX))
    }),
    fault!("PWM CNFG with another bit", VALUE_OUT_OF_RANGE, |maker| {
        let channel = some_pwm(maker);
        let above = maker.rng.above(7);
        Fields::write(PWM, channel, 0, maker.rng.pick(&[2, 3, 6, 7, above]))
    }),
    fault!("CS above 7", VALUE_OUT_OF_RANGE, |maker| {
        let channel = some_pwm(maker);
        Fields::write(PWM, channel, 1, maker.rng.above(CS_MAX))
    }),
    fault!("MAX above 65,535", VALUE_OUT_OF_RANGE, |maker| {
        let channel = some_pwm(maker);
        Fields::write(PWM, channel, 2, maker.rng.above(65_535))
    }),
    fault!("CMP above 65,535", VALUE_OUT_OF_RANGE, |maker| {
        let channel = some_pwm(maker);
        Fields::write(PWM, channel, 3, maker.rng.above(65_535))
    }),
    fault!("ADDR above 255", VALUE_OUT_OF_RANGE, |maker| {
        Fields::write(I2C, 0, 0, maker.rng.above(ADDR_MAX))
    }),
    fault!("CNTL above 15", VALUE_OUT_OF_RANGE, |maker| {
        Fields::write(I2C, 0, 1, maker.rng.above(CNTL_MAX))
    }),
    fault!("GO of another value than 1", VALUE_OUT_OF_RANGE, |maker| {
        let above = maker.rng.above(1);
        Fields::write(I2C, 0, 2, maker.rng.pick(&[0, above]))
    }),
    fault!(
        "an answer above 3",
        VALUE_OUT_OF_RANGE,
        |rules| rules.slaves_answer,
        |maker| {
            if maker.rng.chance(80) {
                maker.route_i2c();
            }
            Fields::answer(maker.rng.above(ANSWER_MAX))
        },
    ),
    fault!("pins above 3", VALUE_OUT_OF_RANGE, |maker| {
        let channel = some_encoder(maker);
        Fields::pins(channel, maker.rng.above(PINS_MAX))
    }),
    fault!("ticks above 32 bits", VALUE_OUT_OF_RANGE, |maker| {
        Fields::ticks(maker.rng.above(TICKS_MAX))
    }),
    fault!("write of an encoder not routed", NOT_ROUTED, |maker| {
        let channel = maker.unrouted_encoder();
        Fields::write(ENCODER, channel, 0, maker.rng.below(32))
    }),
    fault!("pins of an encoder not routed", NOT_ROUTED, |maker| {
        let channel = maker.unrouted_encoder();
        Fields::pins(channel, maker.rng.below(4))
    }),
    fault!("write of a PWM channel not routed", NOT_ROUTED, |maker| {
        let channel = maker.unrouted_pwm();
        let register = maker.rng.below(4) as u8;
        Fields::write(PWM, channel, register, maker.rng.below(2))
    }),
    fault!("write of I2C not routed", NOT_ROUTED, |maker| {
        maker.unroute_i2c();
        Fields::write(I2C, 0, maker.rng.below(3) as u8, 1)
    }),
    fault!(
        "an answer where I2C is not routed",
        NOT_ROUTED,
        |rules| rules.slaves_answer,
        |maker| {
            maker.unroute_i2c();
            Fields::answer(maker.rng.below(4))
        },
    ),
    fault!(
        "a 3 where neither SPI nor I2C is",
        SELECT_NOT_ALLOWED,
        of_pins,
        |maker| {
            let pin = maker
                .rng
                .pick(&[0, 1, 2, 3, 4, 8, 9, 10, 11, 12, 13, 16, 17, 18, 19]);
            let mut functions = functions(maker.bank().select.value);
            // A partner left alone would be another fault.
            if functions[pin] == 2 {
                functions[pin ^ 1] = 0;
            }
            functions[pin] = 3;
            select(functions)
        },
    ),
    fault!(
        "SPI pins not together",
        SELECT_NOT_ALLOWED,
        of_pins,
        |maker| {
            let some = maker.rng.between(1, 6);
            let mut functions = without_serial(maker);
            set_pair(&mut functions, 2, [0, 0]);
            set_pair(&mut functions, 3, [0, 0]);
            for (index, pin) in SPI_PINS.enumerate() {
                functions[pin] = if some >> index & 1 == 1 { 3 } else { 0 };
            }
            select(functions)
        }
    ),
    fault!(
        "I2C pins not together",
        SELECT_NOT_ALLOWED,
        of_pins,
        |maker| {
            let mut functions = without_serial(maker);
            let other = maker.rng.below(2) as u8;
            set_pair(&mut functions, 7, maker.rng.pick(&[[3, other], [other, 3]]));
            select(functions)
        }
    ),
    fault!(
        "half an encoder pair",
        SELECT_NOT_ALLOWED,
        of_pins,
        |maker| {
            let mut functions = without_serial(maker);
            let (pair, other) = (maker.rng.below(10) as u8, maker.rng.below(2) as u8);
            set_pair(
                &mut functions,
                pair,
                maker.rng.pick(&[[2, other], [other, 2]]),
            );
            select(functions)
        }
    ),
    fault!("GO: START without a byte", GO_NOT_ALLOWED, |maker| {
        let cntl = START | maker.rng.pick(&[0, STOP, ACK, STOP | ACK]);
        go_in_some_state(maker, cntl)
    }),
    fault!("GO: neither a byte nor STOP", GO_NOT_ALLOWED, |maker| {
        let cntl = maker.rng.pick(&[0, ACK]);
        go_in_some_state(maker, cntl)
    }),
    fault!("GO: STOP alone while idle", GO_NOT_ALLOWED, |maker| {
        let cntl = STOP | maker.rng.pick(&[0, ACK]);
        let addr = maker.rng.below(256) as u8;
        go(maker, State::Idle, addr, cntl)
    }),
    fault!(
        "GO: ACK before STOP while receiving",
        GO_NOT_ALLOWED,
        |maker| {
            let cntl = TX_RX | STOP | ACK | maker.rng.pick(&[0, START]);
            let state = maker.rng.pick(&[State::Idle, State::TxIdle, State::RxIdle]);
            go(maker, state, 0x43, cntl)
        },
    ),
    fault!(
        "GO: a byte without START while idle",
        GO_NOT_ALLOWED,
        |maker| {
            let (addr, cntl) = (maker.rng.below(256) as u8, code_without_start(maker));
            go(maker, State::Idle, addr, cntl)
        },
    ),
    fault!(
        "GO: receiving without START in TX idle",
        GO_NOT_ALLOWED,
        |maker| {
            let cntl = code_without_start(maker);
            go(maker, State::TxIdle, 0x81, cntl)
        },
    ),
    fault!(
        "GO: sending without START in RX idle",
        GO_NOT_ALLOWED,
        |maker| {
            let cntl = code_without_start(maker);
            go(maker, State::RxIdle, 0x80, cntl)
        },
    ),
    fault!(
        "MODE 1 where there is only quadrature",
        MODE_GONE,
        |rules| rules.quadrature_only,
        |maker| {
            let channel = maker.routed_encoder();
            let cnfg = maker.rng.below(CNFG_MAX + 1) | u64::from(MODE);
            Fields::write(ENCODER, channel, 0, cnfg)
        },
    ),
    fault!(
        "GO: STOP alone after an acknowledged byte",
        STOP_AFTER_ACK,
        |maker| {
            maker.route_i2c();
            maker.no_failure();
            maker.prepare_go(0x21, TX_RX | START | ACK);
            maker.write(I2C, 0, 2, 1);
            let (addr, ack) = (maker.rng.below(256) as u8, maker.rng.pick(&[0, ACK]));
            maker.prepare_go(addr, STOP | ack);
            Fields::write(I2C, 0, 2, 1)
        },
    ),
];

/// SELECT has a combination of pin functions.
fn of_pins(rules: Rules) -> bool {
    !rules.port
}

/// Where there are so many.
fn channel_above(maker: &mut Maker, channels: usize) -> u8 {
    byte_above(maker, channels as u8 - 1)
}

fn byte_above(maker: &mut Maker, most: u8) -> u8 {
    let any = maker.rng.between(u64::from(most) + 1, 255) as u8;
    maker.rng.pick(&[most + 1, 255, any])
}

fn access(maker: &mut Maker, block: u8, channel: u8, register: u8) -> Fields {
    Fields {
        kind: maker.rng.pick(&[WRITE, READ]),
        ..Fields::write(block, channel, register, 0)
    }
}

fn some_encoder(maker: &mut Maker) -> u8 {
    if maker.rng.chance(80) {
        maker.routed_encoder()
    } else {
        maker.unrouted_encoder()
    }
}

fn some_pwm(maker: &mut Maker) -> u8 {
    if maker.rng.chance(80) {
        maker.routed_pwm()
    } else {
        maker.unrouted_pwm()
    }
}

fn select(functions: Functions) -> Fields {
    Fields::write(SELECT, 0, 0, select_value(functions))
}

fn without_serial(maker: &Maker) -> Functions {
    let mut functions = functions(maker.bank().select.value);
    functions[SPI_PINS].fill(0);
    functions[I2C_PINS].fill(0);
    settled(functions)
}

fn go_in_some_state(maker: &mut Maker, cntl: u8) -> Fields {
    let state = maker.rng.pick(&[State::Idle, State::TxIdle, State::RxIdle]);
    let addr = maker.rng.below(256) as u8;
    go(maker, state, addr, cntl)
}

fn go(maker: &mut Maker, state: State, addr: u8, cntl: u8) -> Fields {
    maker.bring_i2c_to(state);
    maker.prepare_go(addr, cntl);
    Fields::write(I2C, 0, 2, 1)
}

/// Never ACK with STOP, which is a fault of its own.
fn code_without_start(maker: &mut Maker) -> u8 {
    TX_RX | maker.rng.pick(&[0, STOP, ACK])
}
