//! The log in the making, and the device that follows it so that what comes next fits.

use super::routing::Routing;
use super::scenes;
use super::Rng;
use crate::reference::bank::Bank;
use crate::reference::edition::{Edition, Rules};
use crate::reference::i2c::{State, ANSWER_MAX, START, STOP, TX_RX};
use crate::reference::log::{build, LOG_MAX, RECORDS_MAX};
use crate::reference::record::{Fields, ENCODER, I2C, PWM, RECORD_LEN, SELECT, TICKS, TICKS_MAX};
use crate::reference::Device;

pub struct Maker {
    pub rng: Rng,
    pub most_ticks: u64,
    /// The bank that is played in.
    pub at: u8,
    edition: Edition,
    device: Device,
    records: Vec<[u8; RECORD_LEN]>,
    limit: usize,
    /// How many of a hundred records find an echo in the other bank.
    echo_percent: u64,
}

impl Maker {
    pub fn new(rng: Rng, edition: Edition, most_ticks: u64) -> Self {
        Maker {
            rng,
            most_ticks: most_ticks.min(TICKS_MAX),
            at: 0,
            edition,
            device: Device::fresh(edition),
            records: Vec::new(),
            limit: RECORDS_MAX,
            echo_percent: 0,
        }
    }

    /// Plays scenes until there are so many records.
    pub fn play_until(&mut self, wanted: usize) {
        self.limit = wanted;
        self.echo_percent = if self.two_banks() { 10 } else { 0 };
        while self.records.len() < wanted {
            scenes::play(self);
        }
        self.echo_percent = 0;
        self.limit = RECORDS_MAX;
    }

    pub fn finish(mut self, notes_percent: u64) -> Vec<u8> {
        let log = build(self.edition, &[], &self.records);
        let room = (LOG_MAX - log.len()).min(100) as u64;
        if !self.rng.chance(notes_percent) {
            return log;
        }
        let len = self.rng.below(room + 1);
        let notes: Vec<u8> = (0..len).map(|_| self.rng.draw() as u8).collect();
        build(self.edition, &notes, &self.records)
    }

    pub fn bank(&self) -> &Bank {
        &self.device.banks[usize::from(self.at)]
    }

    pub fn two_banks(&self) -> bool {
        self.device.rules.bank_b
    }

    pub fn choose_bank(&mut self) {
        if self.two_banks() {
            self.at = self.rng.below(2) as u8;
        }
    }

    pub fn rules(&self) -> Rules {
        self.device.rules
    }

    /// Adds a record for the bank that is played in, unless it names another.
    pub fn put(&mut self, fields: Fields) {
        let here = if fields.kind != TICKS && fields.bank == 0 {
            fields.in_bank(self.at)
        } else {
            fields
        };
        self.push(here);
        if fields.kind != TICKS && self.echo_percent > 0 && self.rng.chance(self.echo_percent) {
            self.echo(fields);
        }
    }

    /// The same record for the other bank, or else a read of the same register there, whichever is applied.
    fn echo(&mut self, fields: Fields) {
        let read = Fields::read(fields.block, fields.channel, fields.register);
        let echoes = [fields, read].map(|fields| fields.in_bank(1 - self.at));
        let mut applied = echoes
            .into_iter()
            .filter(|echo| self.device.clone().apply(echo).is_ok());
        if let Some(echo) = applied.next() {
            self.push(echo);
        }
    }

    /// Adds a record, unless the scene has come to its limit.
    fn push(&mut self, fields: Fields) {
        if self.records.len() >= self.limit {
            return;
        }
        // A refusal leaves the device as it is, and a reading is not needed here.
        let _ = self.device.apply(&fields);
        self.records.push(fields.to_bytes());
    }

    pub fn write(&mut self, block: u8, channel: u8, register: u8, value: u64) {
        self.put(Fields::write(block, channel, register, value));
    }

    pub fn read(&mut self, block: u8, channel: u8, register: u8) {
        self.put(Fields::read(block, channel, register));
    }

    pub fn ticks(&mut self, value: u64) {
        self.put(Fields::ticks(value.min(self.most_ticks)));
    }

    pub fn routing(&self) -> Routing {
        Routing::of(self.bank().select.value, self.rules())
    }

    pub fn route(&mut self, routing: Routing) {
        self.write(SELECT, 0, 0, routing.select());
    }

    pub fn encoder_routed(&self, channel: u8) -> bool {
        self.bank().select.encoder_routed(channel.into())
    }

    pub fn pwm_routed(&self, channel: u8) -> bool {
        self.bank().select.pwm_routed(channel.into())
    }

    /// One of so many channels that is as wanted, if need be only now.
    fn channel(
        &mut self,
        all: usize,
        wanted: fn(&Self, u8) -> bool,
        make: fn(&mut Self, u8),
    ) -> u8 {
        let fitting = channels(all, |channel| wanted(self, channel));
        if !fitting.is_empty() {
            return self.rng.pick(&fitting);
        }
        let channel = self.rng.below(all as u64) as u8;
        make(self, channel);
        channel
    }

    /// An encoder that is routed, if need be only now.
    pub fn routed_encoder(&mut self) -> u8 {
        self.channel(
            self.rules().encoders,
            Self::encoder_routed,
            Self::route_encoder,
        )
    }

    pub fn route_encoder(&mut self, channel: u8) {
        if !self.encoder_routed(channel) {
            let mut routing = self.routing();
            routing.with_encoder(channel);
            self.route(routing);
        }
    }

    /// An encoder that is not routed, if need be only now.
    pub fn unrouted_encoder(&mut self) -> u8 {
        let unrouted = |maker: &Self, channel| !maker.encoder_routed(channel);
        self.channel(self.rules().encoders, unrouted, |maker, channel| {
            let mut routing = maker.routing();
            routing.without_encoder(channel, &mut maker.rng);
            maker.route(routing);
        })
    }

    /// A PWM channel that is routed, if need be only now.
    pub fn routed_pwm(&mut self) -> u8 {
        self.channel(self.rules().pwms, Self::pwm_routed, Self::route_pwm)
    }

    pub fn route_pwm(&mut self, channel: u8) {
        if !self.pwm_routed(channel) {
            let mut routing = self.routing();
            routing.with_pwm(channel);
            self.route(routing);
        }
    }

    /// A PWM channel that is not routed, if need be only now.
    pub fn unrouted_pwm(&mut self) -> u8 {
        let unrouted = |maker: &Self, channel| !maker.pwm_routed(channel);
        self.channel(self.rules().pwms, unrouted, |maker, channel| {
            let mut routing = maker.routing();
            routing.without_pwm(channel);
            maker.route(routing);
        })
    }

    pub fn route_i2c(&mut self) {
        if !self.bank().select.i2c_routed() {
            let mut routing = self.routing();
            routing.with_i2c();
            self.route(routing);
        }
    }

    pub fn unroute_i2c(&mut self) {
        if self.bank().select.i2c_routed() {
            let mut routing = self.routing();
            routing.without_i2c();
            self.route(routing);
        }
    }

    /// Writes address and control code; GO itself is left to the caller.
    pub fn prepare_go(&mut self, addr: u8, cntl: u8) {
        self.write(I2C, 0, 0, addr.into());
        self.write(I2C, 0, 1, cntl.into());
    }

    /// The next GO is acknowledged.
    pub fn no_failure(&mut self) {
        if self.bank().i2c.answer.is_some() {
            self.put(Fields::answer(ANSWER_MAX));
        }
    }

    pub fn bring_i2c_to(&mut self, state: State) {
        self.route_i2c();
        if self.bank().i2c.state == state {
            return;
        }
        self.no_failure();
        match state {
            // The last byte before STOP is not acknowledged.
            State::Idle if self.bank().i2c.acknowledged => self.prepare_go(0x21, TX_RX | STOP),
            State::Idle => self.prepare_go(0, STOP),
            State::TxIdle => self.prepare_go(0x20, START | TX_RX),
            State::RxIdle => self.prepare_go(0x21, START | TX_RX),
        }
        self.write(I2C, 0, 2, 1);
    }

    /// A record that would be applied now.
    pub fn good_record(&mut self) -> Fields {
        let Rules { encoders, pwms, .. } = self.rules();
        let some = |rng: &mut Rng, channels: usize| rng.below(channels as u64) as u8;
        match self.rng.below(5) {
            0 => Fields::read(
                ENCODER,
                some(&mut self.rng, encoders),
                self.rng.below(3) as u8,
            ),
            1 => Fields::read(PWM, some(&mut self.rng, pwms), self.rng.below(6) as u8),
            2 => Fields::ticks(self.rng.between(0, self.most_ticks)),
            3 => Fields::pins(self.routed_encoder(), self.rng.below(4)),
            _ => Fields::write(SELECT, 0, 0, self.bank().select.value),
        }
    }
}

fn channels(number: usize, wanted: impl Fn(u8) -> bool) -> Vec<u8> {
    (0..number as u8)
        .filter(|&channel| wanted(channel))
        .collect()
}
