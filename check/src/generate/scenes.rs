//! Short scenes that a log is made of. Each leaves only records that are applied.

use super::maker::Maker;
use super::routing::Routing;
use super::wait;
use crate::reference::clock::divider;
use crate::reference::encoder::{A, B, CERR, COVR, EN, MODE, RST};
use crate::reference::i2c::{I2c, State, FAILURE};
use crate::reference::record::{Fields, ENCODER, I2C, PWM, SELECT};

const CNFG: u8 = 0;
const STAT: u8 = 1;
const CNTR: u8 = 2;

const CS: u8 = 1;
const MAX: u8 = 2;
const CMP: u8 = 3;
const PWM_CNTR: u8 = 4;
const LEVEL: u8 = 5;

const GENERATE: u64 = 4;

/// The pins one place onward, and one place back.
const FORWARD: [u8; 4] = [1, 3, 0, 2];
const BACK: [u8; 4] = [2, 0, 3, 1];

type Scene = fn(&mut Maker);

/// How often out of their sum, and what.
const SCENES: [(u64, Scene); 11] = [
    (6, reroute),
    (3, encoder_route_again),
    (20, encoder_walk),
    (10, encoder_settings),
    (12, encoder_around_zero),
    (14, pwm_settings),
    (14, pwm_run),
    (6, pwm_top_below_counter),
    (3, pwm_route_again),
    (12, i2c_talk),
    (8, read_anything),
];

/// Scenes in both banks at once, where there are two.
const TWINS: [Scene; 3] = [twin_walks, twin_waves, twin_talks];

pub fn play(maker: &mut Maker) {
    if maker.two_banks() && maker.rng.chance(12) {
        return maker.rng.pick(&TWINS)(maker);
    }
    maker.choose_bank();
    if maker.bank().select.value == 0 && maker.rng.chance(70) {
        let routing = Routing::random(maker.rules(), &mut maker.rng);
        return maker.route(routing);
    }
    let sum = SCENES.iter().map(|(weight, _)| weight).sum();
    let mut left = maker.rng.below(sum);
    for (weight, scene) in SCENES {
        if left < weight {
            return scene(maker);
        }
        left -= weight;
    }
}

fn reroute(maker: &mut Maker) {
    let mut routing = maker.routing();
    match maker.rng.below(6) {
        0 => {}
        1 => routing = Routing::nothing(maker.rules()),
        2 | 3 => routing.change(&mut maker.rng),
        _ => routing = Routing::random(maker.rules(), &mut maker.rng),
    }
    maker.route(routing);
    if maker.rng.chance(50) {
        maker.read(SELECT, 0, 0);
    }
}

fn encoder_settings(maker: &mut Maker) {
    let channel = maker.routed_encoder();
    let now = maker.bank().encoders[usize::from(channel)].cnfg;
    let cnfg = match maker.rng.below(4) {
        0 => now,
        1 => now ^ maker.rng.pick(&[EN, RST, MODE]),
        2 => now ^ maker.rng.pick(&[CERR, COVR, CERR | COVR]),
        _ => maker.rng.below(32) as u8,
    };
    let cnfg = if maker.rules().quadrature_only {
        cnfg & !MODE
    } else {
        cnfg
    };
    maker.write(ENCODER, channel, CNFG, cnfg.into());
    if maker.rng.chance(30) {
        maker.read(ENCODER, channel, CNFG);
    }
    read_flags_or_count(maker, channel);
}

fn read_flags_or_count(maker: &mut Maker, channel: u8) {
    let register = maker.rng.pick(&[STAT, CNTR]);
    maker.read(ENCODER, channel, register);
}

fn encoder_walk(maker: &mut Maker) {
    let channel = maker.routed_encoder();
    let_it_count(maker, channel);
    let forward_percent = maker.rng.pick(&[5, 50, 95]);
    for _ in 0..maker.rng.between(1, 40) {
        walk_on(maker, channel, forward_percent);
        if maker.rng.chance(8) {
            read_flags_or_count(maker, channel);
        }
    }
    maker.read(ENCODER, channel, CNTR);
    maker.read(ENCODER, channel, STAT);
}

/// MODE 1, by chance, where it is allowed.
fn some_mode(maker: &mut Maker, percent: u64) -> u8 {
    if !maker.rules().quadrature_only && maker.rng.chance(percent) {
        MODE
    } else {
        0
    }
}

/// Mostly.
fn let_it_count(maker: &mut Maker, channel: u8) {
    let now = maker.bank().encoders[usize::from(channel)].cnfg;
    if now & EN == 0 && maker.rng.chance(85) {
        let mode = some_mode(maker, 30);
        maker.write(ENCODER, channel, CNFG, (now & !MODE | EN | mode).into());
    }
    if now & RST != 0 && maker.rng.chance(70) {
        let cnfg = maker.bank().encoders[usize::from(channel)].cnfg & !RST;
        maker.write(ENCODER, channel, CNFG, cnfg.into());
    }
}

fn walk_on(maker: &mut Maker, channel: u8, forward_percent: u64) {
    let any = maker.rng.below(4) as u8;
    let old = maker.bank().encoders[usize::from(channel)]
        .seen
        .unwrap_or(any);
    let new = match maker.rng.below(12) {
        0 => old,
        1 => old ^ (A | B),
        2 => any,
        _ if maker.rng.chance(forward_percent) => FORWARD[usize::from(old)],
        _ => BACK[usize::from(old)],
    };
    maker.put(Fields::pins(channel, new.into()));
}

/// The count starts at 0 and crosses it again and again, with the overflow flags cleared or kept.
fn encoder_around_zero(maker: &mut Maker) {
    let channel = maker.routed_encoder();
    let mode = some_mode(maker, 35);
    maker.write(ENCODER, channel, CNFG, (EN | RST | mode).into());
    if maker.rng.chance(50) {
        maker.put(Fields::pins(channel, 0));
    }
    let cover = maker.rng.pick(&[0, COVR]);
    maker.write(ENCODER, channel, CNFG, (EN | mode | cover).into());
    maker.put(Fields::pins(channel, 0));
    for _ in 0..maker.rng.between(1, 4) {
        for _ in 0..maker.rng.between(1, 3) {
            counted_step(maker, channel, false);
        }
        maker.read(ENCODER, channel, CNTR);
        for _ in 0..maker.rng.between(1, 4) {
            counted_step(maker, channel, true);
        }
        maker.read(ENCODER, channel, STAT);
        if maker.rng.chance(20) {
            let now = maker.bank().encoders[usize::from(channel)].cnfg;
            maker.write(ENCODER, channel, CNFG, (now ^ COVR).into());
            maker.read(ENCODER, channel, STAT);
        }
    }
    maker.read(ENCODER, channel, CNTR);
}

fn counted_step(maker: &mut Maker, channel: u8, forward: bool) {
    let encoder = &maker.bank().encoders[usize::from(channel)];
    if encoder.cnfg & MODE != 0 {
        let b = if forward { 0 } else { B };
        maker.put(Fields::pins(channel, b.into()));
        maker.put(Fields::pins(channel, (A | b).into()));
        return;
    }
    let old = usize::from(encoder.seen.unwrap_or(0));
    let new = if forward { FORWARD[old] } else { BACK[old] };
    maker.put(Fields::pins(channel, new.into()));
}

/// Routed away and back: the next pins are the first again, and nothing else is lost.
fn encoder_route_again(maker: &mut Maker) {
    let channel = maker.routed_encoder();
    let before = maker.routing();
    let mut away = before;
    away.without_encoder(channel, &mut maker.rng);
    maker.route(away);
    maker.read(ENCODER, channel, CNTR);
    maker.route(before);
    for _ in 0..maker.rng.between(1, 4) {
        walk_on(maker, channel, 50);
    }
    maker.read(ENCODER, channel, CNTR);
    maker.read(ENCODER, channel, STAT);
}

fn pwm_settings(maker: &mut Maker) {
    let channel = maker.routed_pwm();
    pwm_write_all(maker, channel);
    wait_and_look(maker, channel);
}

/// From some register on, and most of them.
fn pwm_write_all(maker: &mut Maker, channel: u8) {
    let max = random_max(maker, channel);
    let cmp = random_cmp(maker, channel, max);
    let writes = [
        (CNFG, maker.rng.pick(&[0, 1, 4, 4, 4, 5, 5, 5])),
        (CS, maker.rng.pick(&[0, 1, 1, 1, 2, 3, 4, 5, 6, 7])),
        (MAX, max),
        (CMP, cmp),
    ];
    let first = maker.rng.below(4) as usize;
    for (register, value) in (0..4).map(|index| writes[(first + index) % 4]) {
        if maker.rng.chance(80) {
            maker.write(PWM, channel, register, value);
        }
    }
}

fn random_max(maker: &mut Maker, channel: u8) -> u64 {
    let counter = u64::from(maker.bank().pwms[usize::from(channel)].counter);
    match maker.rng.below(4) {
        0 => maker.rng.pick(&[0, 1, 65_534, 65_535]),
        1 => (counter + maker.rng.below(3)).saturating_sub(1).min(65_535),
        2 => maker.rng.below(65_536),
        _ => maker.rng.below(24),
    }
}

fn random_cmp(maker: &mut Maker, channel: u8, max: u64) -> u64 {
    let counter = u64::from(maker.bank().pwms[usize::from(channel)].counter);
    match maker.rng.below(5) {
        0 => maker.rng.pick(&[0, 1, 65_535]),
        1 => (max + maker.rng.below(3)).saturating_sub(1).min(65_535),
        2 => (counter + maker.rng.below(3)).saturating_sub(1).min(65_535),
        3 => maker.rng.below(65_536),
        _ => maker.rng.below(24),
    }
}

fn pwm_run(maker: &mut Maker) {
    let channel = maker.routed_pwm();
    for _ in 0..maker.rng.between(1, 6) {
        wait_and_look(maker, channel);
    }
}

fn wait_and_look(maker: &mut Maker, channel: u8) {
    let pwm = maker.bank().pwms[usize::from(channel)].clone();
    let n = divider(pwm.cs.into()).unwrap_or(1);
    let ticks = match maker.rng.below(5) {
        0 => maker.rng.below(3),
        1 => (n * maker.rng.between(1, 3) + maker.rng.below(3)).saturating_sub(1),
        2 => maker.rng.below(20),
        3 => maker.rng.between(0, maker.most_ticks.min(300)),
        _ => wait(
            &pwm,
            maker.rules().runs_on,
            maker.most_ticks,
            &mut maker.rng,
        ),
    };
    maker.ticks(ticks);
    maker.read(PWM, channel, PWM_CNTR);
    maker.read(PWM, channel, LEVEL);
}

fn pwm_top_below_counter(maker: &mut Maker) {
    let channel = maker.routed_pwm();
    let inverted = maker.rng.below(2);
    maker.write(PWM, channel, MAX, 65_535);
    maker.write(PWM, channel, CNFG, GENERATE | inverted);
    maker.write(PWM, channel, CS, 1);
    let last = 65_535 - maker.rng.below(4);
    let ahead = maker.rng.pick(&[40, 40, 60_000, last]);
    maker.ticks(ahead);
    let counter = u64::from(maker.bank().pwms[usize::from(channel)].counter);
    let any = maker.rng.below(counter + 1);
    let max = maker
        .rng
        .pick(&[any, any, counter, counter.saturating_sub(1)]);
    maker.write(PWM, channel, MAX, max);
    if maker.rng.chance(80) {
        let cmp = match maker.rng.below(4) {
            0 => (counter + maker.rng.below(4)).min(65_535),
            1 => maker.rng.between(counter, 65_535),
            _ => random_cmp(maker, channel, max),
        };
        maker.write(PWM, channel, CMP, cmp);
    }
    let cs = maker.rng.pick(&[1, 1, 2, 3, 7]);
    maker.write(PWM, channel, CS, cs);
    for _ in 0..maker.rng.between(1, 4) {
        wait_and_look(maker, channel);
    }
}

/// Routed away while the clock runs on: the channel stands still, then goes on where it was.
fn pwm_route_again(maker: &mut Maker) {
    let channel = maker.routed_pwm();
    let before = maker.routing();
    let mut away = before;
    away.without_pwm(channel);
    maker.route(away);
    wait_and_look(maker, channel);
    maker.route(before);
    wait_and_look(maker, channel);
}

fn i2c_talk(maker: &mut Maker) {
    maker.route_i2c();
    for _ in 0..maker.rng.between(1, 6) {
        i2c_byte(maker);
    }
    if maker.rng.chance(30) {
        maker.unroute_i2c();
    }
    maker.read(I2C, 0, 0);
    maker.read(I2C, 0, 1);
}

fn i2c_byte(maker: &mut Maker) {
    some_answers(maker);
    let (addr, cntl) = allowed_code(maker);
    let same = maker.bank().i2c.addr == addr && maker.bank().i2c.cntl == cntl;
    if !same || maker.rng.chance(50) {
        maker.prepare_go(addr, cntl);
    }
    some_answers(maker);
    maker.write(I2C, 0, 2, 1);
    maker.read(I2C, 0, 3);
    if maker.rules().slaves_answer && maker.rng.chance(80) {
        maker.read(I2C, 0, FAILURE);
    }
}

/// How the slave answers the next GO: mostly left open, and rarely told twice.
fn some_answers(maker: &mut Maker) {
    while maker.rules().slaves_answer && maker.rng.chance(25) {
        let answer = maker.rng.below(4);
        maker.put(Fields::answer(answer));
    }
}

fn allowed_code(maker: &mut Maker) -> (u8, u8) {
    let now = maker.bank().i2c.clone();
    let ends = |addr, cntl| I2c { addr, cntl, ..now }.after_go();
    let codes: Vec<(u8, u8)> = (0..2)
        .flat_map(|receive| (0..16).map(move |cntl| (receive, cntl)))
        .filter(|&(addr, cntl)| ends(addr, cntl).is_ok())
        // Else most talks would be over at once.
        .filter(|&(addr, cntl)| (ends(addr, cntl) == Ok(State::Idle)) == maker.rng.chance(40))
        .collect();
    if codes.is_empty() {
        return (0, 0b0011);
    }
    let (receive, cntl) = maker.rng.pick(&codes);
    ((maker.rng.below(128) as u8) << 1 | receive, cntl)
}

/// The same encoder of both banks, which mostly walk apart.
fn twin_walks(maker: &mut Maker) {
    maker.choose_bank();
    let channel = maker.routed_encoder();
    for bank in 0..2 {
        maker.at = bank;
        maker.route_encoder(channel);
        let_it_count(maker, channel);
    }
    for _ in 0..maker.rng.between(2, 40) {
        maker.choose_bank();
        let forward_percent = [95, 5][usize::from(maker.at)];
        walk_on(maker, channel, forward_percent);
        if maker.rng.chance(8) {
            read_flags_or_count(maker, channel);
        }
    }
    for bank in 0..2 {
        maker.at = bank;
        maker.read(ENCODER, channel, CNTR);
        maker.read(ENCODER, channel, STAT);
    }
}

/// The same PWM channel of both banks, on one clock.
fn twin_waves(maker: &mut Maker) {
    maker.choose_bank();
    let channel = maker.routed_pwm();
    for bank in 0..2 {
        maker.at = bank;
        maker.route_pwm(channel);
        if maker.rng.chance(80) {
            pwm_write_all(maker, channel);
        }
    }
    for _ in 0..maker.rng.between(1, 6) {
        maker.choose_bank();
        wait_and_look(maker, channel);
        maker.at = 1 - maker.at;
        maker.read(PWM, channel, PWM_CNTR);
        maker.read(PWM, channel, LEVEL);
    }
}

fn twin_talks(maker: &mut Maker) {
    for bank in 0..2 {
        maker.at = bank;
        maker.route_i2c();
    }
    for _ in 0..maker.rng.between(2, 8) {
        maker.choose_bank();
        i2c_byte(maker);
    }
}

fn read_anything(maker: &mut Maker) {
    let rules = maker.rules();
    for _ in 0..maker.rng.between(1, 10) {
        let (block, channels, registers): (u8, usize, &[u8]) = match maker.rng.below(10) {
            0 => (SELECT, 1, &[0]),
            1 if rules.slaves_answer => (I2C, 1, &[0, 1, 3, FAILURE]),
            1 => (I2C, 1, &[0, 1, 3]),
            2..=4 => (ENCODER, rules.encoders, &[0, 1, 2]),
            _ => (PWM, rules.pwms, &[0, 1, 2, 3, 4, 5]),
        };
        let channel = maker.rng.below(channels as u64) as u8;
        let register = maker.rng.pick(registers);
        maker.read(block, channel, register);
    }
}
