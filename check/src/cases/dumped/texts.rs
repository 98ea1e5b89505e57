//! Texts for the dump's reader.

use super::super::{lent, Requests, Size};
use super::{pins_log, room, some_kind};
use crate::cases::in_order::log_of;
use crate::exchange::{Call, Request, PLACES};
use crate::generate::{change_bytes, flip_bits, splice, truncate, Rng};
use crate::reference::dump::{
    code, dump, unknown_lines, var_lines, ALL, DEFINED, DUMP_MAX, END, SCOPE, TICK_NS,
};
use crate::reference::dump_read::{dump_read, ENTRY_LEN};
use crate::reference::edition::EDITIONS;
use std::collections::BTreeSet;

fn read(text: Vec<u8>, out_len: usize, rng: &mut Rng) -> Request {
    Request {
        call: Call::DumpRead,
        ..lent(text, out_len, rng)
    }
}

/// Mostly with as much room as is needed, to the byte.
fn read_well(text: Vec<u8>, rng: &mut Rng) -> Request {
    let out_len = match dump_read(&text) {
        Ok(entries) => room(ENTRY_LEN * entries.len(), rng),
        Err(_) => rng.pick(&[0, 15, 16, 1_000, 40_000]),
    };
    read(text, out_len, rng)
}

/// The dump of a log of pins.
fn some_dump(rng: &mut Rng) -> Vec<u8> {
    let edition = rng.pick(&EDITIONS);
    let kind = some_kind(rng);
    let records = rng.pick(&[3, 10, 30, 100]);
    let records = pins_log(edition, &kind, records, rng).records;
    dump(&log_of(edition, &records)).expect("each of its records is applied")
}

pub fn texts_of_dumps(mut rng: Rng, size: Size) -> Requests {
    Box::new((0..size.of(800, 12_000)).map(move |_| read_well(some_dump(&mut rng), &mut rng)))
}

pub fn made_texts(mut rng: Rng, size: Size) -> Requests {
    Box::new((0..size.of(800, 12_000)).map(move |_| read_well(made_text(&mut rng), &mut rng)))
}

/// The text in the making.
struct Making {
    text: Vec<u8>,
    declared: Vec<usize>,
    pins: [Option<u8>; ALL],
}

impl Making {
    fn new(declared: Vec<usize>, unknown: impl Fn(usize) -> bool) -> Self {
        let mut text = SCOPE.to_vec();
        for &at in &declared {
            text.extend(var_lines(at));
        }
        text.extend(DEFINED);
        for &at in declared.iter().filter(|&&at| unknown(at)) {
            text.extend(unknown_lines(at));
        }
        text.extend(END);
        Making {
            text,
            declared,
            pins: [None; ALL],
        }
    }

    fn time(&mut self, time: u64) {
        self.text.extend(format!("#{time}\n").bytes());
    }

    fn to(&mut self, at: usize, pin: u8, value: u8) {
        self.text.extend([b'0' + value, code(at, pin), b'\n']);
    }

    /// A pin that changes, or both of an encoder that was unknown.
    fn change(&mut self, at: usize, rng: &mut Rng) {
        let pins = match self.pins[at] {
            None => {
                let first = rng.below(4) as u8;
                self.to(at, 0, first & 1);
                self.to(at, 1, first >> 1);
                first
            }
            Some(old) => {
                let pin = rng.below(2) as u8;
                let new = old ^ 1 << pin;
                self.to(at, pin, new >> pin & 1);
                new
            }
        };
        self.pins[at] = Some(pins);
    }
}

/// One that the reader takes, although hardly any log has it.
fn made_text(rng: &mut Rng) -> Vec<u8> {
    let percent = rng.pick(&[10, 50, 100]);
    let declared: Vec<usize> = (0..ALL).filter(|_| rng.chance(percent)).collect();
    let left_out = if rng.chance(30) { rng.draw() } else { 0 };
    let mut making = Making::new(declared, |at| left_out >> at & 1 == 0);
    let mut time = Some(TICK_NS * rng.pick(&[0, 0, 1, 4, 1 << 40]));
    for _ in 0..rng.pick(&[0, 3, 30]) {
        let now = match time {
            Some(now) if !making.declared.is_empty() => now,
            _ => break,
        };
        making.time(now);
        let few = making.declared.len().min(rng.pick(&[1, 2, 20])) as u64;
        for _ in 0..rng.between(1, 6) {
            let at = making.declared[rng.below(few) as usize];
            making.change(at, rng);
        }
        let bits = rng.pick(&[0, 3, 20, 58]);
        let steps = rng.between(1, 1 << bits);
        time = now.checked_add(TICK_NS * steps);
    }
    making.text
}

pub fn damaged_texts(mut rng: Rng, size: Size) -> Requests {
    Box::new((0..size.of(2_000, 15_000)).map(move |_| {
        let text = match rng.below(2) {
            0 => made_text(&mut rng),
            _ => some_dump(&mut rng),
        };
        let text = damage(text, &mut rng);
        read_well(text, &mut rng)
    }))
}

/// One kind of damage, by chance; to whole lines as often as to bytes.
fn damage(mut text: Vec<u8>, rng: &mut Rng) -> Vec<u8> {
    match rng.below(12) {
        0 => flip_bits(&text, rng),
        1 => change_bytes(&text, rng),
        2 => truncate(&text, rng),
        3 => splice(&text, &text, rng),
        4 => {
            text.pop();
            text
        }
        5 => {
            text.push(rng.pick(b"\n #01xA$"));
            text
        }
        _ => lines_damaged(&text, rng),
    }
}

fn lines(text: &[u8]) -> Vec<Vec<u8>> {
    text.split_inclusive(|&byte| byte == b'\n')
        .map(<[u8]>::to_vec)
        .collect()
}

fn lines_damaged(text: &[u8], rng: &mut Rng) -> Vec<u8> {
    let mut lines = lines(text);
    let at = rng.below(lines.len() as u64) as usize;
    match rng.below(6) {
        0 => {
            lines.remove(at);
        }
        1 => lines.insert(at, lines[at].clone()),
        2 => {
            let other = rng.below(lines.len() as u64) as usize;
            lines.swap(at, other);
        }
        3 => lines[at] = some_line(rng),
        4 => lines.insert(at, some_line(rng)),
        _ => renumber(&mut lines, rng),
    }
    lines.concat()
}

/// A line that may stand somewhere.
fn some_line(rng: &mut Rng) -> Vec<u8> {
    let at = rng.below(ALL as u64) as usize;
    let wire = code(at, rng.below(2) as u8);
    match rng.below(8) {
        0 => rng
            .pick(&[
                &b"$timescale 1 ns $end\n"[..],
                b"$scope module pins $end\n",
                b"$upscope $end\n",
                b"$enddefinitions $end\n",
                b"$dumpvars\n",
                b"$end\n",
                b"\n",
            ])
            .to_vec(),
        1 => var_lines(at).to_vec(),
        2 => unknown_lines(at).to_vec(),
        3 => vec![b'x', wire, b'\n'],
        4 => some_time(rng),
        _ => vec![rng.pick(b"01"), wire, b'\n'],
    }
}

fn some_time(rng: &mut Rng) -> Vec<u8> {
    let number = rng.draw() >> rng.below(64);
    let number = rng.pick(&[number, number / TICK_NS * TICK_NS]);
    format!("#{number}\n").into_bytes()
}

/// Another number for one of the times, if there are any.
fn renumber(lines: &mut [Vec<u8>], rng: &mut Rng) {
    let times: Vec<usize> = (0..lines.len())
        .filter(|&index| lines[index][0] == b'#')
        .collect();
    if times.is_empty() {
        return;
    }
    let which = rng.below(times.len() as u64) as usize;
    let before = lines[times[which.saturating_sub(1)]].clone();
    let line = &mut lines[times[which]];
    match rng.below(4) {
        0 => *line = before,
        1 => line.insert(1, b'0'),
        2 => line.insert(line.len() - 1, rng.pick(b"0 \r")),
        _ => *line = some_time(rng),
    }
}

pub fn random_texts(mut rng: Rng, size: Size) -> Requests {
    Box::new((0..size.of(800, 8_000)).map(move |index| {
        let text = match index % 4 {
            0 => (0..rng.below(200)).map(|_| rng.draw() as u8).collect(),
            1 => (0..rng.below(20))
                .flat_map(|_| some_line(&mut rng))
                .collect(),
            _ => {
                let declared = (0..ALL).filter(|_| rng.chance(80)).collect();
                let mut text = Making::new(declared, |_| true).text;
                text.extend(b"#25\n");
                text.extend((0..rng.below(20)).flat_map(|_| some_line(&mut rng)));
                text
            }
        };
        read_well(text, &mut rng)
    }))
}

/// Of a small text: every byte lost, doubled and changed, every line too, every two lines for an encoder
/// put in everywhere, and every end and beginning.
pub fn every_damage(mut rng: Rng, _: Size) -> Requests {
    let all = every_damage_to(&small_text()).into_iter();
    Box::new(all.map(move |text| read_well(text, &mut rng)))
}

/// Encoder 3 of bank 0 and encoder 0 of bank 1, two times, and a change there and back.
fn small_text() -> Vec<u8> {
    let mut making = Making::new(vec![3, 10], |_| true);
    making.time(0);
    for (at, pin, value) in [(10, 0, 1), (10, 1, 0), (3, 0, 0), (3, 1, 1)] {
        making.to(at, pin, value);
    }
    making.time(125);
    for (at, pin, value) in [(10, 1, 1), (3, 0, 1), (3, 0, 0)] {
        making.to(at, pin, value);
    }
    making.text
}

fn every_damage_to(text: &[u8]) -> Vec<Vec<u8>> {
    let mut all = vec![text.to_vec()];
    let with = |at: usize, lost: usize, put: &[u8]| {
        [&text[..at], put, &text[(at + lost).min(text.len())..]].concat()
    };
    for (at, &byte) in text.iter().enumerate() {
        all.extend([text[..at].to_vec(), text[at..].to_vec()]);
        all.extend([with(at, 1, &[]), with(at, 0, &[byte]), with(at, 0, b" ")]);
        for other in *b"01AaTtUux#$ \n\r\0\xFF" {
            all.push(with(at, 1, &[other]));
        }
        all.extend([1, 0x20].map(|bits| with(at, 1, &[byte ^ bits])));
    }
    let mut start = 0;
    for line in text.split_inclusive(|&byte| byte == b'\n') {
        all.extend([with(start, line.len(), &[]), with(start, 0, line)]);
        let rest = &text[start + line.len()..];
        if let Some(next) = rest.split_inclusive(|&byte| byte == b'\n').next() {
            all.push(with(start, line.len() + next.len(), &[next, line].concat()));
            all.push(with(start, line.len() + next.len(), &[]));
        }
        for at in 0..ALL {
            let (var, unknown) = (var_lines(at), unknown_lines(at));
            all.extend([with(start, 0, &var), with(start, 0, &unknown)]);
            all.extend([
                with(start, 0, &var[..36]),
                with(start, 0, &unknown[..3]),
                with(start, 0, &unknown[3..]),
            ]);
            for value in *b"01" {
                let [a, b] = [0, 1].map(|pin| [value, code(at, pin), b'\n']);
                all.extend([&a[..], &b, &[a, b].concat()].map(|change| with(start, 0, change)));
            }
        }
        start += line.len();
    }
    all
}

/// As the first time and as the second.
pub fn times(mut rng: Rng, _: Size) -> Requests {
    let powers = (0..64).map(|bits| 1_u128 << bits);
    let tens = (0..25).map(|digits| 10_u128.pow(digits));
    let near = powers
        .chain(tens)
        .chain([1 << 64, (1 << 64) + 16, 1 << 65, 25 << 64, 1 << 100])
        .flat_map(|about| {
            [0, 1, 9, 16, 24, 25, 50].map(|more| [about + more, about.saturating_sub(more)])
        })
        .flatten();
    let near: BTreeSet<u128> = near.flat_map(|number| [number, number / 25 * 25]).collect();
    let numbers = near.into_iter().map(|number| number.to_string());
    let others =
        "| |00|025|0025|+25|-25| 25|25 |2 5|25.0|0x19|25e0|25\n|25\r|2\n5|25#|25 ns|１００";
    let all: Vec<String> = numbers.chain(others.split('|').map(String::from)).collect();
    Box::new(all.into_iter().flat_map(move |number| {
        ["", "#75\n0A\n0B\n", "#18446744073709551575\n0A\n0B\n"].map(|before| {
            let mut text = Making::new(vec![0], |_| true).text;
            text.extend(before.bytes());
            let change = if before.is_empty() {
                "0A\n0B\n"
            } else {
                "1A\n"
            };
            text.extend(format!("#{number}\n{change}").bytes());
            read_well(text, &mut rng)
        })
    }))
}

/// Around the longest, and far beyond; else all is right with them.
pub fn text_lengths(mut rng: Rng, _: Size) -> Requests {
    let near = (DUMP_MAX - 8..=DUMP_MAX + 8).chain([2 * DUMP_MAX, 100_000]);
    let mut all: Vec<Vec<u8>> = near.map(text_of_length).collect();
    all.extend([
        vec![],
        b"\n".to_vec(),
        most_entries(&[0]),
        most_entries(&[7, 13, 19]),
    ]);
    Box::new(all.into_iter().flat_map(move |text| {
        let text = &text;
        PLACES.map(|place| Request {
            place,
            ..read_well(text.clone(), &mut rng)
        })
    }))
}

/// Pin A goes to and fro at one time, and its last change may have one of its own.
fn text_of_length(len: usize) -> Vec<u8> {
    let mut making = Making::new(vec![0], |_| true);
    making.time(0);
    making.to(0, 0, 0);
    making.to(0, 1, 0);
    let last = [0, 25, 100][(len - making.text.len()) % 3];
    let mut value = 0;
    let line = if last == 0 {
        0
    } else {
        last.to_string().len() + 2
    };
    while making.text.len() + line + 3 < len {
        value ^= 1;
        making.to(0, 0, value);
    }
    if last != 0 {
        making.time(last);
    }
    making.to(0, 0, value ^ 1);
    making.text
}

/// A change at every time, as far as there is room.
fn most_entries(encoders: &[usize]) -> Vec<u8> {
    let mut making = Making::new(encoders.to_vec(), |_| true);
    let mut rng = Rng::new(1);
    let mut time = 0;
    while making.text.len() + 9 + 6 * encoders.len() <= DUMP_MAX {
        making.time(time);
        for &at in encoders {
            making.change(at, &mut rng);
        }
        time += TICK_NS;
    }
    making.text
}
