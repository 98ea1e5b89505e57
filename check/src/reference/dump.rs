//! A log's pins as a value change dump, by docs/WAVEFORM.md.

use super::bank::ENCODERS;
use super::device::Device;
use super::log::Log;
use super::record::{Fields, PINS, TICKS};
use super::refusal::Refusal;

/// The longest text that the reader takes; no log has a longer one.
pub const DUMP_MAX: usize = 25_207;
pub const TICK_NS: u64 = 25;

/// Every encoder of either bank, bank 0's first.
pub const ALL: usize = 2 * ENCODERS;

pub const SCOPE: &[u8] = b"$timescale 1 ns $end\n$scope module pins $end\n";
pub const DEFINED: &[u8] = b"$upscope $end\n$enddefinitions $end\n$dumpvars\n";
pub const END: &[u8] = b"$end\n";

const VAR_LEN: usize = 36;

/// Where an encoder stands among all.
pub fn place(bank: u8, encoder: u8) -> usize {
    ENCODERS * usize::from(bank) + usize::from(encoder)
}

pub fn bank_and_encoder(at: usize) -> (u8, u8) {
    ((at / ENCODERS) as u8, (at % ENCODERS) as u8)
}

/// The letter of pin A, 0, or B, 1.
pub fn code(at: usize, pin: u8) -> u8 {
    let (bank, encoder) = bank_and_encoder(at);
    b"Aa"[usize::from(bank)] + 2 * encoder + pin
}

/// The lines that declare both pins.
pub fn var_lines(at: usize) -> [u8; 2 * VAR_LEN] {
    let mut lines = *b"$var wire 1 A bank0_encoder0_A $end\n$var wire 1 B bank0_encoder0_B $end\n";
    let (bank, encoder) = bank_and_encoder(at);
    for (pin, line) in (0..).zip(lines.chunks_exact_mut(VAR_LEN)) {
        line[12] = code(at, pin);
        line[18] = b'0' + bank;
        line[27] = b'0' + encoder;
    }
    lines
}

/// The lines by which both pins are unknown.
pub fn unknown_lines(at: usize) -> [u8; 6] {
    [b'x', code(at, 0), b'\n', b'x', code(at, 1), b'\n']
}

/// The whole text, or the log's refusal, which is never 6.
pub fn dump(log: &[u8]) -> Result<Vec<u8>, Refusal> {
    let log = Log::open(log)?;
    let mut device = Device::fresh(log.edition);
    let mut changes = Changes::none();
    for bytes in log.records() {
        let record = Fields::from_bytes(bytes);
        device.apply(&record)?;
        match record.kind {
            TICKS => changes.time += TICK_NS * record.value,
            PINS => changes.pins(place(record.bank, record.channel), record.value as u8),
            _ => {}
        }
    }
    Ok(changes.under_a_header())
}

const UNKNOWN: u8 = 4;
const NEVER: u64 = u64::MAX;

/// What stands behind the header, as far as the records have come.
struct Changes {
    time: u64,
    /// The last time that was written.
    told: u64,
    pins: [u8; ALL],
    text: Vec<u8>,
}

impl Changes {
    fn none() -> Self {
        Changes {
            time: 0,
            told: NEVER,
            pins: [UNKNOWN; ALL],
            text: Vec::with_capacity(DUMP_MAX),
        }
    }

    fn pins(&mut self, at: usize, new: u8) {
        let old = self.pins[at];
        let changed = if old == UNKNOWN { 3 } else { old ^ new };
        if changed == 0 {
            return;
        }
        self.pins[at] = new;
        if self.told != self.time {
            self.told = self.time;
            tell_time(self.time, &mut self.text);
        }
        let [a, b] = [0, 1].map(|pin| [b'0' + (new >> pin & 1), code(at, pin), b'\n']);
        match changed {
            1 => self.text.extend_from_slice(&a),
            2 => self.text.extend_from_slice(&b),
            _ => self
                .text
                .extend_from_slice(&[a[0], a[1], a[2], b[0], b[1], b[2]]),
        }
    }

    fn under_a_header(self) -> Vec<u8> {
        let wires = || (0..ALL).filter(|&at| self.pins[at] != UNKNOWN);
        let mut text = Vec::with_capacity(DUMP_MAX);
        text.extend_from_slice(SCOPE);
        for at in wires() {
            text.extend_from_slice(&var_lines(at));
        }
        text.extend_from_slice(DEFINED);
        for at in wires() {
            text.extend_from_slice(&unknown_lines(at));
        }
        text.extend_from_slice(END);
        text.extend_from_slice(&self.text);
        text
    }
}

fn tell_time(mut time: u64, text: &mut Vec<u8>) {
    // From its end: `#`, up to 20 digits, the newline.
    let mut line = [b'\n'; 22];
    let mut first = line.len() - 1;
    loop {
        first -= 1;
        line[first] = b'0' + (time % 10) as u8;
        time /= 10;
        if time == 0 {
            break;
        }
    }
    first -= 1;
    line[first] = b'#';
    text.extend_from_slice(&line[first..]);
}
