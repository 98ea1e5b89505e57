//! The way back from a dump, and from nothing else, by docs/WAVEFORM.md.

use super::dump::{
    bank_and_encoder, unknown_lines, var_lines, ALL, DEFINED, DUMP_MAX, END, SCOPE, TICK_NS,
};
use super::refusal::{Refusal, NO_DUMP};

pub const ENTRY_LEN: usize = 16;

/// An encoder that changed at a time, with its pins after all changes at that time.
#[derive(Debug, Clone, Copy, PartialEq, Eq, PartialOrd, Ord)]
pub struct Entry {
    pub time: u64,
    pub bank: u8,
    pub encoder: u8,
    /// Bit 0 is A, bit 1 is B.
    pub pins: u8,
}

impl Entry {
    pub fn to_bytes(self) -> [u8; ENTRY_LEN] {
        let mut bytes = [0; ENTRY_LEN];
        bytes[..8].copy_from_slice(&self.time.to_le_bytes());
        bytes[8..11].copy_from_slice(&[self.bank, self.encoder, self.pins]);
        bytes
    }
}

/// By time, then bank, then encoder.
pub fn dump_read(text: &[u8]) -> Result<Vec<Entry>, Refusal> {
    entries(text).ok_or(NO_DUMP)
}

fn entries(text: &[u8]) -> Option<Vec<Entry>> {
    if text.len() > DUMP_MAX {
        return None;
    }
    let mut rest = Rest(text);
    let mut wires = rest.header()?;
    let mut entries = Vec::new();
    let mut last = None;
    while !rest.0.is_empty() {
        let time = rest.time()?;
        if Some(time) <= last {
            return None;
        }
        last = Some(time);
        let changed = rest.changes(&mut wires)?;
        for at in (0..ALL).filter(|at| changed >> at & 1 == 1) {
            let (bank, encoder) = bank_and_encoder(at);
            let pins = wires.pins[at]?;
            entries.push(Entry {
                time,
                bank,
                encoder,
                pins,
            });
        }
    }
    Some(entries)
}

struct Wires {
    declared: [bool; ALL],
    /// Nothing as long as they are unknown.
    pins: [Option<u8>; ALL],
}

/// What is not yet read.
struct Rest<'a>(&'a [u8]);

impl Rest<'_> {
    /// Whether these bytes were next.
    fn take(&mut self, wanted: &[u8]) -> bool {
        match self.0.strip_prefix(wanted) {
            Some(rest) => {
                self.0 = rest;
                true
            }
            None => false,
        }
    }

    fn must(&mut self, wanted: &[u8]) -> Option<()> {
        self.take(wanted).then_some(())
    }

    fn byte(&mut self) -> Option<u8> {
        let (&first, rest) = self.0.split_first()?;
        self.0 = rest;
        Some(first)
    }

    /// Each encoder is looked for once, in order. Its lines of unknown pins may be missing.
    fn header(&mut self) -> Option<Wires> {
        let mut declared = [false; ALL];
        self.must(SCOPE)?;
        for (at, there) in declared.iter_mut().enumerate() {
            *there = self.take(&var_lines(at));
        }
        self.must(DEFINED)?;
        for at in (0..ALL).filter(|&at| declared[at]) {
            self.take(&unknown_lines(at));
        }
        self.must(END)?;
        Some(Wires {
            declared,
            pins: [None; ALL],
        })
    }

    fn time(&mut self) -> Option<u64> {
        self.must(b"#")?;
        let len = self.0.iter().position(|byte| !byte.is_ascii_digit())?;
        let (digits, rest) = self.0.split_at(len);
        self.0 = rest;
        self.must(b"\n")?;
        if digits.is_empty() || digits.len() > 1 && digits[0] == b'0' {
            return None;
        }
        let time = digits.iter().try_fold(0_u64, |time, digit| {
            time.checked_mul(10)?.checked_add((digit - b'0').into())
        })?;
        (time % TICK_NS == 0).then_some(time)
    }

    /// All changes up to the next time; a bit for each encoder that changed, and one did.
    fn changes(&mut self, wires: &mut Wires) -> Option<u32> {
        let mut changed = 0;
        while !matches!(self.0.first(), None | Some(b'#')) {
            changed |= 1 << self.change(wires)?;
        }
        (changed != 0).then_some(changed)
    }

    /// One change, or an encoder's first two. Which encoder it was.
    fn change(&mut self, wires: &mut Wires) -> Option<usize> {
        let (at, pin, value) = self.wire()?;
        if !wires.declared[at] {
            return None;
        }
        let pins = match wires.pins[at] {
            Some(old) if old >> pin & 1 != value => old ^ 1 << pin,
            Some(_) => return None,
            None => {
                let (at_b, pin_b, b) = self.wire()?;
                if (pin, at_b, pin_b) != (0, at, 1) {
                    return None;
                }
                value | b << 1
            }
        };
        wires.pins[at] = Some(pins);
        Some(at)
    }

    /// A line of a change: the encoder, its pin and the value.
    fn wire(&mut self) -> Option<(usize, u8, u8)> {
        let value = match self.byte()? {
            b'0' => 0,
            b'1' => 1,
            _ => return None,
        };
        let wire = match self.byte()? {
            code @ b'A'..=b'T' => code - b'A',
            code @ b'a'..=b't' => code - b'a' + 20,
            _ => return None,
        };
        self.must(b"\n")?;
        Some((usize::from(wire / 2), wire % 2, value))
    }
}
