//! The dump, line by line, with one mistake.

use crate::mistakes::Mistake::{self, *};
use rivandoze_check::reference::log::{Log, READING_LEN};
use rivandoze_check::reference::record::{Fields, PINS, READ, SELECT, TICKS, WRITE};
use rivandoze_check::reference::refusal::{Refusal, OUTPUT_TOO_SHORT};
use rivandoze_check::reference::Device;

type Encoder = (u8, u8);

/// A pin that changes, or a wait.
#[derive(Clone, Copy)]
struct Event {
    record: usize,
    time: u64,
    change: Option<(Encoder, usize, u8)>,
}

pub fn text(mistake: Mistake, log: &[u8], room: usize) -> Result<Vec<u8>, Refusal> {
    let log = Log::open(log)?;
    let reads = log.records().filter(|bytes| bytes[0] == READ).count();
    if mistake == SixForReadings && reads * READING_LEN > room {
        return Err(OUTPUT_TOO_SHORT);
    }
    let mut wrong = Wrong::new(mistake);
    let mut device = Device::fresh(log.edition);
    for (index, bytes) in log.records().enumerate() {
        let record = Fields::from_bytes(bytes);
        if let Err(refusal) = device.apply(&record) {
            match mistake {
                UpToRefusedRecord => break,
                SixBeforeRecords if wrong.text().len() > room => return Err(OUTPUT_TOO_SHORT),
                _ => return Err(refusal),
            }
        }
        wrong.record(index, &record, &device);
    }
    Ok(wrong.text().into_bytes())
}

struct Wrong {
    mistake: Mistake,
    ticks: u64,
    pins: Vec<(Encoder, u8)>,
    /// In the order of their first records.
    wires: Vec<Encoder>,
    events: Vec<Event>,
}

impl Wrong {
    fn new(mistake: Mistake) -> Self {
        Wrong {
            mistake,
            ticks: 0,
            pins: Vec::new(),
            wires: Vec::new(),
            events: Vec::new(),
        }
    }

    fn time(&self) -> u64 {
        match self.mistake {
            TicksNotTimes25 => self.ticks,
            TicksTimes24 => self.ticks * 24,
            TimeOf32Bits => (self.ticks * 25) & 0xFFFF_FFFF,
            TicksOf32Bits => (self.ticks & 0xFFFF_FFFF) * 25,
            _ => self.ticks * 25,
        }
    }

    fn event(&mut self, record: usize, change: Option<(Encoder, usize, u8)>) {
        self.events.push(Event {
            record,
            time: self.time(),
            change,
        });
    }

    fn record(&mut self, index: usize, record: &Fields, device: &Device) {
        match (record.kind, record.block) {
            (TICKS, _) => {
                self.ticks += record.value;
                self.event(index, None);
            }
            (PINS, _) => self.pins(index, record, device),
            (WRITE, SELECT) if self.mistake == UnknownAfterRerouting => {
                self.pins.retain(|(encoder, _)| encoder.0 != record.bank);
            }
            (WRITE, SELECT) if self.mistake == RoutedEncoders => {
                let select = device.banks[usize::from(record.bank)].select;
                for encoder in (0..10).filter(|&encoder| select.encoder_routed(encoder.into())) {
                    self.wire((record.bank, encoder));
                }
            }
            _ => {}
        }
    }

    fn wire(&mut self, encoder: Encoder) {
        if !self.wires.contains(&encoder) {
            self.wires.push(encoder);
        }
    }

    fn pins(&mut self, index: usize, record: &Fields, device: &Device) {
        let encoder = (record.bank, record.channel);
        self.wire(encoder);
        let enabled =
            device.banks[usize::from(record.bank)].encoders[usize::from(record.channel)].cnfg & 1
                == 1;
        if self.mistake == OnlyWhereEnabled && !enabled {
            return;
        }
        let kept_by = match self.mistake {
            OnePinsForBothBanks => (0, record.channel),
            _ => encoder,
        };
        let mut old = self
            .pins
            .iter()
            .rev()
            .find(|(kept, _)| *kept == kept_by)
            .map(|(_, pins)| *pins);
        if self.mistake == UnknownTakenFor0 && old.is_none() {
            old = Some(0);
        }
        let new = match self.mistake {
            PinsSwapped => record.value as u8 >> 1 | (record.value as u8 & 1) << 1,
            _ => record.value as u8,
        };
        let order = if self.mistake == BBeforeA {
            [1, 0]
        } else {
            [0, 1]
        };
        for pin in order {
            let changed = match old {
                None => true,
                Some(old) => {
                    (old ^ new) >> pin & 1 == 1
                        || self.mistake == UnchangedPinWritten && old != new
                        || self.mistake == UnchangedPairWritten && old == new
                }
            };
            if changed {
                self.event(index, Some((encoder, pin, new >> pin & 1)));
            }
        }
        self.pins.push((kept_by, new));
    }

    fn code(&self, (bank, encoder): Encoder, pin: usize) -> char {
        let first = if bank == 0 || self.mistake == OneBankOfCodes {
            b'A'
        } else {
            b'a'
        };
        char::from(first + 2 * encoder + pin as u8)
    }

    fn wires_in_order(&self) -> Vec<Encoder> {
        let mut wires = self.wires.clone();
        match self.mistake {
            RecordOrder => {}
            BankBFirst => wires.sort_by_key(|&(bank, encoder)| (1 - bank, encoder)),
            EveryEncoder => wires = (0..20).map(|at| (at / 10, at % 10)).collect(),
            _ => wires.sort_unstable(),
        }
        if self.mistake == ChangedTwiceOnly {
            let changes = |wire| {
                let all = self.events.iter().filter_map(|event| event.change);
                all.filter(|(encoder, ..)| *encoder == wire).count()
            };
            wires.retain(|&wire| changes(wire) > 2);
        }
        wires
    }

    fn text(&self) -> String {
        let mut lines = vec![
            "$timescale 1 ns $end".to_string(),
            "$scope module pins $end".into(),
        ];
        let wires = self.wires_in_order();
        for &(bank, encoder) in &wires {
            let shown = encoder + u8::from(self.mistake == EncodersFromOne);
            for (pin, name) in ["A", "B"].iter().enumerate() {
                let code = self.code((bank, encoder), pin);
                lines.push(format!(
                    "$var wire 1 {code} bank{bank}_encoder{shown}_{name} $end"
                ));
            }
        }
        lines.push("$upscope $end".into());
        lines.push("$enddefinitions $end".into());
        if self.mistake == UnknownAtTime0 {
            lines.push("#0".into());
        }
        lines.push("$dumpvars".into());
        for &wire in wires.iter().filter(|_| self.mistake != NoUnknown) {
            lines.extend([0, 1].map(|pin| format!("x{}", self.code(wire, pin))));
        }
        lines.push("$end".into());
        lines.extend(self.changes());
        let text: String = lines.iter().map(|line| format!("{line}\n")).collect();
        match self.mistake {
            NoLastNewline => text.trim_end().into(),
            _ => text,
        }
    }

    fn changes(&self) -> Vec<String> {
        let mut lines = Vec::new();
        let mut told = if self.mistake == NoTime0 {
            Some((0, 0))
        } else {
            None
        };
        let last = self.events.len();
        for (index, event) in self.events.iter().enumerate() {
            let (encoder, pin, value) = match event.change {
                Some(_) if self.is_left_out(index) => continue,
                Some(change) => change,
                None => {
                    let at_the_end = self.mistake == TimeAtTheEnd && index + 1 == last;
                    let new = told.map(|(time, _)| time) != Some(event.time);
                    if new && (self.mistake == TimeWhereNothingFollows || at_the_end) {
                        lines.push(format!("#{}", event.time));
                        told = Some((event.time, event.record));
                    }
                    continue;
                }
            };
            let again = match told {
                Some((time, record)) => {
                    time != event.time
                        || self.mistake == TimeBeforeEveryRecord && record != event.record
                }
                None => true,
            };
            if again {
                lines.push(format!("#{}", event.time));
            }
            told = Some((event.time, event.record));
            lines.push(format!("{value}{}", self.code(encoder, pin)));
        }
        lines
    }

    /// By the mistake in which what changes to and fro at one time is not written.
    fn is_left_out(&self, index: usize) -> bool {
        let event = &self.events[index];
        if self.mistake != ThereAndBackLeftOut {
            return false;
        }
        let of_wire = |other: &&Event| match (other.change, event.change) {
            (Some((encoder, pin, _)), Some((own, own_pin, _))) => {
                (encoder, pin) == (own, own_pin) && other.time == event.time
            }
            _ => false,
        };
        let before = self.events[..index].iter().filter(of_wire).count();
        let behind = self.events[index + 1..].iter().filter(of_wire).count();
        before > 0 || behind > 0
    }
}
