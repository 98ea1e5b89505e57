//! The dump's reader, line by line, with one mistake.

use crate::mistakes::Mistake::{self, *};
use rivandoze_check::reference::refusal::{Refusal, NO_DUMP, OUTPUT_TOO_SHORT};
use std::collections::{BTreeMap, BTreeSet};

type Encoder = (u8, u8);
type Entry = (u64, Encoder, u8);

/// How many entries, and their bytes; `out` is as it was.
pub fn entries(mistake: Mistake, text: &[u8], out: &[u8]) -> Result<(usize, Vec<u8>), Refusal> {
    if mistake == SixBefore20 && out.len() < 16 {
        return Err(OUTPUT_TOO_SHORT);
    }
    let entries = Wrong(mistake).entries(text).ok_or(NO_DUMP)?;
    let mut bytes = Vec::new();
    for (time, (bank, encoder), pins) in &entries {
        let time = if mistake == TimeInTicks {
            time / 25
        } else {
            *time
        };
        let pins = match mistake {
            ReadPinsSwapped => pins >> 1 | (pins & 1) << 1,
            _ => *pins,
        };
        bytes.extend(time.to_le_bytes());
        bytes.extend([*bank, *encoder, pins]);
        let left = out
            .get(bytes.len()..bytes.len() + 5)
            .filter(|_| mistake == EntriesOf8);
        bytes.extend(left.unwrap_or(&[0; 5]));
    }
    Ok((entries.len(), bytes))
}

struct Wrong(Mistake);

/// The encoder and the pin of a code.
fn wire(code: &str) -> Option<(Encoder, u8)> {
    let letters = "ABCDEFGHIJKLMNOPQRSTabcdefghijklmnopqrst";
    let at = letters.find(code).filter(|_| code.len() == 1)? as u8;
    Some(((at / 20, at % 20 / 2), at % 2))
}

fn declared(line: &str) -> Option<(Encoder, u8)> {
    let code = line.strip_prefix("$var wire 1 ")?.get(..1)?;
    let ((bank, encoder), pin) = wire(code)?;
    let name = ["A", "B"][usize::from(pin)];
    let wanted = format!("$var wire 1 {code} bank{bank}_encoder{encoder}_{name} $end");
    (line == wanted).then_some(((bank, encoder), pin))
}

impl Wrong {
    fn entries(&self, text: &[u8]) -> Option<Vec<Entry>> {
        let most = match self.0 {
            LongerTaken => usize::MAX,
            LongestRefused => 25_206,
            _ => 25_207,
        };
        if text.len() > most {
            return None;
        }
        if self.0 == EmptyTaken && text.is_empty() {
            return Some(Vec::new());
        }
        let lines = self.lines(text)?;
        let mut lines = lines.iter().map(String::as_str).peekable();
        for wanted in ["$timescale 1 ns $end", "$scope module pins $end"] {
            lines.next().filter(|line| *line == wanted)?;
        }
        let mut wires = Vec::new();
        while let Some(found) = lines.peek().and_then(|line| declared(line)) {
            wires.push(found);
            lines.next();
        }
        for wanted in ["$upscope $end", "$enddefinitions $end", "$dumpvars"] {
            lines.next().filter(|line| *line == wanted)?;
        }
        let mut unknown = Vec::new();
        while let Some(code) = lines.peek().and_then(|line| line.strip_prefix('x')) {
            unknown.push(wire(code)?);
            lines.next();
        }
        lines.next().filter(|line| *line == "$end")?;
        self.header_is_right(&wires, &unknown).then_some(())?;
        let rest: Vec<&str> = lines.collect();
        let wires: BTreeSet<Encoder> = wires.into_iter().map(|(encoder, _)| encoder).collect();
        self.read_changes(&rest, &wires)
    }

    fn lines(&self, text: &[u8]) -> Option<Vec<String>> {
        let text = std::str::from_utf8(text).ok()?;
        let mut lines: Vec<String> = text.split('\n').map(String::from).collect();
        let last = lines.pop()?;
        if !last.is_empty() {
            if self.0 != NoNewlineTaken {
                return None;
            }
            lines.push(last);
        }
        if self.0 == BlankLineTaken {
            lines.retain(|line| !line.is_empty());
        }
        if self.0 == ReturnTaken {
            for line in lines.iter_mut().filter(|line| line.ends_with('\r')) {
                line.pop();
            }
        }
        Some(lines)
    }

    fn header_is_right(&self, wires: &[(Encoder, u8)], unknown: &[(Encoder, u8)]) -> bool {
        let rises = |all: &[(Encoder, u8)]| all.windows(2).all(|two| two[0] < two[1]);
        let distinct =
            |all: &[(Encoder, u8)]| all.iter().collect::<BTreeSet<_>>().len() == all.len();
        let whole = |all: &[(Encoder, u8)]| {
            let other = |(encoder, pin): &(Encoder, u8)| all.contains(&(*encoder, 1 - pin));
            all.iter().all(other)
        };
        let wires_in_order = match self.0 {
            WiresInAnyOrder => distinct(wires),
            WireTwiceTaken => {
                wires.windows(2).all(|two| two[0] <= two[1]) || distinct(wires) && rises(wires)
            }
            _ => rises(wires),
        };
        let unknown_in_order = match self.0 {
            UnknownInAnyOrder => distinct(unknown),
            _ => rises(unknown),
        };
        wires_in_order
            && unknown_in_order
            && (self.0 == HalfDeclaredTaken || whole(wires))
            && (self.0 == HalfUnknownTaken || whole(unknown))
            && (self.0 == UndeclaredUnknownTaken || unknown.iter().all(|one| wires.contains(one)))
            && (self.0 != UnknownNeeded || wires.len() == unknown.len())
    }

    fn time(&self, number: &str) -> Option<u64> {
        if !number.bytes().all(|byte| byte.is_ascii_digit()) {
            return None;
        }
        if number.is_empty() {
            return (self.0 == EmptyNumberTaken).then_some(0);
        }
        if number.len() > 1 && number.starts_with('0') && self.0 != LeadingZeroTaken {
            return None;
        }
        let wrapped = number.bytes().fold(0_u64, |sum, digit| {
            sum.wrapping_mul(10).wrapping_add((digit - b'0').into())
        });
        let time = match self.0 {
            TimeWraps => wrapped,
            TimeOf63Bits => number.parse::<u64>().ok().filter(|time| time >> 63 == 0)?,
            _ => number.parse().ok()?,
        };
        (time % 25 == 0 || self.0 == AnyTimeTaken).then_some(time)
    }

    fn read_changes(&self, lines: &[&str], wires: &BTreeSet<Encoder>) -> Option<Vec<Entry>> {
        let mut groups: Vec<(u64, Vec<&str>)> = Vec::new();
        for line in lines {
            if let Some(number) = line.strip_prefix('#') {
                groups.push((self.time(number)?, Vec::new()));
                continue;
            }
            if self.0 == NoTimeTaken && groups.is_empty() {
                groups.push((0, Vec::new()));
            }
            groups.last_mut()?.1.push(line);
        }
        let (mut pins, mut entries) = (BTreeMap::new(), Vec::new());
        let mut last = None;
        for (index, (time, changes)) in groups.iter().enumerate() {
            let later = match self.0 {
                SameTimeTaken => Some(*time) >= last,
                EarlierTimeTaken => Some(*time) != last,
                _ => Some(*time) > last,
            };
            let empty_taken = match self.0 {
                TimeWithNothingTaken => true,
                LastTimeWithNothingTaken => index + 1 == groups.len(),
                _ => false,
            };
            if !later || changes.is_empty() && !empty_taken {
                return None;
            }
            last = Some(*time);
            entries.extend(self.group(*time, changes, wires, &mut pins)?);
        }
        if self.0 == ChangeNeeded && pins.len() < wires.len() {
            return None;
        }
        Some(entries)
    }

    /// The entries of one time.
    fn group(
        &self,
        time: u64,
        lines: &[&str],
        wires: &BTreeSet<Encoder>,
        pins: &mut BTreeMap<Encoder, u8>,
    ) -> Option<Vec<Entry>> {
        let start = pins.clone();
        // Each encoder with its pins, in the order of the changes.
        let mut history: Vec<(Encoder, u8)> = Vec::new();
        let mut lines = lines.iter();
        while let Some(line) = lines.next() {
            if self.0 == UnknownAgainTaken && line.starts_with('x') {
                wire(&line[1..]).filter(|(encoder, _)| wires.contains(encoder))?;
                continue;
            }
            let (encoder, pin, value) = change(line)?;
            if !wires.contains(&encoder) && self.0 != UndeclaredTaken {
                return None;
            }
            let new = match pins.get(&encoder) {
                Some(&old) => {
                    if old >> pin & 1 == value && self.0 != SameValueTaken {
                        return None;
                    }
                    old & !(1 << pin) | value << pin
                }
                None if self.0 == FirstAloneTaken => value << pin,
                None => {
                    let (other, other_pin, other_value) =
                        self.second(&mut lines, (encoder, pin))?;
                    let right = other == encoder && other_pin != pin;
                    if !right || pin == 1 && self.0 != FirstBTaken {
                        return None;
                    }
                    value << pin | other_value << other_pin
                }
            };
            pins.insert(encoder, new);
            history.push((encoder, new));
        }
        Some(self.entries_of(time, &history, &start, pins))
    }

    /// An encoder's second change.
    fn second<'a>(
        &self,
        lines: &mut std::slice::Iter<'a, &'a str>,
        first: (Encoder, u8),
    ) -> Option<(Encoder, u8, u8)> {
        let next = change(lines.next()?)?;
        if self.0 != BLaterTaken || next.0 == first.0 {
            return Some(next);
        }
        // The line between is forgotten, which is one more mistake.
        change(lines.next()?)
    }

    fn entries_of(
        &self,
        time: u64,
        history: &[(Encoder, u8)],
        start: &BTreeMap<Encoder, u8>,
        end: &BTreeMap<Encoder, u8>,
    ) -> Vec<Entry> {
        if self.0 == EntryForEachChange {
            let mut all: Vec<Entry> = history
                .iter()
                .map(|&(encoder, pins)| (time, encoder, pins))
                .collect();
            all.sort_by_key(|&(_, encoder, _)| encoder);
            return all;
        }
        let mut encoders: Vec<Encoder> = Vec::new();
        for (encoder, _) in history {
            if !encoders.contains(encoder) {
                encoders.push(*encoder);
            }
        }
        match self.0 {
            OrderOfChange => {}
            ByEncoderThenBank => encoders.sort_by_key(|&(bank, encoder)| (encoder, bank)),
            EveryKnownEncoder if !history.is_empty() => encoders = end.keys().copied().collect(),
            _ => encoders.sort_unstable(),
        }
        if self.0 == NoEntryThereAndBack {
            encoders.retain(|encoder| start.get(encoder) != end.get(encoder));
        }
        let pins_of = |encoder: &Encoder| {
            let own: Vec<u8> = history
                .iter()
                .filter(|(of, _)| of == encoder)
                .map(|(_, pins)| *pins)
                .collect();
            match self.0 {
                PinsBeforeLastChange if own.len() > 1 => own[own.len() - 2],
                PinsBeforeTime => *start.get(encoder).unwrap_or(&end[encoder]),
                _ => end[encoder],
            }
        };
        encoders
            .iter()
            .map(|encoder| (time, *encoder, pins_of(encoder)))
            .collect()
    }
}

fn change(line: &str) -> Option<(Encoder, u8, u8)> {
    let value = match line.get(..1)? {
        "0" => 0,
        "1" => 1,
        _ => return None,
    };
    let (encoder, pin) = wire(&line[1..])?;
    Some((encoder, pin, value))
}
