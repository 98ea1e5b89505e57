//! A written form of logs, for people.
//!
//! ```text
//! note "bench 3\n"             # notes first; their bytes and nothing more
//! write select 0xA             # numbers are decimal, or hexadecimal after 0x
//! write encoder 0 cnfg 1
//! pins encoder 0 2
//! read encoder 0 cntr
//! ticks 500
//! write pwm 3 max 1000
//! read pwm 3 level
//! answer i2c 2                 # how the slave answers the next GO
//! write i2c go 1
//! bank 1 write select 0x5      # byte 4, where it is not 0
//! raw 01 00 00 00 00 00 00 00 0A 00 00 00 00 00 00 00
//! trailer distance 32 edition 1 mark 51 4D
//! ```
//!
//! Words may be in capitals. Nothing is checked against the rules of replay: any channel up to 255
//! and any value can be written, and every byte string has a text. The trailer line is needed only
//! where the trailer is not the one of edition 1 that fits the records; each of its three parts may be
//! left out, and `trailer none` leaves out the trailer.

use crate::reference::edition::Edition;
use crate::reference::log::{each_record, Trailer};
use crate::reference::record::{
    Fields, ANSWER, ENCODER, I2C, PINS, PWM, READ, RECORD_LEN, SELECT, TICKS, WRITE,
};
use std::fmt::Write;
use std::str::SplitWhitespace;

/// The line, counted from 1, and what is wrong there.
pub type TextError = (usize, String);

struct Block {
    name: &'static str,
    number: u8,
    has_channels: bool,
    /// A single register goes without a name.
    registers: &'static [&'static str],
}

const BLOCKS: [Block; 4] = [
    Block {
        name: "select",
        number: SELECT,
        has_channels: false,
        registers: &["select"],
    },
    Block {
        name: "encoder",
        number: ENCODER,
        has_channels: true,
        registers: &["cnfg", "stat", "cntr"],
    },
    Block {
        name: "pwm",
        number: PWM,
        has_channels: true,
        registers: &["cnfg", "cs", "max", "cmp", "cntr", "level"],
    },
    Block {
        name: "i2c",
        number: I2C,
        has_channels: false,
        registers: &["addr", "cntl", "go", "state", "failure"],
    },
];

const NOTE_LINE_LEN: usize = 60;

// From bytes to text.

pub fn to_text(log: &[u8]) -> String {
    let mut text = String::new();
    let (in_front, trailer) = match Trailer::split_off(log) {
        Some(parts) => parts,
        None => {
            notes_to_text(log, &mut text);
            text.push_str("trailer none\n");
            return text;
        }
    };
    let whole_records = in_front.len() / RECORD_LEN * RECORD_LEN;
    let len = trailer.records_len(in_front.len());
    let (notes, records) = in_front.split_at(in_front.len() - len.unwrap_or(whole_records));
    notes_to_text(notes, &mut text);
    for record in each_record(records) {
        text.push_str(&record_to_text(record));
        text.push('\n');
    }
    text.push_str(&trailer_to_text(trailer, fitting_trailer(records.len())));
    text
}

fn fitting_trailer(records_len: usize) -> Option<Trailer> {
    let distance = u32::try_from(records_len).ok()?;
    Some(Trailer::of(Edition::One, distance))
}

fn notes_to_text(notes: &[u8], text: &mut String) {
    let lines = notes.split_inclusive(|&byte| byte == b'\n');
    for line in lines.flat_map(|line| line.chunks(NOTE_LINE_LEN)) {
        text.push_str("note \"");
        for &byte in line {
            text.push_str(&note_byte_to_text(byte));
        }
        text.push_str("\"\n");
    }
}

fn note_byte_to_text(byte: u8) -> String {
    match byte {
        b'\n' => "\\n".into(),
        b'"' => "\\\"".into(),
        b'\\' => "\\\\".into(),
        b' '..=b'~' => char::from(byte).into(),
        _ => format!("\\x{byte:02X}"),
    }
}

/// One record as a line, without the line's end.
pub fn record_to_text(bytes: &[u8; RECORD_LEN]) -> String {
    named_record(Fields::from_bytes(bytes)).unwrap_or_else(|| format!("raw {}", hex(bytes)))
}

fn hex(bytes: &[u8]) -> String {
    let words: Vec<String> = bytes.iter().map(|byte| format!("{byte:02X}")).collect();
    words.join(" ")
}

fn named_record(fields: Fields) -> Option<String> {
    let Fields { bank, value, .. } = fields;
    if fields.reserved != 0 {
        return None;
    }
    let words = match fields.kind {
        WRITE if fields.block == SELECT => format!("write {} 0x{value:X}", place(fields)?),
        WRITE => format!("write {} {value}", place(fields)?),
        READ if value == 0 => format!("read {}", place(fields)?),
        PINS if fields == Fields::pins(fields.channel, value).in_bank(bank) => {
            format!("pins encoder {} {value}", fields.channel)
        }
        TICKS if fields == Fields::ticks(value).in_bank(bank) => format!("ticks {value}"),
        ANSWER if fields == Fields::answer(value).in_bank(bank) => format!("answer i2c {value}"),
        _ => return None,
    };
    Some(match bank {
        0 => words,
        _ => format!("bank {bank} {words}"),
    })
}

fn place(fields: Fields) -> Option<String> {
    let block = BLOCKS.iter().find(|block| block.number == fields.block)?;
    let register = block.registers.get(usize::from(fields.register))?;
    let mut words = String::from(block.name);
    if block.has_channels {
        write!(words, " {}", fields.channel).ok()?;
    } else if fields.channel != 0 {
        return None;
    }
    if block.registers.len() > 1 {
        write!(words, " {register}").ok()?;
    }
    Some(words)
}

/// The line for what is otherwise than fits, if anything is.
fn trailer_to_text(trailer: Trailer, fitting: Option<Trailer>) -> String {
    let mut parts = String::new();
    if fitting.map(|fits| fits.distance) != Some(trailer.distance) {
        parts += &format!(" distance {}", trailer.distance);
    }
    if fitting.map(|fits| fits.edition) != Some(trailer.edition) {
        parts += &format!(" edition {}", trailer.edition);
    }
    if fitting.map(|fits| fits.mark) != Some(trailer.mark) {
        parts += &format!(" mark {}", hex(&trailer.mark));
    }
    if parts.is_empty() {
        parts
    } else {
        format!("trailer{parts}\n")
    }
}

// From text to bytes.

pub fn from_text(text: &str) -> Result<Vec<u8>, TextError> {
    let mut reader = Reader::default();
    for (index, line) in text.lines().enumerate() {
        let number = index + 1;
        reader.line(line).map_err(|message| (number, message))?;
        reader.lines = number;
    }
    reader.finish()
}

#[derive(Default)]
struct Reader {
    lines: usize,
    notes: Vec<u8>,
    records: Vec<u8>,
    trailer: Option<TrailerLine>,
}

#[derive(Default)]
struct TrailerLine {
    none: bool,
    distance: Option<u32>,
    edition: Option<u16>,
    mark: Option<[u8; 2]>,
}

impl Reader {
    fn line(&mut self, line: &str) -> Result<(), String> {
        let line = line.trim();
        let word_end = line.find(|c: char| c.is_whitespace() || "\"#".contains(c));
        let (keyword, rest) = line.split_at(word_end.unwrap_or(line.len()));
        if keyword.is_empty() && (rest.is_empty() || rest.starts_with('#')) {
            return Ok(());
        }
        if self.trailer.is_some() {
            return Err("nothing may follow the trailer line".into());
        }
        if keyword.eq_ignore_ascii_case("note") {
            return self.note(rest.trim_start());
        }
        let mut words = Words::of(rest);
        match keyword.to_ascii_lowercase().as_str() {
            "bank" => {
                let bank = words.number("the bank")?;
                let keyword = words.next("what is for the bank")?;
                let fields = words.record(keyword)?.ok_or_else(|| {
                    format!(
                        "`{keyword}` is none of write, read, pins, answer, ticks, which may have a bank"
                    )
                })?;
                self.record(fields.in_bank(bank));
            }
            "raw" => {
                let bytes = words.hex_bytes::<RECORD_LEN>()?;
                self.records.extend_from_slice(&bytes);
            }
            "trailer" => self.trailer = Some(words.trailer()?),
            _ => {
                let fields = words.record(keyword)?.ok_or_else(|| {
                    format!(
                        "`{keyword}` is none of write, read, pins, answer, ticks, bank, raw, note, trailer"
                    )
                })?;
                self.record(fields);
            }
        }
        words.end()
    }

    fn note(&mut self, rest: &str) -> Result<(), String> {
        if !self.records.is_empty() {
            return Err("notes stand before the first record".into());
        }
        let inner = rest
            .strip_prefix('"')
            .ok_or("a note is written between double quotes")?;
        let after = unquote(inner, &mut self.notes)?;
        Words::of(after).end()
    }

    fn record(&mut self, fields: Fields) {
        self.records.extend_from_slice(&fields.to_bytes());
    }

    fn finish(self) -> Result<Vec<u8>, TextError> {
        let mut log = self.notes;
        log.extend_from_slice(&self.records);
        let line = self.trailer.unwrap_or_default();
        if line.none {
            return Ok(log);
        }
        let mut trailer = fitting_trailer(self.records.len())
            .ok_or_else(|| (self.lines, "more records than a distance can tell".into()))?;
        trailer.distance = line.distance.unwrap_or(trailer.distance);
        trailer.edition = line.edition.unwrap_or(trailer.edition);
        trailer.mark = line.mark.unwrap_or(trailer.mark);
        log.extend_from_slice(&trailer.to_bytes());
        Ok(log)
    }
}

/// Reads up to the closing quote and gives what follows it.
fn unquote<'a>(inner: &'a str, notes: &mut Vec<u8>) -> Result<&'a str, String> {
    let mut rest = inner;
    loop {
        let mut chars = rest.chars();
        match chars.next() {
            None => return Err("the note's closing double quote is missing".into()),
            Some('"') => return Ok(chars.as_str()),
            Some('\\') => rest = unescape(chars.as_str(), notes)?,
            Some(c) => {
                notes.extend_from_slice(c.encode_utf8(&mut [0; 4]).as_bytes());
                rest = chars.as_str();
            }
        }
    }
}

fn unescape<'a>(after_backslash: &'a str, notes: &mut Vec<u8>) -> Result<&'a str, String> {
    let mut chars = after_backslash.chars();
    match chars.next() {
        Some('n') => notes.push(b'\n'),
        Some(c @ ('"' | '\\')) => notes.push(c as u8),
        Some('x') => {
            let digits = chars.as_str().get(..2).unwrap_or("");
            notes.push(hex_byte(digits).ok_or("`\\x` in a note takes two hexadecimal digits")?);
            return Ok(&chars.as_str()[2..]);
        }
        _ => return Err("a backslash in a note takes n, x, \\ or \" behind it".into()),
    }
    Ok(chars.as_str())
}

fn hex_byte(digits: &str) -> Option<u8> {
    // Not left to the conversion alone: it takes a plus sign.
    if digits.len() != 2 || !digits.bytes().all(|digit| digit.is_ascii_hexdigit()) {
        return None;
    }
    u8::from_str_radix(digits, 16).ok()
}

/// The words of a line behind its keyword, without the comment.
struct Words<'a>(SplitWhitespace<'a>);

impl<'a> Words<'a> {
    fn of(rest: &'a str) -> Self {
        let text = rest.split('#').next().unwrap_or("");
        Words(text.split_whitespace())
    }

    fn next(&mut self, what: &str) -> Result<&'a str, String> {
        self.0.next().ok_or_else(|| format!("{what} is missing"))
    }

    fn end(&mut self) -> Result<(), String> {
        match self.0.next() {
            None => Ok(()),
            Some(word) => Err(format!("`{word}` is one word too many")),
        }
    }

    fn number<T: TryFrom<u64>>(&mut self, what: &str) -> Result<T, String> {
        let word = self.next(what)?;
        let value = number(word).map_err(|problem| format!("{what} `{word}` {problem}"))?;
        T::try_from(value).map_err(|_| format!("{what} `{word}` is too large"))
    }

    /// A record of bank 0, or nothing if this is no keyword of one.
    fn record(&mut self, keyword: &str) -> Result<Option<Fields>, String> {
        let fields = match keyword.to_ascii_lowercase().as_str() {
            "write" => {
                let (block, channel, register) = self.place()?;
                Fields::write(block, channel, register, self.number("the value")?)
            }
            "read" => {
                let (block, channel, register) = self.place()?;
                Fields::read(block, channel, register)
            }
            "answer" => {
                self.named("i2c", "only i2c has slaves that answer")?;
                Fields::answer(self.number("the value")?)
            }
            "pins" => {
                self.named("encoder", "only an encoder has pins")?;
                let channel = self.number("the channel")?;
                Fields::pins(channel, self.number("the value")?)
            }
            "ticks" => Fields::ticks(self.number("the number of ticks")?),
            _ => return Ok(None),
        };
        Ok(Some(fields))
    }

    fn place(&mut self) -> Result<(u8, u8, u8), String> {
        let word = self.next("the block")?;
        let block = BLOCKS
            .iter()
            .find(|block| block.name.eq_ignore_ascii_case(word))
            .ok_or_else(|| format!("`{word}` is none of the blocks select, encoder, pwm, i2c"))?;
        let channel = if block.has_channels {
            self.number("the channel")?
        } else {
            0
        };
        let register = if block.registers.len() > 1 {
            self.register(block)?
        } else {
            0
        };
        Ok((block.number, channel, register))
    }

    fn register(&mut self, block: &Block) -> Result<u8, String> {
        let word = self.next("the register")?;
        (0..)
            .zip(block.registers)
            .find(|(_, name)| name.eq_ignore_ascii_case(word))
            .map(|(number, _)| number)
            .ok_or_else(|| {
                let list = block.registers.join(", ");
                format!(
                    "`{word}` is none of the registers of {}: {list}",
                    block.name
                )
            })
    }

    /// The one block that can stand here.
    fn named(&mut self, block: &str, why: &str) -> Result<(), String> {
        let word = self.next(&format!("the word {block}"))?;
        if word.eq_ignore_ascii_case(block) {
            Ok(())
        } else {
            Err(format!("{why}, `{word}` has none"))
        }
    }

    fn hex_bytes<const N: usize>(&mut self) -> Result<[u8; N], String> {
        let mut bytes = [0; N];
        for (index, byte) in bytes.iter_mut().enumerate() {
            let word = self.next(&format!("byte {} of {N}", index + 1))?;
            *byte = hex_byte(word)
                .ok_or_else(|| format!("`{word}` is not a byte of two hexadecimal digits"))?;
        }
        Ok(bytes)
    }

    fn trailer(&mut self) -> Result<TrailerLine, String> {
        let mut line = TrailerLine::default();
        let mut word = self.next("what the trailer holds")?;
        if word.eq_ignore_ascii_case("none") {
            line.none = true;
            return Ok(line);
        }
        loop {
            let twice = match word.to_ascii_lowercase().as_str() {
                "distance" => line
                    .distance
                    .replace(self.number("the distance")?)
                    .is_some(),
                "edition" => line.edition.replace(self.number("the edition")?).is_some(),
                "mark" => line.mark.replace(self.hex_bytes()?).is_some(),
                _ => return Err(format!("`{word}` is none of distance, edition, mark, none")),
            };
            if twice {
                return Err(format!("{word} is given twice"));
            }
            match self.0.next() {
                Some(next) => word = next,
                None => return Ok(line),
            }
        }
    }
}

fn number(word: &str) -> Result<u64, &'static str> {
    let (digits, radix) = match word.strip_prefix("0x").or(word.strip_prefix("0X")) {
        Some(digits) => (digits, 16),
        None => (word, 10),
    };
    if digits.is_empty() || !digits.chars().all(|digit| digit.is_digit(radix)) {
        return Err("is not a number (decimal, or hexadecimal after 0x)");
    }
    u64::from_str_radix(digits, radix).map_err(|_| "is above 64 bits")
}
