//! How a driver is asked for a call of the library, and how it answers, over two pipes.
//!
//! A request is seven numbers of 64 bits (the call, the lengths of the log, of what is lent beside it and
//! of the output, the seed of the pattern, the place, the edition that the writer is given), the log, and what
//! is lent beside it. The answer
//! is two numbers (the word, and 1 if what was lent to be read and the bytes around it are as they were),
//! then every byte of the guards and of the output between them. All numbers are little-endian. The
//! end of the requests is told when all are answered. `compare/driver.c` speaks the same.

use crate::packed;
use crate::script::{self, Right};
use std::io::{self, Read, Write};
use std::process::ExitCode;

/// The numbers of a request.
pub const HEADER_LEN: usize = 56;

/// How many guard bytes lie on a side that has some.
pub const GUARD_LEN: usize = 64;

#[derive(Debug, Clone, Copy, PartialEq, Eq)]
pub enum Call {
    Replay = 0,
    Judge = 1,
    Dump = 2,
    DumpRead = 3,
    Write = 4,
    Shrink = 5,
    Sign = 6,
    /// As a script has it, which `stream` explains.
    Stream = 7,
}

pub const CALLS: [Call; 8] = [
    Call::Replay,
    Call::Judge,
    Call::Dump,
    Call::DumpRead,
    Call::Write,
    Call::Shrink,
    Call::Sign,
    Call::Stream,
];

impl Call {
    pub fn name(self) -> &'static str {
        match self {
            Call::Replay => "replay",
            Call::Judge => "judge",
            Call::Dump => "dump",
            Call::DumpRead => "dump-read",
            Call::Write => "write",
            Call::Shrink => "shrink",
            Call::Sign => "sign",
            Call::Stream => "stream",
        }
    }

    pub fn from_name(name: &str) -> Option<Call> {
        CALLS.into_iter().find(|call| call.name() == name)
    }

    fn from_number(number: u64) -> Option<Call> {
        CALLS.into_iter().find(|&call| call as u64 == number)
    }
}

/// What lies around the log, around what is lent beside it, and around the output.
#[derive(Debug, Clone, Copy, PartialEq, Eq)]
pub enum Place {
    /// Guard bytes on both sides.
    BetweenGuards = 0,
    /// Guard bytes before, and behind the last byte memory that may not be touched.
    BeforeTheEnd = 1,
    /// Memory that may not be touched before the first byte, and guard bytes behind.
    BehindTheStart = 2,
    /// Nothing: a block of the heap that is as long as it must be, for tools that watch the heap.
    Alone = 3,
}

pub const PLACES: [Place; 4] = [
    Place::BetweenGuards,
    Place::BeforeTheEnd,
    Place::BehindTheStart,
    Place::Alone,
];

impl Place {
    pub fn from_number(number: u64) -> Option<Place> {
        PLACES.iter().copied().find(|&place| place as u64 == number)
    }

    fn guards(self) -> (usize, usize) {
        match self {
            Place::BetweenGuards => (GUARD_LEN, GUARD_LEN),
            Place::BeforeTheEnd => (GUARD_LEN, 0),
            Place::BehindTheStart => (0, GUARD_LEN),
            Place::Alone => (0, 0),
        }
    }
}

#[derive(Debug, Clone, PartialEq, Eq)]
pub struct Request {
    pub call: Call,
    /// A log, or the text for the dump's reader, or records for the writer or the stream.
    pub log: Vec<u8>,
    /// What is lent beside the log: the judge's transcript, the writer's notes, the stream's script.
    pub beside: Vec<u8>,
    pub out_len: usize,
    pub pattern: u64,
    pub place: Place,
    /// The writer's edition; otherwise 0.
    pub edition: u64,
}

#[derive(Debug, Clone, PartialEq, Eq)]
pub struct Answer {
    pub word: u64,
    /// Whether nothing was changed of what was lent to be read.
    pub kept: bool,
    pub area: Area,
}

/// The output with its guards.
#[derive(Debug, Clone, PartialEq, Eq)]
pub struct Area {
    pub bytes: Vec<u8>,
    before: usize,
    out_len: usize,
}

impl Area {
    pub fn out(&mut self) -> &mut [u8] {
        &mut self.bytes[self.before..][..self.out_len]
    }

    /// The guard byte before the output's first, if there are guards there.
    pub fn guard_before(&mut self) -> Option<&mut u8> {
        self.bytes.get_mut(self.before.checked_sub(1)?)
    }

    /// The guard byte behind the output's last, if there are guards there.
    pub fn guard_behind(&mut self) -> Option<&mut u8> {
        self.bytes.get_mut(self.before + self.out_len)
    }

    /// Where a byte of the area lies, counted from the output's first.
    pub fn from_out(&self, index: usize) -> isize {
        index as isize - self.before as isize
    }
}

impl Request {
    /// The area before the call: a pattern that the seed gives, guards included.
    pub fn area(&self) -> Area {
        let (before, behind) = self.place.guards();
        let mut state = self.pattern;
        let bytes = (0..before + self.out_len + behind)
            .map(|_| {
                state = state
                    .wrapping_mul(6_364_136_223_846_793_005)
                    .wrapping_add(1_442_695_040_888_963_407);
                (state >> 56) as u8
            })
            .collect();
        Area {
            bytes,
            before,
            out_len: self.out_len,
        }
    }

    /// The answer by the reference.
    pub fn right_answer(&self) -> Answer {
        let mut area = self.area();
        let word = match self.call {
            Call::Replay => packed::replay(&self.log, area.out()),
            Call::Judge => packed::judge(&self.log, &self.beside),
            Call::Dump => packed::dump(&self.log, area.out()),
            Call::DumpRead => packed::dump_read(&self.log, area.out()),
            Call::Write => packed::write(self.edition, &self.beside, &self.log, area.out()),
            Call::Shrink => packed::shrink(&self.log, area.out()),
            Call::Sign => packed::sign(&self.log, area.out()),
            Call::Stream => script::run(&mut Right::default(), &self.log, &self.beside, area.out()),
        };
        Answer {
            word,
            kept: true,
            area,
        }
    }

    pub fn write_to(&self, to: &mut impl Write) -> io::Result<()> {
        let numbers = [
            self.call as u64,
            self.log.len() as u64,
            self.beside.len() as u64,
            self.out_len as u64,
            self.pattern,
            self.place as u64,
            self.edition,
        ];
        to.write_all(&numbers.map(u64::to_le_bytes).concat())?;
        to.write_all(&self.log)?;
        to.write_all(&self.beside)?;
        to.flush()
    }

    /// The next request, or nothing at the end of input.
    pub fn read_from(from: &mut impl Read) -> io::Result<Option<Request>> {
        let mut header = Vec::new();
        from.by_ref()
            .take(HEADER_LEN as u64)
            .read_to_end(&mut header)?;
        if header.is_empty() {
            return Ok(None);
        }
        if header.len() < HEADER_LEN {
            return Err(broken("half a request"));
        }
        let number = |index| number_at(&header, index);
        let mut bytes = |len: u64| {
            let mut bytes = vec![0; len as usize];
            from.read_exact(&mut bytes).map(|()| bytes)
        };
        Ok(Some(Request {
            call: Call::from_number(number(0)).ok_or_else(|| broken("no such call"))?,
            log: bytes(number(1))?,
            beside: bytes(number(2))?,
            out_len: number(3) as usize,
            pattern: number(4),
            place: Place::from_number(number(5)).ok_or_else(|| broken("no such place"))?,
            edition: number(6),
        }))
    }
}

impl Answer {
    pub fn write_to(&self, to: &mut impl Write) -> io::Result<()> {
        let numbers = [self.word, u64::from(self.kept)];
        to.write_all(&numbers.map(u64::to_le_bytes).concat())?;
        to.write_all(&self.area.bytes)?;
        to.flush()
    }

    /// The answer to a request.
    pub fn read_from(from: &mut impl Read, request: &Request) -> io::Result<Answer> {
        let mut header = [0; 16];
        from.read_exact(&mut header)?;
        let mut area = request.area();
        from.read_exact(&mut area.bytes)?;
        Ok(Answer {
            word: number_at(&header, 0),
            kept: number_at(&header, 1) == 1,
            area,
        })
    }
}

/// What a driver does: answers every request, and tells on standard error, by its name, where it cannot.
pub fn answer_all(name: &str, answer: impl Fn(&Request) -> Answer) -> ExitCode {
    let all = || -> io::Result<()> {
        let mut stdin = io::stdin().lock();
        let mut stdout = io::BufWriter::new(io::stdout().lock());
        while let Some(request) = Request::read_from(&mut stdin)? {
            answer(&request).write_to(&mut stdout)?;
        }
        Ok(())
    };
    match all() {
        Ok(()) => ExitCode::SUCCESS,
        Err(error) => {
            eprintln!("{name}: {error}");
            ExitCode::from(2)
        }
    }
}

fn number_at(header: &[u8], index: usize) -> u64 {
    let bytes = &header[8 * index..][..8];
    u64::from_le_bytes(bytes.try_into().expect("eight bytes"))
}

fn broken(message: &str) -> io::Error {
    io::Error::new(io::ErrorKind::InvalidData, message)
}
