//! What is asked of a stream: a script of calls, in order.
//!
//! Each is four numbers of 64 bits, little-endian. The output has, for each call, 8 bytes for what it answered, so
//! many bytes that are lent to it as its output, and 8 that nobody may touch. The records stand in the log. The
//! state of a stream has as many bytes as the library says; a script says how many more or fewer are lent.

use crate::reference::refusal::{Refusal, NONE, NO_STATE, OUTPUT_TOO_SHORT};
use crate::reference::Stream;

#[derive(Debug, Clone, Copy, PartialEq, Eq)]
pub enum Ask {
    /// A new state of so many bytes more, less so many, and its start: edition, more, fewer.
    Start {
        edition: u64,
        more: u64,
        fewer: u64,
    },
    /// The record bytes from here, so many, and the room for readings.
    Chunk {
        from: u64,
        len: u64,
        room: u64,
    },
    End,
    Applied,
    /// The bytes of the state are copied to another place, and the ones here become others.
    Move,
    /// The same three with a state that is one byte too short.
    ShortChunk {
        from: u64,
        len: u64,
        room: u64,
    },
    ShortEnd,
    ShortApplied,
    /// A start in the bytes of the state that is there.
    Again {
        edition: u64,
    },
    /// From now on the other of two states is asked; at first it has no bytes.
    Other,
    /// A copy of the state with one byte changed, or with all bytes the same, is asked and thrown away. Whether that
    /// still is a state, only the library knows; but all of its calls must say the same of it, and change nothing
    /// if it is none. The answer is 0.
    Damaged {
        all: u64,
        at: u64,
        by: u64,
    },
    /// Any bytes, so many more or fewer than a state has, are asked for a chunk, the end and the applied number.
    Noise {
        seed: u64,
        more: u64,
        fewer: u64,
    },
    /// The same chunk so many times, without room. The answer is the last one.
    Repeated {
        from: u64,
        len: u64,
        times: u64,
    },
    /// The bytes of the state are edited, so that it has applied so many records.
    SetApplied {
        applied: u64,
    },
    /// So that an encoder has this count.
    SetCount {
        bank: u64,
        encoder: u64,
        count: u64,
    },
}

pub const ASK_LEN: usize = 32;
const WORD: usize = 8;
const GUARD: usize = 8;

impl Ask {
    pub fn to_bytes(self) -> [u8; ASK_LEN] {
        let numbers = match self {
            Ask::Start {
                edition,
                more,
                fewer,
            } => [0, edition, more, fewer],
            Ask::Chunk { from, len, room } => [1, from, len, room],
            Ask::End => [2, 0, 0, 0],
            Ask::Applied => [3, 0, 0, 0],
            Ask::Move => [4, 0, 0, 0],
            Ask::ShortChunk { from, len, room } => [5, from, len, room],
            Ask::ShortEnd => [6, 0, 0, 0],
            Ask::ShortApplied => [7, 0, 0, 0],
            Ask::Again { edition } => [8, edition, 0, 0],
            Ask::Other => [9, 0, 0, 0],
            Ask::Damaged { all, at, by } => [10, all, at, by],
            Ask::Noise { seed, more, fewer } => [11, seed, more, fewer],
            Ask::Repeated { from, len, times } => [12, from, len, times],
            Ask::SetApplied { applied } => [13, applied, 0, 0],
            Ask::SetCount {
                bank,
                encoder,
                count,
            } => [14, bank, encoder, count],
        };
        let mut bytes = [0; ASK_LEN];
        for (place, number) in bytes.chunks_exact_mut(8).zip(numbers) {
            place.copy_from_slice(&number.to_le_bytes());
        }
        bytes
    }

    fn from_bytes(bytes: &[u8]) -> Ask {
        let number =
            |at: usize| u64::from_le_bytes(bytes[8 * at..][..8].try_into().expect("eight bytes"));
        let [kind, a, b, c] = [0, 1, 2, 3].map(number);
        match kind {
            0 => Ask::Start {
                edition: a,
                more: b,
                fewer: c,
            },
            1 => Ask::Chunk {
                from: a,
                len: b,
                room: c,
            },
            2 => Ask::End,
            3 => Ask::Applied,
            4 => Ask::Move,
            5 => Ask::ShortChunk {
                from: a,
                len: b,
                room: c,
            },
            6 => Ask::ShortEnd,
            7 => Ask::ShortApplied,
            8 => Ask::Again { edition: a },
            9 => Ask::Other,
            10 => Ask::Damaged {
                all: a,
                at: b,
                by: c,
            },
            11 => Ask::Noise {
                seed: a,
                more: b,
                fewer: c,
            },
            12 => Ask::Repeated {
                from: a,
                len: b,
                times: c,
            },
            13 => Ask::SetApplied { applied: a },
            _ => Ask::SetCount {
                bank: a,
                encoder: b,
                count: c,
            },
        }
    }

    fn room(self) -> usize {
        match self {
            Ask::Chunk { room, .. } | Ask::ShortChunk { room, .. } => room as usize,
            _ => 0,
        }
    }
}

pub fn asks(script: &[u8]) -> impl Iterator<Item = Ask> + '_ {
    script.chunks_exact(ASK_LEN).map(Ask::from_bytes)
}

/// How long the output of a script is.
pub fn out_len(asks: &[Ask]) -> usize {
    asks.iter().map(|ask| WORD + ask.room() + GUARD).sum()
}

/// What answers a script.
pub trait Streams {
    fn start(&mut self, edition: u64, short: bool) -> Refusal;
    fn chunk(&mut self, chunk: &[u8], out: &mut [u8]) -> (Refusal, u64);
    fn end(&mut self) -> Refusal;
    fn applied(&mut self) -> u64;

    fn again(&mut self, edition: u64) -> Refusal;
    fn other(&mut self);

    fn set_applied(&mut self, applied: u64);
    fn set_count(&mut self, bank: usize, encoder: usize, count: u32);

    /// The state lies elsewhere from now on.
    fn moved(&mut self) {}

    /// The answer for bytes that are no state.
    fn noise(&mut self) -> Refusal {
        NO_STATE
    }

    /// The answer to a call whose state is too short.
    fn short_chunk(&mut self, _chunk: &[u8], _out: &mut [u8]) -> (Refusal, u64) {
        (NO_STATE, 0)
    }

    fn short_end(&mut self) -> Refusal {
        NO_STATE
    }

    fn short_applied(&mut self) -> u64 {
        0
    }
}

/// By the reference. Without a start there is no state.
#[derive(Default)]
pub struct Right {
    /// The one that is asked, and the other.
    here: Lent,
    there: Lent,
}

/// The bytes for a state: whether they are enough, and what they hold.
#[derive(Default)]
struct Lent {
    enough: bool,
    stream: Option<Stream>,
}

impl Streams for Right {
    fn start(&mut self, edition: u64, short: bool) -> Refusal {
        self.here = Lent {
            enough: !short,
            stream: None,
        };
        self.again(edition)
    }

    fn again(&mut self, edition: u64) -> Refusal {
        match Stream::start(edition) {
            Ok(_) if !self.here.enough => OUTPUT_TOO_SHORT,
            Ok(stream) => {
                self.here.stream = Some(stream);
                NONE
            }
            Err(refusal) => refusal,
        }
    }

    fn other(&mut self) {
        std::mem::swap(&mut self.here, &mut self.there);
    }

    fn chunk(&mut self, chunk: &[u8], out: &mut [u8]) -> (Refusal, u64) {
        let stream = self.here.stream.as_mut();
        stream.map_or((NO_STATE, 0), |stream| stream.chunk(chunk, out))
    }

    fn end(&mut self) -> Refusal {
        self.here.stream.as_ref().map_or(NO_STATE, Stream::end)
    }

    fn applied(&mut self) -> u64 {
        self.here.stream.as_ref().map_or(0, Stream::applied)
    }

    fn set_applied(&mut self, applied: u64) {
        let stream = self.here.stream.as_mut().expect("a state");
        stream.set_applied(applied);
    }

    fn set_count(&mut self, bank: usize, encoder: usize, count: u32) {
        let stream = self.here.stream.as_mut().expect("a state");
        stream.set_count(bank, encoder, count);
    }
}

/// Plays the script, and tells how many calls that was.
pub fn run(stream: &mut impl Streams, log: &[u8], script: &[u8], out: &mut [u8]) -> u64 {
    let (mut rest, mut number) = (out, 0);
    for ask in asks(script) {
        let (word, behind) = std::mem::take(&mut rest).split_at_mut(WORD);
        let (room, behind) = behind.split_at_mut(ask.room());
        let bytes = |from: u64, len: u64| &log[from as usize..][..len as usize];
        let both = |(refusal, readings): (Refusal, u64)| u64::from(refusal) | readings << 8;
        let answered = match ask {
            Ask::Start {
                edition,
                more,
                fewer,
            } => stream.start(edition, fewer > more).into(),
            Ask::Chunk { from, len, .. } => both(stream.chunk(bytes(from, len), room)),
            Ask::End => stream.end().into(),
            Ask::Applied => stream.applied(),
            Ask::Move => {
                stream.moved();
                0
            }
            Ask::ShortChunk { from, len, .. } => both(stream.short_chunk(bytes(from, len), room)),
            Ask::ShortEnd => stream.short_end().into(),
            Ask::ShortApplied => stream.short_applied(),
            Ask::Again { edition } => stream.again(edition).into(),
            Ask::Other => {
                stream.other();
                0
            }
            Ask::Damaged { .. } => 0,
            Ask::Noise { .. } => stream.noise().into(),
            Ask::Repeated { from, len, times } => {
                (0..times).fold(0, |_, _| both(stream.chunk(bytes(from, len), &mut [])))
            }
            Ask::SetApplied { applied } => {
                stream.set_applied(applied);
                0
            }
            Ask::SetCount {
                bank,
                encoder,
                count,
            } => {
                stream.set_count(bank as usize, encoder as usize, count as u32);
                0
            }
        };
        word.copy_from_slice(&answered.to_le_bytes());
        rest = &mut behind[GUARD..];
        number += 1;
    }
    number
}
