//! Scripts for a stream: records in chunks.

use super::by_chance::short_log;
use super::in_order::log_of;
use super::{every_encoder, lent, some_bank, some_encoder, Requests, Size};
use crate::exchange::{Call, Request};
use crate::generate::{generate, generate_with, Rng, Settings, FAULTS};
use crate::reference::edition::{Edition, EDITIONS};
use crate::reference::log::{Log, READING_LEN, RECORDS_MAX};
use crate::reference::record::{Fields, ENCODER, READ, RECORD_LEN, SELECT};
use crate::script::{out_len, Ask};

fn streamed(records: Vec<u8>, asks: &[Ask], rng: &mut Rng) -> Request {
    Request {
        call: Call::Stream,
        beside: asks.iter().flat_map(|ask| ask.to_bytes()).collect(),
        ..lent(records, out_len(asks), rng)
    }
}

fn start(edition: u64) -> Ask {
    Ask::Start {
        edition,
        more: 0,
        fewer: 0,
    }
}

fn parts(log: &[u8]) -> (Edition, Vec<u8>) {
    let log = Log::open(log).expect("a made log");
    (log.edition, log.record_bytes.to_vec())
}

/// Chunk behind chunk of the same records, each with the room that its finished reads take.
struct Cutting<'a> {
    records: &'a [u8],
    asks: Vec<Ask>,
    /// Where the next chunk begins.
    at: usize,
}

impl<'a> Cutting<'a> {
    fn new(edition: u64, records: &'a [u8]) -> Self {
        Cutting {
            records,
            asks: vec![start(edition)],
            at: 0,
        }
    }

    fn left(&self) -> bool {
        self.at < self.records.len()
    }

    /// What the readings take that this chunk finishes.
    fn needed(&self, len: usize) -> usize {
        let (first, last) = (self.at / RECORD_LEN, (self.at + len) / RECORD_LEN);
        let finished = first..last;
        let reads = finished.filter(|record| self.records[RECORD_LEN * record] == READ);
        READING_LEN * reads.count()
    }

    fn ask(&mut self, len: usize, room: usize) {
        self.asks.push(Ask::Chunk {
            from: self.at as u64,
            len: len as u64,
            room: room as u64,
        });
    }

    fn chunk(&mut self, len: usize, spare: usize) {
        let len = len.min(self.records.len() - self.at);
        let needed = self.needed(len);
        self.ask(len, needed + spare);
        self.at += len;
    }

    /// With too little room, if it takes any; then it is to come again.
    fn short(&mut self, len: usize, rng: &mut Rng) {
        let len = len.min(self.records.len() - self.at);
        let needed = self.needed(len);
        if needed > 0 {
            let room = rng.pick(&[needed - 1, needed - READING_LEN, 0]);
            self.ask(len, room);
        }
    }

    /// The next chunk, of a style, now and then with too little room first; behind it at times another call.
    fn step(&mut self, style: u64, rng: &mut Rng) {
        let len = match style {
            0 => 1 + rng.below(3),
            1 => rng.below(41),
            2 => 16 * rng.below(5),
            3 => rng.below(400),
            _ => rng.pick(&[15, 16, 17, 31, 33, 48]),
        } as usize;
        if rng.chance(12) {
            self.short(len, rng);
            if rng.chance(30) {
                self.short(len, rng);
            }
        }
        let spare = rng.pick(&[0, 0, 0, 1, 7, 8, 24]);
        self.chunk(len, spare);
        self.asks.extend(match rng.below(40) {
            0 | 1 => Some(Ask::End),
            2 | 3 => Some(Ask::Applied),
            4 | 5 => Some(Ask::Move),
            6 => Some(Ask::ShortEnd),
            7 => Some(Ask::ShortApplied),
            8 => Some(Ask::ShortChunk {
                from: 0,
                len: self.records.len().min(40) as u64,
                room: 24,
            }),
            9 => Some(some_damage(rng)),
            10 => Some(some_noise(rng)),
            11 => Some(Ask::Again {
                edition: rng.pick(&[0, 5, 65_537, 1 << 32 | 1]),
            }),
            _ => None,
        });
    }

    fn end(mut self) -> Vec<Ask> {
        self.asks.extend([Ask::End, Ask::Applied]);
        self.asks
    }
}

fn some_damage(rng: &mut Rng) -> Ask {
    Ask::Damaged {
        all: u64::from(rng.chance(10)),
        at: rng.draw(),
        by: rng.pick(&[1, 2, 3, 4, 8, 16, 32, 64, 128, 255]),
    }
}

fn some_noise(rng: &mut Rng) -> Ask {
    Ask::Noise {
        seed: rng.draw(),
        more: rng.pick(&[0, 0, 0, 1, 16, 100]),
        fewer: 0,
    }
}

const STYLES: u64 = 5;

/// Cuts of one style, with other calls now and then, and more behind the end.
fn cut_by_chance(edition: u64, records: &[u8], rng: &mut Rng) -> Vec<Ask> {
    let style = rng.below(STYLES);
    let mut cutting = Cutting::new(edition, records);
    if rng.chance(20) {
        cutting.asks[0] = Ask::Start {
            edition,
            more: rng.pick(&[1, 7, 100]),
            fewer: 0,
        };
    }
    while cutting.left() {
        cutting.step(style, rng);
    }
    let mut asks = cutting.end();
    if rng.chance(30) {
        if rng.chance(50) {
            let edition = rng.pick(&EDITIONS).number().into();
            asks.push(Ask::Again { edition });
        }
        // The same from the start, or what is left of it, behind the end.
        let len = rng.below(records.len() as u64 + 1);
        let room = len / 2 + 8;
        asks.push(Ask::Chunk { from: 0, len, room });
        asks.extend([Ask::End, Ask::Applied]);
    }
    asks
}

/// Two streams by turns, of any two editions.
pub fn side_by_side(mut rng: Rng, size: Size) -> Requests {
    Box::new((0..size.of(400, 4_000)).map(move |_| {
        let logs = [short_log(&mut rng), short_log(&mut rng)].map(|log| parts(&log));
        let both = logs.clone().map(|(_, records)| records);
        let second_from = both[0].len() as u64;
        let mut two = [0, 1].map(|at| {
            let (edition, records) = &logs[at];
            Cutting::new(edition.number().into(), records)
        });
        let (mut asks, mut here) = (Vec::new(), 0);
        let mut take = |at: usize, cutting: &mut Cutting<'_>| {
            if at != here {
                asks.push(Ask::Other);
                here = at;
            }
            let from = second_from * at as u64;
            asks.extend(cutting.asks.drain(..).map(|ask| behind(ask, from)));
        };
        let style = rng.below(STYLES);
        // Either may begin late, so that its state has no bytes yet while the other is asked.
        while two.iter().any(Cutting::left) {
            let at = rng.below(2) as usize;
            if two[at].left() {
                two[at].step(style, &mut rng);
            }
            take(at, &mut two[at]);
        }
        for (at, cutting) in two.iter_mut().enumerate() {
            cutting.asks.extend([Ask::End, Ask::Applied]);
            take(at, cutting);
        }
        streamed(both.concat(), &asks, &mut rng)
    }))
}

/// The same ask of records that stand so far behind.
fn behind(ask: Ask, more: u64) -> Ask {
    match ask {
        Ask::Chunk { from, len, room } => Ask::Chunk {
            from: from + more,
            len,
            room,
        },
        Ask::ShortChunk { from, len, room } => Ask::ShortChunk {
            from: from + more,
            len,
            room,
        },
        ask => ask,
    }
}

/// States of which each byte is changed in turn, and other bytes of every length in their place.
pub fn damaged(mut rng: Rng, size: Size) -> Requests {
    let times = size.of(8, 160);
    Box::new((0..times).map(move |index| {
        let (edition, records) = parts(&short_log(&mut rng));
        let mut cutting = Cutting::new(edition.number().into(), &records);
        let until = rng.below(records.len() as u64 + 1) as usize;
        while cutting.at < until {
            cutting.step(3, &mut rng);
        }
        let first = index * 512;
        cutting
            .asks
            .extend((first..first + 512).map(|at| Ask::Damaged {
                all: 0,
                at,
                by: 1 << rng.below(8),
            }));
        cutting.asks.extend((0..32).map(|_| some_damage(&mut rng)));
        cutting.asks.extend((0..256).map(|byte| Ask::Damaged {
            all: 1,
            at: 0,
            by: byte,
        }));
        cutting.asks.extend((0..64).map(|_| some_noise(&mut rng)));
        cutting.asks.extend((0..64).map(|number| Ask::Noise {
            seed: rng.draw(),
            more: 0,
            fewer: 1 + index * 64 + number,
        }));
        while cutting.left() {
            cutting.step(3, &mut rng);
        }
        let asks = cutting.end();
        streamed(records, &asks, &mut rng)
    }))
}

/// Some bytes behind the last record, or none.
fn with_rest(mut records: Vec<u8>, rng: &mut Rng) -> Vec<u8> {
    if rng.chance(30) {
        let first = rng.pick(&[0, 2, 2, 4]);
        records.push(first);
        records.extend(vec![0; rng.below(15) as usize]);
    }
    records
}

pub fn by_chance(mut rng: Rng, size: Size) -> Requests {
    Box::new((0..size.of(2_000, 20_000)).map(move |_| {
        let (edition, records) = parts(&short_log(&mut rng));
        let records = with_rest(records, &mut rng);
        let asks = cut_by_chance(edition.number().into(), &records, &mut rng);
        streamed(records, &asks, &mut rng)
    }))
}

/// Longer than any log.
pub fn long(mut rng: Rng, size: Size) -> Requests {
    Box::new((0..size.of(6, 100)).map(move |index| {
        let edition = rng.pick(&EDITIONS);
        let settings = Settings {
            edition: Some(edition),
            least_records: RECORDS_MAX,
            refused_percent: 0,
            ..Settings::default()
        };
        if index % 3 == 0 {
            return many_times(edition, &mut rng);
        }
        // What comes behind the first log may be refused there.
        let logs = (0..3).map(|_| parts(&generate(rng.draw(), &settings)).1);
        let records: Vec<u8> = logs.collect::<Vec<_>>().concat();
        let mut cutting = Cutting::new(edition.number().into(), &records);
        while cutting.left() {
            let len = rng.below(5_000) as usize;
            cutting.chunk(len, 0);
        }
        let asks = cutting.end();
        streamed(records, &asks, &mut rng)
    }))
}

/// More records than 16 bits count, all of which are applied.
fn many_times(edition: Edition, rng: &mut Rng) -> Request {
    let (bank, encoder) = (some_bank(edition, rng), some_encoder(edition, rng));
    let mut records = vec![
        Fields::write(SELECT, 0, 0, every_encoder(edition)),
        Fields::write(ENCODER, encoder, 0, 1),
        Fields::read(ENCODER, encoder, 2),
    ];
    records.resize_with(RECORDS_MAX, || Fields::pins(encoder, rng.below(4)));
    let records = super::in_bank(bank, &records);
    let (_, records) = parts(&log_of(edition, &records));
    let again = Ask::Chunk {
        from: 0,
        len: records.len() as u64,
        room: READING_LEN as u64,
    };
    let mut asks = vec![start(edition.number().into())];
    asks.extend([again; 33]);
    asks.extend([Ask::End, Ask::Applied]);
    streamed(records, &asks, rng)
}

/// Every two cuts of a small log, with some bytes behind it; and each byte for itself.
pub fn every_cut(mut rng: Rng, size: Size) -> Requests {
    let mut logs = Vec::new();
    for edition in EDITIONS {
        let records = [
            Fields::write(SELECT, 0, 0, every_encoder(edition)),
            Fields::read(SELECT, 0, 0),
            Fields::write(ENCODER, 0, 0, 1),
            Fields::read(ENCODER, 0, 0),
            Fields::pins(0, 4),
            Fields::read(SELECT, 0, 0),
        ];
        let good = parts(&log_of(edition, &records[..4])).1;
        let refused = parts(&log_of(edition, &records)).1;
        logs.push((edition, [good, vec![2, 0, 0]].concat()));
        logs.push((edition, refused));
    }
    let step = size.of(3, 1) as usize;
    Box::new(logs.into_iter().flat_map(move |(edition, records)| {
        let len = records.len();
        let cuts = (0..=len).flat_map(|first| (first..=len).map(move |second| (first, second)));
        let mut requests: Vec<Request> = cuts
            .step_by(step)
            .map(|(first, second)| {
                let mut cutting = Cutting::new(edition.number().into(), &records);
                for len in [first, second - first, len - second] {
                    cutting.chunk(len, 0);
                }
                streamed(records.clone(), &cutting.end(), &mut rng)
            })
            .collect();
        let mut each = Cutting::new(edition.number().into(), &records);
        for _ in 0..len {
            each.chunk(1, 0);
            each.asks.extend([Ask::End, Ask::Applied, Ask::Move]);
        }
        let asks = each.end();
        requests.push(streamed(records.clone(), &asks, &mut rng));
        requests
    }))
}

/// Every number for an edition, with states that are long enough and too short.
pub fn starts(mut rng: Rng, size: Size) -> Requests {
    let small = 0..size.of(300, 65_600);
    let large = (8..64).flat_map(|bit| (0..=5).map(move |low| (1 << bit) + low));
    let numbers = small.chain(large).chain([u64::MAX]);
    Box::new(numbers.flat_map(move |edition| {
        let read = Fields::read(SELECT, 0, 0).to_bytes().to_vec();
        let chunk = Ask::Chunk {
            from: 0,
            len: RECORD_LEN as u64,
            room: READING_LEN as u64,
        };
        let states = [(0, 0), (1, 0), (0, 1), (0, 9)];
        let requests: Vec<Request> = states
            .into_iter()
            .map(|(more, fewer)| {
                let first = Ask::Start {
                    edition,
                    more,
                    fewer,
                };
                let asks = [first, chunk, Ask::End, Ask::Applied];
                streamed(read.clone(), &asks, &mut rng)
            })
            .collect();
        requests
    }))
}

/// A chunk that finishes a record begun before, and leaves one unfinished, in every room; then again with enough.
pub fn rooms(mut rng: Rng, _: Size) -> Requests {
    let records: Vec<u8> = [
        Fields::read(SELECT, 0, 0),
        Fields::ticks(2),
        Fields::read(ENCODER, 0, 0),
        Fields::read(ENCODER, 0, 2),
        Fields::read(SELECT, 0, 0),
    ]
    .iter()
    .flat_map(|fields| fields.to_bytes())
    .collect();
    let all = (0..=40).flat_map(|room| (0..16).map(move |first| (room, first)));
    Box::new(all.map(move |(room, first)| {
        let edition = u64::from(rng.pick(&EDITIONS).number());
        let mut cutting = Cutting::new(edition, &records);
        cutting.chunk(first, 0);
        cutting.ask(66 - first, room);
        cutting.asks.extend([Ask::Applied, Ask::End]);
        cutting.ask(66 - first, 0);
        cutting.ask(66 - first, 40);
        cutting.asks.push(Ask::Applied);
        cutting.at = 66;
        cutting.chunk(14, 3);
        streamed(records.clone(), &cutting.end(), &mut rng)
    }))
}

/// Each record that is refused; behind it chunks of any room, and ends.
pub fn faults(mut rng: Rng, size: Size) -> Requests {
    let times = size.of(6, 60);
    let all = (0..times).flat_map(|_| FAULTS.iter());
    Box::new(all.map(move |fault| {
        let settings = Settings {
            most_records: rng.pick(&[5, 30]),
            ..Settings::default()
        };
        let log = generate_with(rng.draw(), &settings, *fault);
        let (edition, mut records) = parts(&log);
        records.extend(Fields::read(SELECT, 0, 0).to_bytes());
        let mut asks = cut_by_chance(edition.number().into(), &records, &mut rng);
        let read = (records.len() - RECORD_LEN) as u64;
        for room in [0, 8, 100] {
            let len = rng.pick(&[0, 1, 16]);
            asks.push(Ask::Chunk {
                from: read,
                len,
                room,
            });
            asks.extend([Ask::End, Ask::Applied]);
        }
        streamed(records, &asks, &mut rng)
    }))
}

/// By edited states: counts about 2^31 and 2^32, walked over the border and back with flags that are cleared now and
/// then, in both modes; and applied numbers about 2^64.
pub fn far(mut rng: Rng, size: Size) -> Requests {
    Box::new((0..size.of(300, 6_000)).map(move |_| {
        let edition = rng.pick(&EDITIONS);
        let (bank, encoder) = (
            some_bank(edition, &mut rng),
            some_encoder(edition, &mut rng),
        );
        let mode = match edition.rules().quadrature_only {
            true => 0,
            false => rng.pick(&[0, 0, 0, 4]),
        };
        let mut records = vec![
            Fields::write(SELECT, 0, 0, every_encoder(edition)),
            Fields::write(ENCODER, encoder, 0, 1 | mode),
            Fields::pins(encoder, 0),
        ];
        let first = records.len();
        let mut place = 0;
        for _ in 0..rng.between(4, 60) {
            place = match rng.below(8) {
                0..=3 => place + 1,
                4..=6 => place + 3,
                _ => place + 2,
            } % 4;
            records.push(Fields::pins(encoder, [0, 1, 3, 2][place]));
            if rng.chance(5) {
                records.push(Fields::write(ENCODER, encoder, 0, 1 | mode | 16));
                records.push(Fields::write(ENCODER, encoder, 0, 1 | mode));
            }
            records.extend([1, 2].map(|register| Fields::read(ENCODER, encoder, register)));
        }
        let records: Vec<u8> = super::in_bank(bank, &records)
            .iter()
            .flat_map(|fields| fields.to_bytes())
            .collect();
        let mut cutting = Cutting::new(edition.number().into(), &records);
        cutting.chunk(RECORD_LEN * first, 0);
        let border = rng.pick(&[1 << 31, 1 << 31, 0]);
        cutting.asks.push(Ask::SetCount {
            bank: bank.into(),
            encoder: encoder.into(),
            count: (border + rng.between(0, 6)).wrapping_sub(3) & 0xFFFF_FFFF,
        });
        cutting.asks.push(Ask::SetApplied {
            applied: rng
                .pick(&[1u64 << 32, 1 << 56, 1 << 63, 0])
                .wrapping_sub(rng.below(30)),
        });
        while cutting.left() {
            cutting.step(rng.below(STYLES), &mut rng);
            cutting.asks.push(Ask::Applied);
        }
        let asks = cutting.end();
        streamed(records, &asks, &mut rng)
    }))
}

/// By a run of more than 2^31 records: a count that comes to 2^31, goes back over the border, and on again.
pub fn counted_far(mut rng: Rng, _: Size) -> Requests {
    let edition = rng.pick(&EDITIONS);
    let (bank, encoder) = (
        some_bank(edition, &mut rng),
        some_encoder(edition, &mut rng),
    );
    let forward =
        |steps: usize| (1..=steps).map(|step| Fields::pins(encoder, [0, 1, 3, 2][step % 4]));
    let back = |steps: usize| (1..=steps).map(|step| Fields::pins(encoder, [0, 2, 3, 1][step % 4]));
    let told = |steps: Vec<Fields>| {
        let reads = [1, 2].map(|register| Fields::read(ENCODER, encoder, register));
        steps
            .into_iter()
            .flat_map(move |step| [step, reads[0], reads[1]])
            .collect::<Vec<_>>()
    };
    let parts: [Vec<Fields>; 4] = [
        vec![
            Fields::write(SELECT, 0, 0, every_encoder(edition)),
            Fields::write(ENCODER, encoder, 0, 1),
            Fields::pins(encoder, 0),
        ],
        forward(2_048).collect(),
        forward(2_040).collect(),
        told(forward(16).chain(back(16)).chain(forward(12)).collect()),
    ];
    let parts = parts.map(|part| -> Vec<u8> {
        let moved = super::in_bank(bank, &part);
        moved.iter().flat_map(|fields| fields.to_bytes()).collect()
    });
    let mut from = 0;
    let mut asks = vec![start(edition.number().into())];
    for (index, part) in parts.iter().enumerate() {
        let len = part.len() as u64;
        asks.push(match index {
            1 => Ask::Repeated {
                from,
                len,
                times: (1 << 31) / 2_048 - 1,
            },
            _ => Ask::Chunk {
                from,
                len,
                room: len,
            },
        });
        asks.push(Ask::Applied);
        from += len;
    }
    let request = streamed(parts.concat(), &asks, &mut rng);
    Box::new(std::iter::once(request))
}
