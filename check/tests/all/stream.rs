//! Streams: however the records are cut, all is as in the whole log.

use crate::common::run;
use rivandoze_check::cases::{Size, FAR_FAMILIES, STREAM_FAMILIES};
use rivandoze_check::exchange::{Request, PLACES};
use rivandoze_check::generate::{generate, Rng, Settings};
use rivandoze_check::reference::encoder::{SOERR, SOVR, UOVR};
use rivandoze_check::reference::log::{each_reading, Log, READING_LEN};
use rivandoze_check::reference::record::Fields;
use rivandoze_check::reference::Stream;
use rivandoze_check::script::{asks, Ask};
use std::collections::BTreeSet;

/// The readings, the end state, the applied number and the first refusal of the whole log, for every cut.
#[test]
fn however_it_is_cut() {
    let mut rng = Rng::new(12);
    let mut refused = 0;
    for seed in 0..500 {
        let settings = Settings {
            most_records: 300,
            ..Settings::default()
        };
        let log = generate(seed, &settings);
        let whole = run(&log);
        let opened = Log::open(&log).expect("a made log");
        let mut stream = Stream::start(opened.edition.number().into()).expect("an edition");
        let (mut rest, mut readings, mut told) = (opened.record_bytes, Vec::new(), 0);
        let most = rng.pick(&[1, 20, 100, 5_000]);
        while !rest.is_empty() {
            let len = rng.below(most + 1).min(rest.len() as u64) as usize;
            let mut out = vec![0xEE; len + READING_LEN];
            let (refusal, number) = stream.chunk(&rest[..len], &mut out);
            let (written, untouched) = out.split_at(READING_LEN * number as usize);
            readings.extend(each_reading(written));
            assert!(untouched.iter().all(|&byte| byte == 0xEE));
            assert!(
                [told, whole.refusal].contains(&refusal),
                "{refusal} after {told}"
            );
            told = refusal;
            rest = &rest[len..];
        }
        assert_eq!(
            (stream.end(), stream.applied()),
            (whole.refusal, whole.applied)
        );
        assert_eq!(readings, whole.readings);
        assert_eq!(stream.device().banks, [whole.bank, whole.bank_b]);
        refused += usize::from(whole.refusal != 0);
    }
    assert!(refused > 50);
}

fn read() -> Vec<u8> {
    Fields::read(0, 0, 0).to_bytes().to_vec()
}

/// A chunk without room is not taken, and neither is what it would have finished; 6 is forgotten.
#[test]
fn without_room() {
    let mut stream = Stream::start(2).expect("an edition");
    let two = [read(), read()].concat();
    assert_eq!(stream.chunk(&two[..20], &mut [0; 7]), (6, 0));
    assert_eq!((stream.end(), stream.applied()), (0, 0));
    assert_eq!(stream.chunk(&two[..20], &mut [0; 8]), (0, 1));
    assert_eq!((stream.end(), stream.applied()), (5, 1));
    let before = stream.clone();
    // The record that was begun before counts.
    assert_eq!(stream.chunk(&two[20..], &mut [0; 7]), (6, 0));
    assert_eq!(stream, before);
    assert_eq!(stream.chunk(&two[20..], &mut [0; 8]), (0, 1));
    assert_eq!((stream.end(), stream.applied()), (0, 2));
    // One that is not finished does not.
    assert_eq!(stream.chunk(&two[..15], &mut []), (0, 0));
    assert_eq!((stream.end(), stream.applied()), (5, 2));
    assert_eq!(stream.chunk(&[], &mut []), (0, 0));
}

/// The refusal again, before any other check; what was applied stays.
#[test]
fn after_a_refused_record() {
    let mut stream = Stream::start(1).expect("an edition");
    let bad = [read(), vec![0; 16], read(), vec![2; 3]].concat();
    let mut out = [0xEE; 24];
    assert_eq!(stream.chunk(&bad, &mut out), (7, 1));
    assert_eq!(out[8..], [0xEE; 16]);
    assert_eq!(stream.chunk(&read(), &mut []), (7, 0));
    assert_eq!(stream.chunk(&[1], &mut out), (7, 0));
    assert_eq!((stream.end(), stream.applied()), (7, 1));
    assert_eq!(out[8..], [0xEE; 16]);
    assert_eq!(Stream::start(0), Err(4));
    assert_eq!(Stream::start(5), Err(4));
    assert_eq!(Stream::start(65_537), Err(4));
}

/// Each call of a script, what it answers, and what stands in its room.
fn answered(request: &Request) -> Vec<(Ask, u64, Vec<u8>)> {
    let mut answer = request.right_answer();
    let mut rest: &[u8] = answer.area.out();
    let mut all = Vec::new();
    for ask in asks(&request.beside) {
        let word = u64::from_le_bytes(rest[..8].try_into().expect("eight bytes"));
        let room = match ask {
            Ask::Chunk { room, .. } | Ask::ShortChunk { room, .. } => room as usize,
            _ => 0,
        };
        all.push((ask, word, rest[8..8 + room].to_vec()));
        rest = &rest[16 + room..];
    }
    assert!(rest.is_empty());
    all
}

#[test]
fn every_answer_to_a_script_comes_up() {
    let (mut places, mut words, mut most) = (BTreeSet::new(), BTreeSet::new(), 0);
    for family in STREAM_FAMILIES {
        for request in family.requests(1, Size::Short) {
            places.insert(request.place as u64);
            for (ask, word, _) in answered(&request) {
                match ask {
                    Ask::Start { .. } | Ask::Again { .. } => {
                        words.insert(("start", word & 0xFF));
                    }
                    Ask::Chunk { .. } => {
                        words.insert(("chunk", word & 0xFF));
                    }
                    Ask::End => {
                        words.insert(("end", word & 0xFF));
                    }
                    Ask::Applied => most = most.max(word),
                    _ => {}
                }
            }
        }
        let some = |seed| -> Vec<_> { family.requests(seed, Size::Short).take(60).collect() };
        assert_eq!(some(3), some(3), "{}", family.name);
        assert_ne!(some(3), some(4), "{}", family.name);
    }
    let of_records = [0, 7, 8, 9, 10, 11, 16, 18, 19];
    let start = [0, 4, 6].map(|word| ("start", word));
    let chunk = of_records
        .into_iter()
        .chain([6])
        .map(|word| ("chunk", word));
    let end = of_records.into_iter().chain([5]).map(|word| ("end", word));
    assert_eq!(words, start.into_iter().chain(chunk).chain(end).collect());
    assert_eq!(places.len(), PLACES.len());
    assert!(most > 1 << 16, "{most}");
}

/// What only edited states come to: both flags of the signed border, a count of 2^31, and applied numbers that begin
/// anew.
#[test]
fn edited_states_come_to_what_no_log_does() {
    let (mut readings, mut applied) = (BTreeSet::new(), BTreeSet::new());
    for request in FAR_FAMILIES[0].requests(1, Size::Short) {
        for (ask, word, given) in answered(&request) {
            match ask {
                Ask::Chunk { .. } => readings.extend(each_reading(&given)),
                Ask::Applied => {
                    applied.insert(word);
                }
                _ => {}
            }
        }
    }
    for stat in [SOVR, SOVR | SOERR, SOVR | UOVR] {
        assert!(readings.contains(&stat.into()), "{stat}");
    }
    for count in [1 << 31, (1 << 31) - 1, (1 << 31) + 1] {
        assert!(readings.contains(&count), "{count}");
    }
    for number in [u64::MAX, 0, 1, 1 << 63, 1 << 56] {
        assert!(applied.contains(&number), "{number}");
    }
}
