//! The families of logs that the library is asked for, and the way it is asked.

use rivandoze_check::cases::{Family, Size, FAMILIES};
use rivandoze_check::exchange::{Answer, Call, Request, HEADER_LEN, PLACES};
use rivandoze_check::packed;
use rivandoze_check::reference::log::{records, Log, RECORDS_MAX};
use rivandoze_check::reference::record::{Fields, TICKS, TICKS_MAX};
use rivandoze_check::reference::{Device, Edition, EDITIONS};
use std::collections::{BTreeMap, BTreeSet};

fn short() -> impl Iterator<Item = Request> {
    FAMILIES
        .iter()
        .flat_map(|family| family.requests(1, Size::Short))
}

fn word(request: &Request) -> u64 {
    request.right_answer().word
}

#[test]
fn a_seed_gives_the_same_requests_again() {
    for family in FAMILIES {
        let some = |seed| -> Vec<Request> { family.requests(seed, Size::Short).take(50).collect() };
        assert!(!some(3).is_empty());
        assert_eq!(some(3), some(3), "{}", family.name);
        assert_ne!(some(3), some(4), "{}", family.name);
    }
}

#[test]
fn every_refusal_and_every_place_comes_up() {
    let mut met = BTreeSet::new();
    for request in short() {
        let refusal = word(&request) & 0xFF;
        met.insert((request.call as u64, refusal, request.place as u64));
    }
    let replayed = (0..=11).chain([16, 18]);
    let judged = (0..=5).chain(7..=11).chain([16, 17, 18]);
    let all = replayed.map(|refusal| (Call::Replay, refusal));
    for (call, refusal) in all.chain(judged.map(|refusal| (Call::Judge, refusal))) {
        for place in PLACES {
            assert!(
                met.contains(&(call as u64, refusal, place as u64)),
                "{call:?} {refusal} {place:?}"
            );
        }
    }
}

/// As many of each edition, and each is refused and not refused.
#[test]
fn logs_of_every_edition_are_made() {
    for edition in EDITIONS {
        let made = || {
            let made = FAMILIES[0].requests(5, Size::Short);
            made.filter(move |request| {
                Log::open(&request.log).map(|log| log.edition) == Ok(edition)
            })
        };
        let all = made().count();
        assert!(all > 3_600 / EDITIONS.len(), "{edition:?}: {all}");
        let refused = made().filter(|request| word(request) & 0xFF >= 7).count();
        assert!(
            (all / 6..all / 3).contains(&refused),
            "{edition:?}: {refused} of {all}"
        );
    }
}

#[test]
fn full_logs_are_among_the_made_ones() {
    let made = FAMILIES[0].requests(5, Size::Short);
    let full = made.filter(|request| word(request) == (RECORDS_MAX as u64) << 8);
    assert!(full.count() > 60);
}

/// At the end of many a log every register is read: SELECT, 3 of each encoder, 6 of each PWM, 3 of I2C or 4,
/// of each bank.
#[test]
fn end_states_are_read_whole() {
    let (mut whole, mut whole_and_full) = (0, 0);
    for request in FAMILIES[0].requests(5, Size::Short) {
        let log = Log::open(&request.log).expect("a made log");
        let all: Vec<_> = log.records().collect();
        let registers = match log.edition {
            Edition::One => 1 + 3 * 10 + 6 * 20 + 3,
            Edition::Two | Edition::Three => 2 * (1 + 3 * 10 + 6 * 20 + 4),
            Edition::Four => 2 * (1 + 3 + 6 * 3 + 4),
        };
        let end = &all[all.len().saturating_sub(registers)..];
        let read: BTreeSet<_> = end.iter().filter(|record| record[0] == 2).collect();
        if read.len() == registers {
            whole += 1;
            whole_and_full += usize::from(all.len() == RECORDS_MAX);
        }
    }
    assert!(
        whole > 1_400 && whole_and_full > 20,
        "{whole}, {whole_and_full}"
    );
}

fn family(name: &str) -> &'static Family {
    let found = FAMILIES.iter().find(|family| family.name == name);
    found.expect(name)
}

/// Behind ten records for each bank, which are applied, stands one with a bit turned over: each bit of 26
/// records for one bank of edition 1, and of 28 for two of each other.
#[test]
fn every_bit_of_a_record_is_turned() {
    let bits = family("every bit of a record");
    let (mut logs, mut refusals) = (0, BTreeSet::new());
    for request in bits.requests(1, Size::Full) {
        let word = packed::replay(&request.log, &mut [0; RECORDS_MAX * 8]);
        assert!(word >> 8 >= 10, "{word:#x}");
        logs += 1;
        refusals.insert(word & 0xFF);
    }
    assert_eq!(logs, (26 + 2 * 28 * (EDITIONS.len() - 1)) * 128);
    assert_eq!(refusals, BTreeSet::from([0, 7, 8, 9, 10, 18]));
    let short = bits.requests(1, Size::Short).count();
    assert!((3_600..5_200).contains(&short), "{short}");
}

/// With each of these records every byte that might be its bank, and no other fault.
#[test]
fn every_byte_for_the_bank_is_tried() {
    let bytes = family("every byte for the bank");
    let mut answers = BTreeSet::new();
    for request in bytes.requests(1, Size::Full) {
        let log = Log::open(&request.log).expect("a made log");
        let at = 10 * if log.edition.rules().bank_b { 2 } else { 1 };
        let record = log.records().nth(at).expect("the record behind those");
        let word = packed::replay(&request.log, &mut [0; RECORDS_MAX * 8]);
        let refused_there = word == (at as u64) << 8 | 7;
        assert!(refused_there || word & 0xFF == 0);
        answers.insert((log.edition, record[0], record[4], refused_there));
    }
    // Four kinds, or five; of these ticks have no bank 1. Nothing is answered in two ways.
    let later = EDITIONS.len() - 1;
    assert_eq!(answers.len(), (4 + 5 * later) * 256);
    let applied = answers.iter().filter(|(.., refused)| !refused).count();
    assert_eq!(applied, 4 + (4 * 2 + 1) * later);
}

/// Those that go through everything of a kind have room for all readings, so that refusal 6 hides none of it.
#[test]
fn what_goes_through_everything_has_room() {
    let of_room = ["outputs of every length", "every truncation"];
    let in_order = FAMILIES.iter().filter(|family| !family.by_chance);
    for family in in_order.filter(|family| !of_room.contains(&family.name)) {
        let mut requests = family.requests(2, Size::Short);
        assert!(
            requests.all(|request| word(&request) & 0xFF != 6),
            "{}",
            family.name
        );
    }
}

/// What there is to write, to read, to move and to answer, and nothing else, is applied: by edition and
/// whether its block is routed, how many of each kind, in all banks.
#[test]
fn every_register_is_tried() {
    let mut applied = BTreeMap::new();
    for request in family("every register").requests(1, Size::Full) {
        let log = Log::open(&request.log).expect("a made log");
        let all: Vec<Fields> = log.records().map(Fields::from_bytes).collect();
        let at = all.len() - 3;
        if word(&request) >> 8 > at as u64 {
            let routed = at > 0;
            let kind = all[at].kind;
            *applied.entry((log.edition, routed, kind)).or_insert(0) += 1;
        }
    }
    for edition in EDITIONS {
        let banks = if edition == Edition::One { 1 } else { 2 };
        let failure = usize::from(edition != Edition::One);
        let (encoders, pwms) = if edition == Edition::Four {
            (1, 3)
        } else {
            (10, 20)
        };
        let reads = encoders * 3 + pwms * 6 + 3 + failure;
        let mut of_kind = |routed, kind| applied.remove(&(edition, routed, kind)).unwrap_or(0);
        // SELECT and ticks have no block that is routed, and reads need none.
        assert_eq!(of_kind(true, 1), banks * (encoders + pwms * 4 + 3));
        assert_eq!(of_kind(false, 1), banks * 2, "{edition:?}");
        assert_eq!(of_kind(true, 2), banks * reads, "{edition:?}");
        assert_eq!(of_kind(false, 2), banks * (2 + reads), "{edition:?}");
        assert_eq!(of_kind(true, 3), banks * encoders, "{edition:?}");
        assert_eq!(of_kind(false, 4), banks * 2, "{edition:?}");
        assert_eq!(of_kind(true, 5), banks * failure, "{edition:?}");
    }
    assert_eq!(applied, BTreeMap::new());
}

#[test]
fn outputs_are_enough_to_the_byte_or_one_byte_short() {
    let mut met = BTreeSet::new();
    for request in short().filter(|request| request.call == Call::Replay) {
        if let Ok(all) = records(&request.log) {
            let needed = 8 * all.filter(|record| record[0] == 2).count() as i64;
            met.insert(request.out_len as i64 - needed);
        }
    }
    for spare in -8..=17 {
        assert!(met.contains(&spare), "{spare}");
    }
}

/// As many bits as there are, with every divider, and the longest.
#[test]
fn waits_of_every_length_come_up() {
    let (mut met, mut longest) = (BTreeSet::new(), 0);
    for request in short() {
        let log = match Log::open(&request.log) {
            Ok(log) => log,
            Err(_) => continue,
        };
        let mut device = Device::fresh(log.edition);
        for bytes in log.records() {
            let record = Fields::from_bytes(bytes);
            if device.apply(&record).is_err() {
                break;
            }
            if record.kind == TICKS {
                let bits = u64::BITS - record.value.leading_zeros();
                for (at, bank) in device.banks.iter().enumerate() {
                    let routed = bank.pwms.iter().zip(bank.select.pwms());
                    let running = routed.filter(|&(_, routed)| routed);
                    met.extend(running.map(|(pwm, _)| (at, pwm.cs, bits)));
                }
                longest = longest.max(record.value);
            }
        }
    }
    for (bank, cs) in [0, 1]
        .into_iter()
        .flat_map(|bank| (0..=7).map(move |cs| (bank, cs)))
    {
        for bits in 0..=32 {
            assert!(
                met.contains(&(bank, cs, bits)),
                "bank {bank}, CS {cs}, {bits} bits"
            );
        }
    }
    assert_eq!(longest, TICKS_MAX);
}

#[test]
fn requests_and_answers_come_through() {
    let mut pipe = Vec::new();
    let some = |family: &Family| family.requests(6, Size::Short).take(20);
    let sent: Vec<Request> = FAMILIES.iter().flat_map(some).collect();
    for request in &sent {
        request.write_to(&mut pipe).expect("a vector takes all");
    }
    let mut rest = pipe.as_slice();
    for request in sent {
        let taken = Request::read_from(&mut rest).expect("a whole request");
        assert_eq!(taken.as_ref(), Some(&request));
        let answer = Answer {
            word: 0x1234_5608,
            kept: request.out_len % 2 == 0,
            area: request.area(),
        };
        let mut pipe = Vec::new();
        answer.write_to(&mut pipe).expect("a vector takes all");
        let back = Answer::read_from(&mut pipe.as_slice(), &request);
        assert_eq!(back.expect("a whole answer"), answer);
    }
    assert_eq!(Request::read_from(&mut rest).expect("the end"), None);
    let half = &pipe[..HEADER_LEN - 1];
    assert!(Request::read_from(&mut &*half).is_err());
}
