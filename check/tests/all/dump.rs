//! The dump and its reader.

use crate::common::{in_edition, log, UNTOUCHED};
use rivandoze_check::cases::{longest_dump, Size, DUMP_FAMILIES};
use rivandoze_check::exchange::{Call, PLACES};
use rivandoze_check::packed;
use rivandoze_check::reference::dump::DUMP_MAX;
use rivandoze_check::reference::dump_read::Entry;
use rivandoze_check::reference::log::{records, Log};
use rivandoze_check::reference::record::{Fields, PINS, TICKS};
use rivandoze_check::reference::{dump, dump_read, replay, Edition, EDITIONS};
use std::collections::{BTreeMap, BTreeSet};

/// The whole dump of docs/WAVEFORM.md.
const PAGE: &str = "\
$timescale 1 ns $end
$scope module pins $end
$var wire 1 G bank0_encoder3_A $end
$var wire 1 H bank0_encoder3_B $end
$var wire 1 a bank1_encoder0_A $end
$var wire 1 b bank1_encoder0_B $end
$upscope $end
$enddefinitions $end
$dumpvars
xG
xH
xa
xb
$end
#100
0G
0H
#200
1G
1H
0a
1b
#400
0G
0H
";

const ROUTED: &str = "write select 0xAAAAAAAAAA\nbank 1 write select 0xAAAAAAAAAA\n";

fn page_log() -> Vec<u8> {
    log(&in_edition(
        2,
        &format!(
            "{ROUTED}
            write encoder 3 cnfg 1
            ticks 4
            pins encoder 3 0
            ticks 4
            pins encoder 3 1
            pins encoder 3 3
            bank 1 pins encoder 0 2
            ticks 0
            bank 1 pins encoder 0 2
            ticks 4
            pins encoder 3 3
            ticks 4
            pins encoder 3 0
            ticks 1000"
        ),
    ))
}

fn text_of(log: &[u8]) -> String {
    let text = dump(log).expect("a log that replays");
    String::from_utf8(text).expect("the dump is ASCII")
}

/// What stands behind the header.
fn changes(records: &str) -> String {
    let text = text_of(&log(&in_edition(2, &format!("{ROUTED}{records}"))));
    let end = text.rfind("$end\n").expect("a header") + 5;
    text[end..].replace('\n', " ")
}

fn refusal(records: &str) -> u8 {
    dump(&log(&in_edition(2, records))).expect_err("a log that is refused")
}

#[test]
fn the_whole_dump_of_the_page() {
    assert_eq!(text_of(&page_log()), PAGE);
    let mut out = [UNTOUCHED; 1_000];
    let word = packed::dump(&page_log(), &mut out);
    assert_eq!(word, (PAGE.len() as u64) << 8);
    assert_eq!(&out[..PAGE.len()], PAGE.as_bytes());
    assert!(out[PAGE.len()..].iter().all(|&byte| byte == UNTOUCHED));
}

#[test]
fn the_page_read_back() {
    let entry = |time, bank, encoder, pins| Entry {
        time,
        bank,
        encoder,
        pins,
    };
    let wanted = [
        entry(100, 0, 3, 0),
        entry(200, 0, 3, 3),
        entry(200, 1, 0, 2),
        entry(400, 0, 3, 0),
    ];
    assert_eq!(dump_read(PAGE.as_bytes()), Ok(wanted.to_vec()));
    let mut out = [UNTOUCHED; 70];
    assert_eq!(packed::dump_read(PAGE.as_bytes(), &mut out), 4 << 8);
    let third = [200, 0, 0, 0, 0, 0, 0, 0, 1, 0, 2, 0, 0, 0, 0, 0];
    assert_eq!(out[32..48], third);
    assert_eq!(out[64..], [UNTOUCHED; 6]);
}

#[test]
fn a_log_without_pins_has_no_wire() {
    let wanted = "$timescale 1 ns $end\n$scope module pins $end\n$upscope $end\n\
        $enddefinitions $end\n$dumpvars\n$end\n";
    assert_eq!(text_of(&log("")), wanted);
    assert_eq!(text_of(&log("write select 0xA\nticks 9")), wanted);
    assert_eq!(dump_read(wanted.as_bytes()), Ok(vec![]));
}

#[test]
fn changes_by_the_rules_of_the_page() {
    // A before B; only what changed; the first record writes both, also where both are 0.
    assert_eq!(
        changes("pins encoder 0 0\npins encoder 0 2"),
        "#0 0A 0B 1B "
    );
    assert_eq!(
        changes("pins encoder 0 0\npins encoder 0 3"),
        "#0 0A 0B 1A 1B "
    );
    assert_eq!(changes("pins encoder 9 3\npins encoder 9 3"), "#0 1S 1T ");
    assert_eq!(changes("bank 1 pins encoder 9 1"), "#0 1s 0t ");
    // A time only before a change, and once; ticks of 0 make no new one.
    let text = "ticks 1\nticks 1\npins encoder 0 0\nticks 0\npins encoder 1 0\nticks 5\npins encoder 0 0\nticks 1";
    assert_eq!(changes(text), "#50 0A 0B 0C 0D ");
    // There and back at one time.
    let text =
        "pins encoder 0 0\nticks 1\npins encoder 0 1\npins encoder 0 0\nticks 1\npins encoder 0 0";
    assert_eq!(changes(text), "#0 0A 0B #25 1A 0A ");
    // 64 bits.
    let text = "ticks 4294967295\nticks 4294967295\npins encoder 0 0";
    assert_eq!(changes(text), "#214748364750 0A 0B ");
    // The wire is the pin, whatever CNFG says, and a rerouting does not make it unknown.
    let text = "write encoder 0 cnfg 3\npins encoder 0 0\nwrite select 0\nwrite select 0xA\nticks 1\n\
        pins encoder 0 0\npins encoder 0 1\nwrite encoder 0 cnfg 1\npins encoder 0 1\npins encoder 0 3";
    assert_eq!(changes(text), "#0 0A 0B #25 1A 1B ");
}

#[test]
fn the_refusals_are_the_logs_own_and_then_6() {
    assert_eq!(dump(&[]), Err(2));
    assert_eq!(dump(&[0; 32_769]), Err(1));
    assert_eq!(dump(&[0; 8]), Err(3));
    assert_eq!(dump(&log("trailer edition 9")), Err(4));
    assert_eq!(dump(&log("trailer distance 16 edition 1")), Err(5));
    assert_eq!(refusal("pins encoder 10 0"), 7);
    assert_eq!(refusal("pins encoder 0 4"), 8);
    assert_eq!(refusal("pins encoder 0 0"), 9);
    assert_eq!(refusal("write select 3"), 10);
    // The record's before too little room, and readings need none.
    assert_eq!(packed::dump(&log("write select 3"), &mut []), 10);
    let reads = log(&"read select\n".repeat(100));
    let len = text_of(&reads).len();
    let mut out = vec![UNTOUCHED; len];
    assert_eq!(packed::dump(&reads, &mut out), (len as u64) << 8);
    let mut out = vec![UNTOUCHED; len - 1];
    assert_eq!(packed::dump(&reads, &mut out), 6);
    assert!(out.iter().all(|&byte| byte == UNTOUCHED));
}

#[test]
fn too_little_room_for_entries_is_6_behind_20() {
    let mut out = [UNTOUCHED; 63];
    assert_eq!(packed::dump_read(PAGE.as_bytes(), &mut out), 6);
    assert_eq!(packed::dump_read(b"", &mut out), 20);
    assert_eq!(packed::dump_read(&PAGE.as_bytes()[1..], &mut []), 20);
    assert_eq!(out, [UNTOUCHED; 63]);
}

/// A header with 40 wires has 1,655 bytes, and the longest dump 24,137.
#[test]
fn the_longest_dump() {
    let lens = EDITIONS.map(|edition| text_of(&longest_dump(edition)).len());
    assert_eq!(lens.iter().max(), Some(&24_137));
    assert_eq!(lens[1], 24_137);
    let all = (0..20).map(|at| format!("bank {} pins encoder {} 0\n", at / 10, at % 10));
    let text = text_of(&log(&in_edition(
        2,
        &format!("{ROUTED}{}", all.collect::<String>()),
    )));
    assert_eq!(text.find("#0\n"), Some(1_655));
}

/// From the records alone: an encoder has an entry at a time at which a pins record of it changed something,
/// with the pins of its last one up to the end of that time.
fn entries_of(log: &[u8]) -> Vec<Entry> {
    let all: Vec<Fields> = records(log)
        .expect("a log that replays")
        .map(Fields::from_bytes)
        .collect();
    let time_at = |index: usize| -> u64 {
        let waits = all[..index].iter().filter(|record| record.kind == TICKS);
        waits.map(|record| 25 * record.value).sum()
    };
    let pins_of = |record: &Fields| (record.bank, record.channel, record.value);
    let mut entries = BTreeMap::new();
    for (index, record) in all
        .iter()
        .enumerate()
        .filter(|(_, record)| record.kind == PINS)
    {
        let own = |other: &&Fields| {
            other.kind == PINS && (other.bank, other.channel) == (record.bank, record.channel)
        };
        let key = (time_at(index), record.bank, record.channel);
        let before = all[..index].iter().rev().find(own);
        if before.map(pins_of) != Some(pins_of(record)) {
            entries.insert(key, 0);
        }
        if let Some(pins) = entries.get_mut(&key) {
            *pins = record.value as u8;
        }
    }
    let entry = |((time, bank, encoder), pins)| Entry {
        time,
        bank,
        encoder,
        pins,
    };
    entries.into_iter().map(entry).collect()
}

#[test]
fn the_reader_gives_back_what_the_records_say() {
    let mut logs = 0;
    let mut banks = BTreeSet::new();
    for family in DUMP_FAMILIES {
        let requests = family.requests(11, Size::Short);
        for request in requests
            .filter(|request| request.call == Call::Dump)
            .take(600)
        {
            let text = dump(&request.log);
            let mut out = vec![0; 20_000];
            let refusal = replay(&request.log, &mut out).refusal;
            match text {
                Ok(text) => {
                    let wanted = entries_of(&request.log);
                    banks.extend(wanted.iter().map(|entry| entry.bank));
                    assert_eq!(refusal, 0);
                    assert_eq!(dump_read(&text), Ok(wanted));
                    assert!(text.len() <= DUMP_MAX);
                    logs += 1;
                }
                Err(dumps) => assert_eq!(dumps, refusal),
            }
        }
    }
    assert!(logs > 1_200 && banks.len() == 2, "{logs}");
}

/// Times strictly rise, no change repeats a value, and each wire's first stands beside the other's.
#[test]
fn what_the_reader_takes_and_what_not() {
    let takes = |from: &str, to: &str| {
        assert!(PAGE.contains(from), "{from:?}");
        dump_read(PAGE.replacen(from, to, 1).as_bytes()).is_ok()
    };
    // As on the page, and where lines of unknown pins or changes are missing.
    assert!(takes("", ""));
    assert!(takes("xG\nxH\n", ""));
    assert!(takes("#400\n0G\n0H\n", ""));
    assert!(takes("0a\n1b\n", ""));
    assert!(takes("#400", "#225"));
    assert!(takes("#400", "#18446744073709551600"));
    assert!(takes("#100", "#0"));
    assert!(takes(
        "0G\n0H\n#200\n1G\n1H",
        "0G\n0H\n#200\n1H\n0H\n1G\n1H"
    ));
    // Each of these is none of the dump's.
    for (from, to) in [
        ("1 ns", "1  ns"),
        ("xG\n", ""),
        ("xG\nxH\n", "xH\nxG\n"),
        ("xG\nxH\nxa\nxb\n", "xa\nxb\nxG\nxH\n"),
        ("xG\n", "xE\nxF\nxG\n"),
        ("xG\nxH\n", "xG\nxH\nxG\nxH\n"),
        ("$var wire 1 H bank0_encoder3_B $end\n", ""),
        ("bank0_encoder3_A", "bank0_encoder4_A"),
        ("#100", "#0100"),
        ("#100", "#"),
        ("#100", "#101"),
        ("#200", "#100"),
        ("#200", "#75"),
        ("#400", "#18446744073709551625"),
        ("#400", "#18446744073709552000"),
        ("#400\n", "#400\n#425\n"),
        ("#400\n0G\n0H\n", "#400\n"),
        ("#100\n", ""),
        ("0G\n0H\n#200", "0H\n0G\n#200"),
        ("0G\n0H\n#200", "0G\n#200"),
        ("0a\n1b", "0a\n1G\n1b"),
        ("1G", "0G"),
        ("0a\n1b", "0c\n1d"),
        ("1G\n", "1G\n\n"),
        ("1G\n", "1G \n"),
        ("1G\n", "xG\n"),
        ("#400\n0G\n0H\n", "#400\n0G\n0H"),
        ("#400\n0G\n0H\n", "#400\n0G\n0H\n\n"),
    ] {
        assert!(!takes(from, to), "{from:?} {to:?}");
    }
}

#[test]
fn every_answer_and_every_place_comes_up() {
    let (mut refusals, mut places) = (BTreeSet::new(), BTreeSet::new());
    let mut spares = BTreeSet::new();
    for request in DUMP_FAMILIES
        .iter()
        .flat_map(|family| family.requests(1, Size::Short))
    {
        let call = request.call.name();
        refusals.insert((call, request.right_answer().word & 0xFF));
        places.insert((call, request.place as u64));
        let needed = match request.call {
            Call::Dump => dump(&request.log).map(|text| text.len()),
            _ => dump_read(&request.log).map(|entries| 16 * entries.len()),
        };
        if let Ok(needed) = needed {
            spares.insert((call, request.out_len as i64 - needed as i64));
        }
    }
    let dumped = (0..=11).chain([16, 18]).map(|refusal| ("dump", refusal));
    let read = [0, 6, 20].map(|refusal| ("dump-read", refusal));
    assert_eq!(refusals, dumped.chain(read).collect());
    assert_eq!(places.len(), 2 * PLACES.len());
    for call in ["dump", "dump-read"] {
        assert!((-1..=9).all(|spare| spares.contains(&(call, spare))));
    }
}

#[test]
fn a_seed_gives_the_same_requests_for_the_dump_again() {
    for family in DUMP_FAMILIES {
        let some = |seed| -> Vec<_> { family.requests(seed, Size::Short).take(50).collect() };
        assert_eq!(some(3), some(3), "{}", family.name);
        assert_ne!(some(3), some(4), "{}", family.name);
    }
}

/// Both banks from edition 2 on, one in edition 1.
#[test]
fn logs_of_every_edition_are_dumped() {
    for edition in EDITIONS {
        let of_edition = DUMP_FAMILIES[0]
            .requests(2, Size::Short)
            .filter(|request| Log::open(&request.log).map(|log| log.edition) == Ok(edition));
        let texts: Vec<_> = of_edition
            .filter_map(|request| dump(&request.log).ok())
            .collect();
        assert!(texts.len() > 900 / EDITIONS.len(), "{edition:?}");
        let both = texts.iter().filter(|text| {
            let text = String::from_utf8_lossy(text);
            text.contains(" bank0_") && text.contains(" bank1_")
        });
        assert_eq!(both.count() > 50, edition != Edition::One, "{edition:?}");
    }
}
