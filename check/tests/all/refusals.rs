//! Each refusal given, and not given one bit away. Where no single bit tells the two apart, one
//! unit does, and the test says so.

use crate::common::{bits_apart, in_edition, log, run, run_text, UNTOUCHED};
use rivandoze_check::reference::{
    brute_pwm, brute_spi, find_pwm, find_spi, rate_pwm, rate_spi, replay,
};

/// Everything routed that is needed below: encoders 8 and 9, PWM 0 and 2, I2C.
const ROUTED: &str = "write select 0xAAF0000011\n";

/// The bad line is refused so, the good one is applied, and they are one bit apart.
fn one_bit(refusal: u8, before: &str, bad: &str, good: &str) {
    let logs = [bad, good].map(|line| log(&format!("{before}{line}\n")));
    assert_eq!(bits_apart(&logs[0], &logs[1]), 1, "{bad} / {good}");
    decides(refusal, before, bad, good);
}

/// The bad line is refused so, and the good one is applied.
fn decides(refusal: u8, before: &str, bad: &str, good: &str) {
    let applied = before.lines().count() as u64;
    let run = |line: &str| run_text(&format!("{before}{line}\n"));
    let (bad_run, good_run) = (run(bad), run(good));
    assert_eq!(
        (bad_run.refusal, bad_run.applied),
        (refusal, applied),
        "{bad}"
    );
    assert_eq!(
        (good_run.refusal, good_run.applied),
        (0, applied + 1),
        "{good}"
    );
    assert_eq!(bad_run.bank, run_text(before).bank, "{bad}");
    assert_eq!(bad_run.bank_b, run_text(before).bank_b, "{bad}");
}

/// Every one of these bits of the last record, flipped, makes an applied record refused so.
fn each_bit(refusal: u8, before: &str, good: &str, bits: impl Iterator<Item = usize>) {
    let good_log = log(&format!("{before}{good}\n"));
    assert_eq!(run(&good_log).refusal, 0, "{good}");
    let start = good_log.len() - 8 - 16;
    for bit in bits {
        let mut bad_log = good_log.clone();
        bad_log[start + bit / 8] ^= 1 << (bit % 8);
        assert_eq!(run(&bad_log).refusal, refusal, "bit {bit} of {good}");
    }
}

/// The editions that there are.
const EDITIONS: [u16; 4] = [1, 2, 3, 4];

const KIND: usize = 0;
const BLOCK: usize = 8;
const CHANNEL: usize = 16;
const REGISTER: usize = 24;
const RESERVED: usize = 32;
const VALUE: usize = 64;
const END: usize = 128;

// The whole log. A length has no bits, so 1 and 2 go by one byte; 6 goes by both.

#[test]
fn refusal_1_by_one_byte() {
    let records = "ticks 0\n".repeat(2_047);
    let longest = log(&format!("note \"12345678\"\n{records}"));
    assert_eq!(longest.len(), 32_768);
    let run_longest = run(&longest);
    assert_eq!((run_longest.refusal, run_longest.applied), (0, 2_047));
    let too_long = [&[0], longest.as_slice()].concat();
    let run_too_long = run(&too_long);
    assert_eq!((run_too_long.refusal, run_too_long.applied), (1, 0));
}

#[test]
fn refusal_2_by_one_byte() {
    let bare = log("");
    assert_eq!((bare.len(), run(&bare).refusal), (8, 0));
    for len in 0..8 {
        assert_eq!(run(&bare[8 - len..]).refusal, 2, "length {len}");
    }
}

#[test]
fn refusal_3_by_each_bit_of_the_mark() {
    let good = log(ROUTED);
    for bit in 0..16 {
        let mut bad = good.clone();
        let start = bad.len() - 2;
        bad[start + bit / 8] ^= 1 << (bit % 8);
        assert_eq!(run(&bad).refusal, 3);
    }
}

#[test]
fn refusal_4_by_every_number() {
    for number in 0..=u16::MAX {
        let wanted = if EDITIONS.contains(&number) { 0 } else { 4 };
        let run = run(&log(&in_edition(number, "read select")));
        assert_eq!(
            (run.refusal, run.applied == 1),
            (wanted, wanted == 0),
            "{number}"
        );
    }
}

#[test]
fn refusal_5_by_each_bit_of_the_distance() {
    let good = log("ticks 1\nticks 1\nticks 1\nticks 1\nticks 1");
    // 80 of 80 bytes: bits 4 and 6 off leave fewer records, every other bit is wrong.
    for bit in 0..32 {
        let mut bad = good.clone();
        bad[80 + bit / 8] ^= 1 << (bit % 8);
        let run = run(&bad);
        match bit {
            4 => assert_eq!((run.refusal, run.applied), (0, 4)),
            6 => assert_eq!((run.refusal, run.applied), (0, 1)),
            _ => assert_eq!((run.refusal, run.applied), (5, 0), "bit {bit}"),
        }
    }
}

#[test]
fn refusal_5_one_record_too_far() {
    let line = |distance: u32| format!("ticks 1\nticks 1\ntrailer distance {distance}\n");
    assert_eq!(run_text(&line(32)).refusal, 0);
    assert_eq!(run_text(&line(48)).refusal, 5);
    assert_eq!(run_text(&line(u32::MAX - 15)).refusal, 5);
    // Fifteen bytes of notes are no record.
    let notes = format!("note \"123456789012345\"\n{}", line(48));
    assert_eq!(run_text(&notes).refusal, 5);
    let notes = format!("note \"1234567890123456\"\n{}", line(48));
    assert_eq!(run_text(&notes).refusal, 7);
}

#[test]
fn refusal_6_by_one_byte_of_output() {
    let log = log("read select\nticks 1\nread i2c state");
    let mut enough = [UNTOUCHED; 16];
    assert_eq!(replay(&log, &mut enough).refusal, 0);
    assert_eq!(enough, [0; 16]);
    for len in 0..16 {
        let mut short = vec![UNTOUCHED; len];
        let answer = replay(&log, &mut short);
        assert_eq!((answer.refusal, answer.applied), (6, 0));
        assert_eq!(short, vec![UNTOUCHED; len]);
    }
}

#[test]
fn refusal_6_by_one_bit_of_a_record_never_reached() {
    // The second record is refused; the third still counts for the output.
    let before = "read select\nwrite select 3\n";
    let [three, two] = ["03", "02"].map(|kind| {
        let zeros = "00 ".repeat(15);
        log(&format!("{before}raw {kind} {zeros}\n"))
    });
    assert_eq!(bits_apart(&three, &two), 1);
    let mut out = [UNTOUCHED; 8];
    assert_eq!(replay(&two, &mut out).refusal, 6);
    assert_eq!(out, [UNTOUCHED; 8]);
    assert_eq!(replay(&three, &mut out).refusal, 10);
    assert_eq!(out, [0; 8]);
}

#[test]
fn refusal_6_counts_reads_that_are_no_records_of_this_bank() {
    let bad_read = format!("raw 02 FF {}", "FF ".repeat(14));
    let log = log(&bad_read);
    assert_eq!(replay(&log, &mut []).refusal, 6);
    assert_eq!(replay(&log, &mut [0; 8]).refusal, 7);
}

// One record.

#[test]
fn refusal_7_kind() {
    one_bit(
        7,
        "",
        "raw 00 00 00 00 00 00 00 00 00 00 00 00 00 00 00 00",
        "write select 0",
    );
    one_bit(
        7,
        "",
        "raw 05 00 00 00 00 00 00 00 00 00 00 00 00 00 00 00",
        "ticks 0",
    );
    each_bit(7, "", "write select 0", KIND + 3..BLOCK);
    each_bit(7, "", "read select", KIND + 3..BLOCK);
    each_bit(7, "", "ticks 0", KIND + 3..BLOCK);
    each_bit(7, ROUTED, "pins encoder 8 0", KIND + 3..BLOCK);
}

#[test]
fn refusal_7_block() {
    each_bit(7, "", "write select 0", BLOCK + 2..CHANNEL);
    each_bit(7, "", "read select", BLOCK + 2..CHANNEL);
    each_bit(7, ROUTED, "pins encoder 8 0", BLOCK..CHANNEL);
    each_bit(7, "", "ticks 0", BLOCK..CHANNEL);
}

#[test]
fn refusal_7_channel() {
    each_bit(7, "", "write select 0", CHANNEL..REGISTER);
    each_bit(7, "", "read select", CHANNEL..REGISTER);
    each_bit(7, ROUTED, "write i2c addr 0", CHANNEL..REGISTER);
    each_bit(7, "", "read i2c addr", CHANNEL..REGISTER);
    each_bit(7, "", "ticks 0", CHANNEL..REGISTER);
    one_bit(7, "", "read encoder 10 cnfg", "read encoder 8 cnfg");
    one_bit(7, "", "read encoder 11 cnfg", "read encoder 9 cnfg");
    one_bit(
        7,
        ROUTED,
        "write encoder 10 cnfg 1",
        "write encoder 8 cnfg 1",
    );
    one_bit(7, ROUTED, "pins encoder 10 0", "pins encoder 8 0");
    one_bit(7, "", "read pwm 20 max", "read pwm 16 max");
    one_bit(7, "", "read pwm 23 max", "read pwm 19 max");
    one_bit(7, ROUTED, "write pwm 32 max 1", "write pwm 0 max 1");
    // Neighbours in number: 9 and 10, 19 and 20 are more than a bit apart.
    decides(7, ROUTED, "pins encoder 10 0", "pins encoder 9 0");
    decides(7, "", "read encoder 10 cntr", "read encoder 9 cntr");
    decides(7, "", "read pwm 20 cntr", "read pwm 19 cntr");
}

#[test]
fn refusal_7_register() {
    each_bit(7, "", "write select 0", REGISTER..RESERVED);
    each_bit(7, "", "read select", REGISTER..RESERVED);
    each_bit(7, "", "ticks 0", REGISTER..RESERVED);
    each_bit(7, ROUTED, "pins encoder 8 0", REGISTER..RESERVED);
    each_bit(
        7,
        "",
        "read encoder 0 cntr",
        (REGISTER..RESERVED).filter(|bit| bit - REGISTER != 1),
    );
    each_bit(7, "", "read pwm 0 level", REGISTER + 3..RESERVED);
    each_bit(7, "", "read i2c state", REGISTER + 2..RESERVED);
    let read = |register: u8, block: u8| {
        format!("raw 02 {block:02X} 00 {register:02X} {}", "00 ".repeat(12))
    };
    one_bit(7, "", &read(3, 1), "read encoder 0 stat");
    one_bit(7, "", &read(6, 2), "read pwm 0 max");
    one_bit(7, "", &read(7, 2), "read pwm 0 level");
    one_bit(7, "", "read i2c failure", "read i2c addr");
}

#[test]
fn refusal_7_access() {
    one_bit(
        7,
        ROUTED,
        "write encoder 8 stat 0",
        "write encoder 8 cnfg 0",
    );
    one_bit(
        7,
        ROUTED,
        "write encoder 8 cntr 0",
        "write encoder 8 cnfg 0",
    );
    one_bit(7, ROUTED, "write pwm 0 cntr 0", "write pwm 0 cnfg 0");
    one_bit(7, ROUTED, "write pwm 0 level 0", "write pwm 0 cs 0");
    one_bit(7, ROUTED, "write i2c state 0", "write i2c cntl 0");
    one_bit(7, "", "read i2c go", "read i2c addr");
    one_bit(7, "", "read i2c go", "read i2c state");
}

#[test]
fn refusal_7_reserved_bytes() {
    for good in ["write select 0", "read select", "ticks 5"] {
        each_bit(7, "", good, RESERVED..VALUE);
    }
    each_bit(7, ROUTED, "pins encoder 8 3", RESERVED..VALUE);
}

#[test]
fn refusal_7_read_with_a_value() {
    for good in [
        "read select",
        "read encoder 9 cntr",
        "read pwm 19 level",
        "read i2c state",
    ] {
        each_bit(7, "", good, VALUE..END);
    }
}

#[test]
fn refusal_8_each_register() {
    each_bit(8, "", "write select 0", VALUE + 40..END);
    each_bit(8, ROUTED, "write encoder 8 cnfg 31", VALUE + 5..END);
    each_bit(8, ROUTED, "write pwm 0 cnfg 5", VALUE + 1..VALUE + 2);
    each_bit(8, ROUTED, "write pwm 0 cnfg 5", VALUE + 3..END);
    each_bit(8, ROUTED, "write pwm 0 cs 7", VALUE + 3..END);
    each_bit(8, ROUTED, "write pwm 0 max 65535", VALUE + 16..END);
    each_bit(8, ROUTED, "write pwm 0 cmp 65535", VALUE + 16..END);
    each_bit(8, ROUTED, "write i2c addr 255", VALUE + 8..END);
    each_bit(8, ROUTED, "write i2c cntl 15", VALUE + 4..END);
    let ready = format!("{ROUTED}write i2c cntl 3\n");
    each_bit(8, &ready, "write i2c go 1", VALUE..END);
}

#[test]
fn refusal_8_each_record() {
    each_bit(8, ROUTED, "pins encoder 8 3", VALUE + 2..END);
    each_bit(8, "", "ticks 4294967295", VALUE + 32..END);
}

#[test]
fn refusal_8_one_unit_above() {
    decides(
        8,
        ROUTED,
        "write encoder 8 cnfg 32",
        "write encoder 8 cnfg 31",
    );
    decides(8, ROUTED, "write pwm 0 cs 8", "write pwm 0 cs 7");
    decides(8, ROUTED, "write pwm 0 max 65536", "write pwm 0 max 65535");
    decides(8, ROUTED, "write pwm 0 cmp 65536", "write pwm 0 cmp 65535");
    decides(8, ROUTED, "write i2c addr 256", "write i2c addr 255");
    decides(8, ROUTED, "write i2c cntl 16", "write i2c cntl 15");
    decides(8, ROUTED, "pins encoder 8 4", "pins encoder 8 3");
    decides(8, "", "ticks 4294967296", "ticks 4294967295");
    let ready = format!("{ROUTED}write i2c cntl 3\n");
    decides(8, &ready, "write i2c go 2", "write i2c go 1");
    decides(8, &ready, "write i2c go 0", "write i2c go 1");
}

#[test]
fn refusal_8_every_small_pwm_cnfg() {
    for value in 0..16 {
        let run = run_text(&format!("{ROUTED}write pwm 0 cnfg {value}"));
        let wanted = if [0, 1, 4, 5].contains(&value) { 0 } else { 8 };
        assert_eq!(run.refusal, wanted, "CNFG {value}");
    }
}

#[test]
fn refusal_9_by_one_bit_of_the_channel() {
    let encoder_0 = "write select 0xA\n";
    one_bit(
        9,
        encoder_0,
        "write encoder 1 cnfg 1",
        "write encoder 0 cnfg 1",
    );
    one_bit(9, encoder_0, "pins encoder 1 0", "pins encoder 0 0");
    for register in ["cnfg", "cs", "max", "cmp"] {
        let line = |channel| format!("write pwm {channel} {register} 1");
        one_bit(9, "write select 1\n", &line(1), &line(0));
    }
}

#[test]
fn refusal_9_by_one_bit_of_select() {
    let text = |select| format!("write select {select}\nwrite pwm 0 cs 1");
    assert_eq!(bits_apart(&log(&text(0)), &log(&text(1))), 1);
    assert_eq!(run_text(&text(0)).refusal, 9);
    assert_eq!(run_text(&text(1)).refusal, 0);
}

#[test]
fn refusal_9_i2c_by_one_record() {
    // I2C has one channel, and each bit of its SELECT alone is refusal 10: one record decides.
    for line in ["write i2c addr 0", "write i2c cntl 3", "write i2c go 1"] {
        let unrouted = run_text(&format!("ticks 0\n{line}"));
        assert_eq!((unrouted.refusal, unrouted.applied), (9, 1), "{line}");
    }
    let before = "write select 0xF0000000\n";
    for line in ["write i2c addr 0", "write i2c cntl 3"] {
        assert_eq!(run_text(&format!("{before}{line}")).refusal, 0, "{line}");
    }
    let go = format!("{before}write i2c cntl 3\nwrite i2c go 1");
    assert_eq!(run_text(&go).refusal, 0);
}

#[test]
fn reads_and_ticks_never_give_9() {
    let text = "read encoder 0 cnfg\nread pwm 19 level\nread i2c addr\nticks 7";
    assert_eq!(run_text(text).refusal, 0);
}

#[test]
fn refusal_10_each_clause_by_one_bit() {
    let stray_pins = (0..20).filter(|pin| ![5, 6, 7, 14, 15].contains(pin));
    for pin in stray_pins {
        let line = |function: u64| format!("write select {}", function << (2 * pin));
        one_bit(10, "", &line(3), &line(1));
    }
    for (group, bits) in [(0xFC00_u64, 10..16), (0xF000_0000, 28..32)] {
        let line = |value: u64| format!("write select {value}");
        for bit in bits {
            one_bit(10, "", &line(group ^ 1 << bit), &line(group));
        }
    }
    for pair in 0..10 {
        let line = |pins: u64| format!("write select {}", pins << (4 * pair));
        one_bit(10, "", &line(0b1000), &line(0b1010));
        one_bit(10, "", &line(0b0010), &line(0b1010));
        one_bit(10, "", &line(0b1000), &line(0b0000));
        one_bit(10, "", &line(0b0010), &line(0b0000));
    }
}

#[test]
fn refusal_10_leaves_routing_as_it_was() {
    let text = "write select 0xA
        write encoder 0 cnfg 1
        pins encoder 0 0
        pins encoder 0 1
        read encoder 0 cntr
        write select 0xB
        read encoder 0 cntr";
    let run = run_text(text);
    assert_eq!((run.refusal, run.applied), (10, 5));
    assert_eq!(run.readings, [1]);
    assert_eq!(run.bank.select.value, 0xA);
    assert_eq!(run.bank.encoders[0].seen, Some(1));
}

#[test]
fn refusal_11_by_one_bit_of_the_control_code() {
    for (addr, bad, good) in [
        (0, 0b0001, 0b0011), // no START while idle
        (0, 0b0010, 0b0011), // START without a byte
        (1, 0b1111, 0b1011), // ACK and STOP while receiving
        (1, 0b1111, 0b0111),
    ] {
        let text = |cntl| {
            format!("{ROUTED}write i2c addr {addr}\nwrite i2c cntl {cntl}\nwrite i2c go 1\n")
        };
        assert_eq!(bits_apart(&log(&text(bad)), &log(&text(good))), 1);
        let refused = run_text(&text(bad));
        assert_eq!((refused.refusal, refused.applied), (11, 3));
        assert_eq!(run_text(&text(good)).refusal, 0);
    }
}

#[test]
fn refusal_11_by_one_bit_of_the_address() {
    // ACK and STOP are fine while sending; a byte without START must go the way of the state.
    let first =
        |addr| format!("{ROUTED}write i2c addr {addr}\nwrite i2c cntl 15\nwrite i2c go 1\n");
    assert_eq!(bits_apart(&log(&first(1)), &log(&first(0))), 1);
    assert_eq!(run_text(&first(1)).refusal, 11);
    assert_eq!(run_text(&first(0)).refusal, 0);
    let then = |addr| {
        format!(
            "{ROUTED}write i2c cntl 3\nwrite i2c go 1
            write i2c addr {addr}\nwrite i2c cntl 1\nwrite i2c go 1\n"
        )
    };
    assert_eq!(bits_apart(&log(&then(1)), &log(&then(0))), 1);
    assert_eq!(run_text(&then(1)).refusal, 11);
    assert_eq!(run_text(&then(0)).refusal, 0);
}

#[test]
fn refusal_11_by_the_state() {
    let again = "write i2c cntl 4\nwrite i2c go 1\n";
    let started = format!("{ROUTED}write i2c cntl 3\nwrite i2c go 1\n");
    assert_eq!(run_text(&format!("{ROUTED}{again}")).refusal, 11);
    assert_eq!(run_text(&format!("{started}{again}")).refusal, 0);
}

/// The byte before it acknowledged or not: one bit of its CNTL.
#[test]
fn refusal_16_by_the_ack_of_the_byte_before() {
    let text = |cntl: u8| {
        format!(
            "{ROUTED}write i2c addr 1
            write i2c cntl {cntl}
            write i2c go 1
            write i2c cntl 4
            write i2c go 1"
        )
    };
    let [bad, good] = [0b1011, 0b0011].map(|cntl| log(&text(cntl)));
    assert_eq!(bits_apart(&bad, &good), 1);
    let (bad_run, good_run) = (run(&bad), run(&good));
    assert_eq!((bad_run.refusal, bad_run.applied), (16, 5));
    assert_eq!((good_run.refusal, good_run.applied), (0, 6));
}

// Rates: numbers, of which the edges are one unit, and often one bit, away.

type Find = fn(u64, u64) -> Result<rivandoze_check::reference::Pair, u8>;
const FINDERS: [(Find, u64); 4] = [
    (find_pwm, 40_000_000),
    (brute_pwm, 40_000_000),
    (find_spi, 4_000_000_000),
    (brute_spi, 4_000_000_000),
];

#[test]
fn refusal_12_at_both_ends() {
    for (find, highest) in FINDERS {
        for good in [40_000, highest] {
            assert!(find(good, 1_000_000).is_ok());
        }
        // The lowest without its bit 6, and the highest with bit 0, which was clear.
        for bad in [0, 40, 39_999, 40_000 ^ 64, highest ^ 1, u64::MAX] {
            assert_eq!(find(bad, 1_000_000), Err(12), "{bad}");
        }
        assert_eq!(find(1 << 32 | 1_000_000, 0), Err(12));
    }
}

#[test]
fn refusal_13_by_the_lowest_bit() {
    for (find, _) in FINDERS {
        assert!(find(1_000_000, 1_000_000).is_ok());
        assert_eq!(find(1_000_000, 1_000_000 ^ 1), Err(13));
        assert_eq!(find(1_000_000, u64::MAX), Err(13));
    }
}

#[test]
fn refusal_14_by_one_unit_and_by_one_bit() {
    assert_eq!(find_pwm(610_000, 3), Err(14));
    assert!(find_pwm(610_000, 4).is_ok());
    assert!(find_pwm(610_000, 3 ^ 4).is_ok());
    assert_eq!(find_spi(3_650_000_000, 86_757), Err(14));
    assert!(find_spi(3_650_000_000, 86_758).is_ok());
    assert!(find_spi(3_650_000_000, 86_757 ^ 2).is_ok());
}

#[test]
fn refusal_15_by_one_bit_and_by_one_unit() {
    for rate in [rate_pwm, rate_spi] {
        for choice in 1..=7 {
            assert!(rate(choice, 0).is_ok());
            assert!(rate(choice, 65_535).is_ok());
            for bit in 3..64 {
                assert_eq!(rate(choice ^ 1 << bit, 0), Err(15));
            }
            for bit in 16..64 {
                assert_eq!(rate(choice, 65_535 ^ 1 << bit), Err(15));
            }
        }
        assert_eq!(rate(0, 0), Err(15));
        assert_eq!(rate(1 ^ 1, 0), Err(15));
        assert_eq!(rate(8, 0), Err(15));
        assert_eq!(rate(1, 65_536), Err(15));
        assert_eq!(rate(u64::MAX, u64::MAX), Err(15));
    }
}

// The order of the checks.

#[test]
fn the_length_comes_before_the_trailer() {
    assert_eq!(run(&[0xFF; 32_769]).refusal, 1);
    assert_eq!(run(&[0xFF; 7]).refusal, 2);
}

#[test]
fn mark_then_edition_then_distance_then_output_then_records() {
    let text = |trailer: &str| log(&format!("raw 02 {}\n{trailer}\n", "FF ".repeat(15)));
    let refusal = |trailer: &str| replay(&text(trailer), &mut []).refusal;
    assert_eq!(refusal("trailer distance 1 edition 0 mark 51 4E"), 3);
    assert_eq!(refusal("trailer distance 1 edition 0"), 4);
    assert_eq!(refusal("trailer distance 1"), 5);
    assert_eq!(refusal("trailer distance 32"), 5);
    assert_eq!(refusal("trailer distance 16"), 6);
    assert_eq!(replay(&text(""), &mut [0; 8]).refusal, 7);
}

#[test]
fn record_then_value_then_routing_then_the_rest() {
    let refusal = |text: &str| run_text(text).refusal;
    // Unlisted, out of range and not routed; then each mended in turn.
    assert_eq!(refusal("write encoder 0 stat 99"), 7);
    assert_eq!(refusal("write encoder 0 cnfg 99"), 8);
    assert_eq!(refusal("write encoder 0 cnfg 1"), 9);
    assert_eq!(refusal("pins encoder 10 9"), 7);
    assert_eq!(refusal("pins encoder 0 9"), 8);
    assert_eq!(refusal("pins encoder 0 1"), 9);
    assert_eq!(refusal("write pwm 20 cnfg 2"), 7);
    assert_eq!(refusal("write pwm 0 cnfg 2"), 8);
    assert_eq!(refusal("write pwm 0 cnfg 4"), 9);
    // A stray 3 beside a bit that is out of range.
    assert_eq!(refusal("write select 0x10000000003"), 8);
    assert_eq!(refusal("write select 0x3"), 10);
    // GO from idle with code 0.
    assert_eq!(refusal("write i2c go 2"), 8);
    assert_eq!(refusal("write i2c go 1"), 9);
    assert_eq!(refusal(&format!("{ROUTED}write i2c go 2")), 8);
    assert_eq!(refusal(&format!("{ROUTED}write i2c go 1")), 11);
    // A tick record that names a block and is out of range.
    let wrong_twice = format!("raw 04 01 {}", "00 ".repeat(13) + "80");
    assert_eq!(refusal(&wrong_twice), 7);
}

/// In edition 3 each CNFG of an encoder, routed and not: 8, 9, then 18, which is by MODE alone. The other editions
/// know no 18.
#[test]
fn refusal_18_by_every_cnfg() {
    for edition in [1, 2, 3] {
        for cnfg in 0..=64_u64 {
            let write = format!("write encoder 9 cnfg {cnfg}\n");
            let refusal = |before: &str| {
                let run = run_text(&in_edition(edition, &format!("{before}{write}")));
                assert_eq!(
                    run.applied,
                    (before.lines().count() as u64) + u64::from(run.refusal == 0)
                );
                if run.refusal != 0 {
                    assert_eq!(run.bank.encoders[9].cnfg, 0);
                }
                run.refusal
            };
            let gone = edition == 3 && cnfg & 4 != 0;
            let [unrouted, routed] = match cnfg {
                32.. => [8, 8],
                _ if gone => [9, 18],
                _ => [9, 0],
            };
            assert_eq!(refusal(""), unrouted, "edition {edition} CNFG {cnfg}");
            assert_eq!(refusal(ROUTED), routed, "edition {edition} CNFG {cnfg}");
        }
    }
}

#[test]
fn rate_then_tolerance_then_pair() {
    for (find, highest) in FINDERS {
        assert_eq!(find(39_999, 1_000_001), Err(12));
        assert_eq!(find(highest + 1, 1_000_001), Err(12));
        assert_eq!(find(611_000, 1_000_001), Err(13));
        assert_eq!(find(611_000, 0), Err(14));
    }
}

#[test]
fn the_first_refused_record_counts() {
    let text = "read select\nwrite encoder 0 cnfg 1\nwrite select 3\nread i2c go";
    let run = run_text(text);
    assert_eq!((run.refusal, run.applied), (9, 1));
    assert_eq!(run.readings, [0]);
}
