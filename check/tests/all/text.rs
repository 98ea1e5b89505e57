use crate::common::log;
use rivandoze_check::generate::{damage, generate, Rng, Settings};
use rivandoze_check::reference::edition::EDITIONS;
use rivandoze_check::reference::log::build;
use rivandoze_check::reference::record::Fields;
use rivandoze_check::text::{from_text, to_text};

fn assert_round_trip(bytes: &[u8]) {
    let text = to_text(bytes);
    assert_eq!(from_text(&text).as_deref(), Ok(bytes), "{text}");
}

#[test]
fn made_and_damaged_logs_round_trip() {
    let mut rng = Rng::new(31);
    let settings = Settings {
        most_records: 60,
        notes_percent: 50,
        refused_percent: 60,
        ..Settings::default()
    };
    for seed in 0..400 {
        let log = generate(seed, &settings);
        assert_round_trip(&log);
        assert_round_trip(&damage(&log, &mut rng));
    }
}

#[test]
fn any_bytes_round_trip() {
    let mut rng = Rng::new(32);
    for len in (0..200).chain([32_768, 32_769, 40_000]) {
        let bytes: Vec<u8> = (0..len).map(|_| rng.draw() as u8).collect();
        assert_round_trip(&bytes);
    }
    for len in 0..40 {
        assert_round_trip(&b"a \"note\" \\ with # and\n new lines, 40 bytes"[..len]);
    }
}

#[test]
fn any_record_round_trips() {
    let mut rng = Rng::new(33);
    for _ in 0..5_000 {
        let mut record = [0; 16];
        record[..5].fill_with(|| rng.below(6) as u8);
        record[8] = rng.draw() as u8;
        if rng.chance(50) {
            record[rng.below(16) as usize] = rng.draw() as u8;
        }
        assert_round_trip(&build(rng.pick(&EDITIONS), &[], &[record]));
    }
}

#[test]
fn each_line_means_its_record() {
    for (line, fields) in [
        ("write select 0xA", Fields::write(0, 0, 0, 10)),
        ("read select", Fields::read(0, 0, 0)),
        ("write encoder 0 cnfg 1", Fields::write(1, 0, 0, 1)),
        ("read encoder 9 stat", Fields::read(1, 9, 1)),
        ("read encoder 0 cntr", Fields::read(1, 0, 2)),
        ("pins encoder 0 2", Fields::pins(0, 2)),
        ("ticks 500", Fields::ticks(500)),
        ("write pwm 19 cnfg 4", Fields::write(2, 19, 0, 4)),
        ("write pwm 3 cs 7", Fields::write(2, 3, 1, 7)),
        ("write pwm 3 max 1000", Fields::write(2, 3, 2, 1_000)),
        ("write pwm 3 cmp 10", Fields::write(2, 3, 3, 10)),
        ("read pwm 3 cntr", Fields::read(2, 3, 4)),
        ("read pwm 3 level", Fields::read(2, 3, 5)),
        ("write i2c addr 64", Fields::write(3, 0, 0, 64)),
        ("write i2c cntl 3", Fields::write(3, 0, 1, 3)),
        ("write i2c go 1", Fields::write(3, 0, 2, 1)),
        ("read i2c state", Fields::read(3, 0, 3)),
        (
            "bank 1 write select 0xA",
            Fields::write(0, 0, 0, 10).in_bank(1),
        ),
        ("bank 1 read pwm 3 level", Fields::read(2, 3, 5).in_bank(1)),
        ("bank 255 pins encoder 0 2", Fields::pins(0, 2).in_bank(255)),
        ("bank 2 ticks 500", Fields::ticks(500).in_bank(2)),
        ("answer i2c 2", Fields::answer(2)),
        ("bank 1 answer i2c 9", Fields::answer(9).in_bank(1)),
        ("read i2c failure", Fields::read(3, 0, 4)),
    ] {
        let bytes = log(line);
        assert_eq!(bytes[..16], fields.to_bytes(), "{line}");
        assert_eq!(bytes.len(), 24);
        assert_eq!(to_text(&bytes), format!("{line}\n"));
    }
}

#[test]
fn spelling_is_free_where_it_can_be() {
    let plain = log("bank 1 write pwm 3 max 255\nticks 16\n");
    let free =
        log("\r\n# all of it\n Bank 0x1 WRITE  PWM\t0x3 Max 0xfF # top\n\n ticks 0X10# wait\n");
    assert_eq!(plain, free);
}

#[test]
fn a_raw_line_is_sixteen_bytes() {
    let bytes = log("raw 00 01 02 03 04 05 06 07 08 09 0a 0b 0C 0D 0E fF");
    assert_eq!(bytes[..3], [0, 1, 2]);
    assert_eq!(bytes[13..16], [13, 14, 255]);
}

#[test]
fn notes_are_their_bytes() {
    let bytes = log("note \"a # b\" # comment\nNOTE\"\\\"\\\\\\n\\x00\\xfFé\"\nticks 1\n");
    assert_eq!(&bytes[..5], b"a # b");
    assert_eq!(bytes[5..12], [b'"', b'\\', b'\n', 0, 255, 0xC3, 0xA9]);
    assert_eq!(bytes.len(), 12 + 16 + 8);
}

#[test]
fn the_trailer_is_made_or_given() {
    let end = |text: &str| log(text)[16..].to_vec();
    assert_eq!(end("ticks 1"), [16, 0, 0, 0, 1, 0, 0x51, 0x4D]);
    assert_eq!(
        end("ticks 1\ntrailer distance 258 edition 772 mark 05 06"),
        [2, 1, 0, 0, 4, 3, 5, 6]
    );
    assert_eq!(
        end("ticks 1\ntrailer edition 2"),
        [16, 0, 0, 0, 2, 0, 0x51, 0x4D]
    );
    assert_eq!(end("ticks 1\ntrailer none"), [0; 0]);
    assert_eq!(log(""), [0, 0, 0, 0, 1, 0, 0x51, 0x4D]);
}

#[test]
fn the_text_has_what_is_otherwise_in_the_trailer() {
    for end in [
        "",
        "trailer edition 2\n",
        "trailer mark 51 4C\n",
        "trailer edition 3 mark 51 4C\n",
        "trailer distance 15\n",
    ] {
        let text = format!("ticks 1\n{end}");
        assert_eq!(to_text(&log(&text)), text);
    }
}

#[test]
fn what_is_wrong_and_where() {
    for (text, line, words) in [
        ("wriet select 1", 1, "`wriet` is none of write, read"),
        ("\n# x\nwrite selekt 1", 3, "`selekt` is none of the blocks"),
        ("write", 1, "the block is missing"),
        ("write encoder", 1, "the channel is missing"),
        (
            "write encoder x cnfg 1",
            1,
            "the channel `x` is not a number",
        ),
        (
            "write encoder 256 cnfg 1",
            1,
            "the channel `256` is too large",
        ),
        (
            "write encoder 0 max 1",
            1,
            "`max` is none of the registers of encoder: cnfg, stat",
        ),
        ("write encoder 0", 1, "the register is missing"),
        ("write encoder 0 cnfg", 1, "the value is missing"),
        (
            "write encoder 0 cnfg 0x",
            1,
            "the value `0x` is not a number",
        ),
        (
            "write encoder 0 cnfg -1",
            1,
            "the value `-1` is not a number",
        ),
        (
            "write encoder 0 cnfg +1",
            1,
            "the value `+1` is not a number",
        ),
        ("ticks 18446744073709551616", 1, "is above 64 bits"),
        ("ticks", 1, "the number of ticks is missing"),
        ("ticks 1 2", 1, "`2` is one word too many"),
        ("read select 0", 1, "`0` is one word too many"),
        ("pins pwm 0 1", 1, "only an encoder has pins"),
        ("answer pwm 1", 1, "only i2c has slaves"),
        ("answer", 1, "the word i2c is missing"),
        ("answer i2c", 1, "the value is missing"),
        ("bank", 1, "the bank is missing"),
        ("bank 256 ticks 1", 1, "the bank `256` is too large"),
        ("bank 1", 1, "what is for the bank is missing"),
        ("bank 1 raw 00", 1, "`raw` is none of write, read"),
        ("bank 1 bank 1 ticks 1", 1, "`bank` is none of write, read"),
        ("raw 00 01", 1, "byte 3 of 16 is missing"),
        ("raw 00 1", 1, "`1` is not a byte"),
        ("raw +1", 1, "`+1` is not a byte"),
        (
            "ticks 1\nnote \"late\"",
            2,
            "notes stand before the first record",
        ),
        ("note open", 1, "between double quotes"),
        ("note \"open", 1, "closing double quote is missing"),
        ("note \"\\q\"", 1, "a backslash in a note"),
        ("note \"\\x0é\"", 1, "two hexadecimal digits"),
        ("note \"a\" b", 1, "`b` is one word too many"),
        ("trailer", 1, "what the trailer holds is missing"),
        ("trailer mark 51", 1, "byte 2 of 2 is missing"),
        (
            "trailer edition 65536",
            1,
            "the edition `65536` is too large",
        ),
        ("trailer edition 1 edition 1", 1, "edition is given twice"),
        ("trailer distant 3", 1, "`distant` is none of distance"),
        ("trailer none\nticks 1", 2, "nothing may follow the trailer"),
    ] {
        let (number, message) = from_text(text).expect_err(text);
        assert_eq!(number, line, "{text}: {message}");
        assert!(message.contains(words), "{text}: {message}");
    }
}
