//! The program as it is run.

use crate::common::{in_edition, log};
use std::io::Write;
use std::process::{Command, Output, Stdio};

fn program(arguments: &[&str], input: &[u8]) -> Output {
    let mut child = Command::new(env!("CARGO_BIN_EXE_rvz-check"))
        .args(arguments)
        .stdin(Stdio::piped())
        .stdout(Stdio::piped())
        .stderr(Stdio::piped())
        .spawn()
        .expect("the program starts");
    let mut stdin = child.stdin.take().expect("standard input is a pipe");
    // A program that needs no more input closes its end, which is not an error here.
    let _ = stdin.write_all(input);
    drop(stdin);
    child.wait_with_output().expect("the program ends")
}

fn printed(arguments: &[&str], input: &[u8]) -> String {
    let output = program(arguments, input);
    assert!(output.status.success());
    String::from_utf8(output.stdout).expect("the program prints text")
}

#[test]
fn replay_prints_readings_then_the_verdict() {
    let whole = log("write select 10
        write encoder 0 cnfg 1
        pins encoder 0 0
        pins encoder 0 1
        read encoder 0 cntr");
    assert_eq!(printed(&[], &whole), "1\napplied 5 refused 0\n");
}

#[test]
fn readings_before_a_refusal_are_printed() {
    let text = "read select\nwrite select 10\nread select\nread i2c go\nread select";
    assert_eq!(printed(&[], &log(text)), "0\n10\napplied 3 refused 7\n");
}

#[test]
fn lengths_of_input() {
    assert_eq!(printed(&[], b""), "applied 0 refused 2\n");
    assert_eq!(printed(&[], &log("")), "applied 0 refused 0\n");
    let reads = log(&format!(
        "note \"12345678\"\n{}",
        "read select\n".repeat(2_047)
    ));
    assert_eq!(reads.len(), 32_768);
    let wanted = "0\n".repeat(2_047) + "applied 2047 refused 0\n";
    assert_eq!(printed(&[], &reads), wanted);
    let too_long = [&[0], reads.as_slice()].concat();
    assert_eq!(printed(&[], &too_long), "applied 0 refused 1\n");
    assert_eq!(printed(&[], &[0; 100_000]), "applied 0 refused 1\n");
}

#[test]
fn transcripts_are_made_and_judged() {
    let text = "write select 10
        write encoder 0 cnfg 1
        pins encoder 0 0
        pins encoder 0 1
        read select
        read encoder 0 cntr";
    let counts = log(text);
    let file = std::env::temp_dir().join(format!("transcript-{}", std::process::id()));
    let judged = |transcript: &[u8], log: &[u8]| {
        std::fs::write(&file, transcript).expect("a file for the transcript");
        printed(&["judge", file.to_str().expect("a plain name")], log)
    };
    let right = program(&["transcript"], &counts).stdout;
    let negated = program(&["transcript", "negated"], &counts).stdout;
    assert_eq!(right, [10u64, 1].map(u64::to_le_bytes).concat());
    assert_eq!(negated[8..], 0xFFFF_FFFFu64.to_le_bytes());
    assert_eq!(judged(&right, &counts), "same\n");
    assert_eq!(judged(&negated, &counts), "negated\n");
    assert_eq!(judged(&right[8..], &counts), "refused 17\n");
    assert_eq!(judged(&[0; 16], &counts), "different 0\n");
    assert_eq!(judged(&[], &log("ticks 1")), "both\n");
    assert_eq!(judged(&right, &counts[1..]), "refused 5\n");
    std::fs::remove_file(&file).expect("the file is there");
}

#[test]
fn rates() {
    assert_eq!(
        printed(&["pwm", "610000", "4"], b""),
        "choice 2 x 32786 period 65574\n"
    );
    assert_eq!(printed(&["pwm", "610000", "3"], b""), "refused 14\n");
    assert_eq!(
        printed(&["spi", "3650000000", "86758"], b""),
        "choice 1 x 5 period 12\n"
    );
    assert_eq!(
        printed(&["pwm-rate", "1", "39999"], b""),
        "40000000 40000\n"
    );
    assert_eq!(printed(&["spi-rate", "1", "4"], b""), "40000000 10\n");
    assert_eq!(printed(&["spi-rate", "0", "4"], b""), "refused 15\n");
}

#[test]
fn what_is_not_understood_is_said() {
    for (arguments, words) in [
        (&["pwm", "x", "4"][..], "`x` is not a decimal number"),
        (&["pwm", "610", "+4"], "`+4` is not a decimal number"),
        (&["pwm", "610", "18446744073709551616"], "is not a decimal"),
        (&["pwm", "610"], "rvz-check pwm RATE TOL"),
        (&["help"], "rvz-check pwm RATE TOL"),
    ] {
        let output = program(arguments, b"");
        assert_eq!(output.status.code(), Some(2));
        assert!(output.stdout.is_empty());
        assert!(String::from_utf8_lossy(&output.stderr).contains(words));
    }
}

#[test]
fn text_and_back() {
    let made = program(&["generate", "5"], b"").stdout;
    let text = printed(&["to-text"], &made);
    assert_eq!(program(&["from-text"], text.as_bytes()).stdout, made);
    let refused = program(&["generate", "5", "30", "9", "100"], b"").stdout;
    assert!(printed(&["to-text"], &refused).lines().count() <= 60);
    assert!(!printed(&[], &refused).ends_with(" refused 0\n"));
    let wrong = program(&["from-text"], b"ticks 1\nticks");
    assert!(String::from_utf8_lossy(&wrong.stderr).starts_with("line 2: "));
}

#[test]
fn dump_and_the_way_back() {
    let whole = log("write select 10\nticks 2\npins encoder 0 2");
    let text = printed(&["dump"], &whole);
    assert!(text.ends_with("\n#50\n0A\n1B\n"), "{text}");
    let back = printed(&["dump-read"], text.as_bytes());
    assert_eq!(back, "50 bank 0 encoder 0 pins 2\n");
    assert_eq!(printed(&["dump-read"], b""), "refused 20\n");
    let refused = program(&["dump"], &log("pins encoder 0 2"));
    assert_eq!(
        (refused.stdout, refused.stderr),
        (vec![], b"refused 9\n".to_vec())
    );
}

/// The lines that docs/SIGN.md has for an example. No one log has all three.
#[test]
fn sign_prints_the_lines_of_its_document() {
    let text = "write select 0xAA
        write encoder 0 cnfg 1
        write encoder 1 cnfg 1
        pins encoder 0 0
        pins encoder 0 1
        pins encoder 1 2
        pins encoder 0 3";
    assert_eq!(
        printed(&["sign"], &log(text)),
        "bank 0 encoder 0: records 3 to 6, 3 pins, +2 steps, 0 double changes, travel +2 to +2: forward\n\
         bank 0 encoder 1: records 5 to 5, 1 pin, 0 steps, 0 double changes, travel 0 to 0: still\n\
         applied 7 refused 0\n"
    );
    let text = "ticks 1\nticks 1\nticks 1\nticks 1\nticks 1
        bank 1 write select 0xA0000
        bank 1 write encoder 4 cnfg 1
        bank 1 pins encoder 4 0
        bank 1 pins encoder 4 3
        bank 1 pins encoder 4 0
        bank 1 pins encoder 4 2
        bank 1 pins encoder 4 1";
    assert_eq!(
        printed(&["sign"], &log(&in_edition(2, text))),
        "bank 1 encoder 4: records 7 to 11, 5 pins, -1 step, 3 double changes, travel -7 to +5: \
         open, 6 steps short of a direction\napplied 12 refused 0\n"
    );
}

/// One and many, plus and minus, and 0 at either end of the travel; of a log that is refused, too.
#[test]
fn sign_counts_in_words() {
    let lines = |walk: &[u8], refused: &str| {
        let pins = walk.iter().map(|pins| format!("pins encoder 0 {pins}\n"));
        let pins: String = pins.collect();
        let text = format!("write select 10\nwrite encoder 0 cnfg 1\n{pins}{refused}");
        printed(&["sign"], &log(&text))
    };
    for (walk, wanted) in [
        (
            &[0, 1][..],
            "2 pins, +1 step, 0 double changes, travel +1 to +1: forward",
        ),
        (
            &[0, 2, 3, 1, 2],
            "5 pins, -3 steps, 1 double change, travel -5 to -1: backward",
        ),
        (
            &[0, 1, 3, 0],
            "4 pins, +2 steps, 1 double change, travel 0 to +4: open, 1 step short of a direction",
        ),
        (
            &[0, 2, 3, 0],
            "4 pins, -2 steps, 1 double change, travel -4 to 0: open, 1 step short of a direction",
        ),
        (
            &[0, 3, 2],
            "3 pins, +1 step, 1 double change, travel -1 to +3: open, 2 steps short of a direction",
        ),
        (
            &[1, 2],
            "2 pins, 0 steps, 1 double change, travel -2 to +2: open, 3 steps short of a direction",
        ),
        (
            &[0, 1, 1, 0],
            "4 pins, 0 steps, 0 double changes, travel 0 to 0: still",
        ),
    ] {
        let (last, applied) = (walk.len() + 1, walk.len() + 2);
        let line = format!("bank 0 encoder 0: records 2 to {last}, {wanted}\napplied {applied}");
        assert_eq!(lines(walk, ""), format!("{line} refused 0\n"));
        assert_eq!(
            lines(walk, "pins encoder 9 0"),
            format!("{line} refused 9\n")
        );
    }
    assert_eq!(lines(&[], ""), "applied 2 refused 0\n");
    assert_eq!(printed(&["sign"], b""), "applied 0 refused 2\n");
}
