//! Shrinking: what is left out, and that nothing is lost by it.

use crate::common::{assert_comes_up, in_edition, log, run, run_text};
use rivandoze_check::cases::{Size, SHRINK_FAMILIES};
use rivandoze_check::packed;
use rivandoze_check::reference::log::Log;
use rivandoze_check::reference::record::{Fields, PINS, TICKS};
use rivandoze_check::reference::refusal::Refusal;

fn shrink(log: &[u8]) -> Result<Vec<u8>, Refusal> {
    rivandoze_check::reference::shrink(log).map(|smaller| smaller.to_vec())
}

/// The log of these lines, behind which those stand that are left out, each marked by a minus.
fn leaves_out(edition: u16, marked: &str) {
    let lines = || marked.lines().map(str::trim);
    let whole: String = lines()
        .map(|line| format!("{}\n", line.trim_start_matches('-')))
        .collect();
    let left: String = lines()
        .filter(|line| !line.starts_with('-'))
        .map(|line| format!("{line}\n"))
        .collect();
    assert_eq!(
        run_text(&in_edition(edition, &whole)).refusal,
        0,
        "{marked}"
    );
    let smaller = shrink(&log(&in_edition(edition, &whole)));
    assert_eq!(smaller, Ok(log(&in_edition(edition, &left))), "{marked}");
}

#[test]
fn pins_that_say_the_same_again() {
    leaves_out(
        2,
        "note \"kept\"
        write select 0xAA
        write encoder 0 cnfg 1
        -ticks 0
        pins encoder 0 1
        -pins encoder 0 1
        pins encoder 1 1
        -pins encoder 0 1
        read encoder 0 cntr
        -pins encoder 0 1
        ticks 5
        -pins encoder 0 1
        -pins encoder 1 1
        pins encoder 0 3
        pins encoder 0 1
        -pins encoder 0 1",
    );
}

/// A write to its own CNFG or SELECT lies between, also one of the value that was there; one for another encoder or
/// bank does not count.
#[test]
fn writes_in_between() {
    leaves_out(
        2,
        "write select 0xAA
        bank 1 write select 0xAA
        write encoder 0 cnfg 1
        pins encoder 0 1
        write encoder 0 cnfg 1
        pins encoder 0 1
        write encoder 1 cnfg 1
        -pins encoder 0 1
        bank 1 write encoder 0 cnfg 1
        -pins encoder 0 1
        bank 1 write select 0xA
        -pins encoder 0 1
        write select 0xAA
        pins encoder 0 1
        bank 1 pins encoder 0 1
        -bank 1 pins encoder 0 1
        -pins encoder 0 1
        write select 0xA
        pins encoder 0 1
        -bank 1 pins encoder 0 1",
    );
    leaves_out(
        4,
        "bank 1 write select 0x20\nbank 1 pins encoder 0 2\n-bank 1 pins encoder 0 2",
    );
}

/// The log's own refusals, with nothing written; then 6 by the smaller log alone.
#[test]
fn refusals_of_shrinking() {
    let refused = log("write select 0xA\nread select\npins encoder 0 0\npins encoder 9 0");
    let mut out = [0xEE; 200];
    assert_eq!(packed::shrink(&refused, &mut out), 9);
    assert_eq!(packed::shrink(&refused, &mut []), 9);
    assert_eq!(packed::shrink(&[0; 7], &mut out), 2);
    assert_eq!(out, [0xEE; 200]);
    let good = log("read select\nticks 0\nticks 0");
    assert_eq!(packed::shrink(&good, &mut out[..23]), 6);
    assert_eq!(out, [0xEE; 200]);
    assert_eq!(packed::shrink(&good, &mut out[..24]), 24 << 8);
    assert_eq!(out[..24], log("read select"));
    assert_eq!(out[24..], [0xEE; 176]);
}

/// For every log that is asked for: the same edition and notes, the same readings, the same end state, nothing more
/// to leave out, and what is left out is what may be.
#[test]
fn nothing_is_lost() {
    let (mut shrunk, mut out) = (0, 0);
    for family in SHRINK_FAMILIES {
        for request in family.requests(4, Size::Short) {
            let whole = run(&request.log);
            let smaller = match shrink(&request.log) {
                Ok(smaller) => smaller,
                Err(refusal) => {
                    assert_eq!((refusal, refusal != 6), (whole.refusal, true));
                    continue;
                }
            };
            assert_eq!(whole.refusal, 0);
            let after = run(&smaller);
            assert_eq!((after.refusal, &after.readings), (0, &whole.readings));
            assert_eq!((&after.bank, &after.bank_b), (&whole.bank, &whole.bank_b));
            let [old, new] = [&request.log, &smaller].map(|log| Log::open(log).expect("a log"));
            assert_eq!((old.edition, old.notes), (new.edition, new.notes));
            assert_eq!(shrink(&smaller).as_ref(), Ok(&smaller));
            let mut left = new.records().peekable();
            for bytes in old.records() {
                if left.peek() == Some(&bytes) {
                    left.next();
                } else {
                    let record = Fields::from_bytes(bytes);
                    assert!(record.kind == PINS || (record.kind, record.value) == (TICKS, 0));
                    out += 1;
                }
            }
            assert_eq!(left.next(), None);
            shrunk += 1;
        }
    }
    assert!(shrunk > 5_000 && out > 50_000, "{shrunk} {out}");
}

#[test]
fn every_answer_and_every_place_of_shrinking_comes_up() {
    assert_comes_up(SHRINK_FAMILIES, (0..=11).chain([16, 18]));
}
