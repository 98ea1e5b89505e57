//! The sums to check by hand, each.

use crate::common::{in_edition, log, readings, run, run_text, walked};
use rivandoze_check::reference::{
    brute_pwm, brute_spi, find_pwm, find_spi, rate_pwm, rate_spi, replay, Answer, Bank, Pair,
};

const WHOLE_LOG: [u8; 88] = [
    0x01, 0, 0, 0, 0, 0, 0, 0, 0x0A, 0, 0, 0, 0, 0, 0, 0, //
    0x01, 1, 0, 0, 0, 0, 0, 0, 0x01, 0, 0, 0, 0, 0, 0, 0, //
    0x03, 1, 0, 0, 0, 0, 0, 0, 0x00, 0, 0, 0, 0, 0, 0, 0, //
    0x03, 1, 0, 0, 0, 0, 0, 0, 0x01, 0, 0, 0, 0, 0, 0, 0, //
    0x02, 1, 0, 2, 0, 0, 0, 0, 0x00, 0, 0, 0, 0, 0, 0, 0, //
    0x50, 0, 0, 0, 1, 0, 0x51, 0x4D,
];

fn pair(choice: u8, x: u16, period: u64) -> Result<Pair, u8> {
    Ok(Pair { choice, x, period })
}

#[test]
fn pwm_rates() {
    for find in [find_pwm, brute_pwm] {
        assert_eq!(find(1_000_000, 0), pair(1, 39_999, 40_000));
        assert_eq!(find(40_000, 0), pair(5, 62_499, 1_000_000));
        assert_eq!(find(39_000, 0), Err(12));
        assert_eq!(find(40_001_000, 0), Err(12));
        assert_eq!(find(610_000, 3), Err(14));
        assert_eq!(find(610_000, 4), pair(2, 32_786, 65_574));
    }
}

#[test]
fn spi_rates() {
    for find in [find_spi, brute_spi] {
        assert_eq!(find(4_000_000_000, 0), pair(1, 4, 10));
        assert_eq!(find(40_000, 0), pair(4, 62_499, 1_000_000));
        assert_eq!(find(3_650_000_000, 86_757), Err(14));
        assert_eq!(find(3_650_000_000, 86_758), pair(1, 5, 12));
    }
}

/// The period of 40.125 Hz is 996,884.7 ticks, and every sixteenth is one of N 16.
#[test]
fn the_rate_of_the_lock_in() {
    for find in [find_pwm, brute_pwm] {
        assert_eq!(find(40_125, 5), pair(5, 62_304, 996_880));
        assert_eq!(find(40_125, 4), Err(14));
    }
}

#[test]
fn rates_of_the_found_pairs() {
    assert_eq!(rate_pwm(1, 39_999), Ok((40_000_000, 40_000)));
    assert_eq!(rate_pwm(5, 62_499), Ok((40_000_000, 1_000_000)));
    assert_eq!(rate_spi(1, 4), Ok((40_000_000, 10)));
    assert_eq!(rate_spi(4, 62_499), Ok((40_000_000, 1_000_000)));
}

#[test]
fn rates_from_registers_have_no_range() {
    assert_eq!(rate_pwm(1, 0), Ok((40_000_000, 1)));
    assert_eq!(rate_pwm(7, 65_535), Ok((40_000_000, 4_194_304)));
    assert_eq!(rate_spi(1, 0), Ok((40_000_000, 2)));
    assert_eq!(rate_spi(7, 65_535), Ok((40_000_000, 8_388_608)));
}

#[test]
fn four_places_forward() {
    assert_eq!(walked(&[0, 1, 3, 2, 0]), [4, 0]);
}

/// Below 0: DIR and UOVR.
#[test]
fn four_places_back() {
    assert_eq!(walked(&[0, 2, 3, 1, 0]), [4_294_967_292, 5]);
}

#[test]
fn double_change() {
    assert_eq!(walked(&[0, 3]), [0, 2]);
}

#[test]
fn five_ticks_of_pwm() {
    let text = "write select 1
        write pwm 0 cs 1
        write pwm 0 cnfg 4
        write pwm 0 max 3
        write pwm 0 cmp 2
        ticks 5
        read pwm 0 cntr
        read pwm 0 level";
    assert_eq!(readings(text), [1, 1]);
}

#[test]
fn five_ticks_by_two() {
    let text = "write select 1
        write pwm 0 cnfg 4
        write pwm 0 max 3
        write pwm 0 cmp 2
        write pwm 0 cs 2
        ticks 5";
    let pwm = &run_text(text).bank.pwms[0];
    assert_eq!((pwm.counter, pwm.remainder), (2, 1));
}

/// MAX 3 under a counter of 5: edition 1 is at 0 after one step; edition 2 after 65,531, and one round of 4
/// later again.
#[test]
fn a_counter_above_max() {
    let text = |ticks: u32| {
        format!(
            "write select 1
            write pwm 0 cs 1
            write pwm 0 cnfg 4
            write pwm 0 max 9
            ticks 5
            write pwm 0 max 3
            write pwm 0 cmp 2
            ticks {ticks}
            read pwm 0 cntr
            read pwm 0 level"
        )
    };
    let by = |edition, ticks| readings(&in_edition(edition, &text(ticks)));
    assert_eq!(by(1, 1), [0, 1]);
    assert_eq!(by(2, 1), [6, 0]);
    assert_eq!(by(2, 65_530), [65_535, 0]);
    assert_eq!(by(2, 65_531), [0, 1]);
    assert_eq!(by(2, 65_533), [2, 0]);
    assert_eq!(by(2, 65_535), [0, 1]);
}

/// MODE 1 counts in editions 1 and 2 as it did, and is 18 in edition 3, which is otherwise edition 2: bank B, kind
/// 5, and a counter that runs on.
#[test]
fn step_and_direction_goes() {
    let text = "write select 0xA
        write encoder 0 cnfg 5
        pins encoder 0 0
        pins encoder 0 1
        read encoder 0 cntr";
    assert_eq!(readings(text), [1]);
    assert_eq!(readings(&in_edition(2, text)), [1]);
    let gone = run_text(&in_edition(3, text));
    assert_eq!((gone.refusal, gone.applied), (18, 1));
    let unrouted = run_text(&in_edition(3, "write encoder 0 cnfg 5"));
    assert_eq!((unrouted.refusal, unrouted.applied), (9, 0));
    let too_much = run_text(&in_edition(3, "write encoder 0 cnfg 36"));
    assert_eq!((too_much.refusal, too_much.applied), (8, 0));
    let rest = "bank 1 write select 0xF0000001
        bank 1 answer i2c 0
        bank 1 write i2c cntl 3
        bank 1 write i2c go 1
        bank 1 read i2c failure
        bank 1 write pwm 0 cs 1
        bank 1 write pwm 0 cnfg 4
        bank 1 write pwm 0 max 9
        ticks 5
        bank 1 write pwm 0 max 3
        ticks 1
        bank 1 read pwm 0 cntr";
    assert_eq!(readings(&in_edition(3, rest)), [1, 6]);
}

/// A myRIO's port: bit 5 its encoder, bits 4 to 2 its PWM channels, bit 7 I2C, which count, tick and talk as in
/// edition 2; higher channels are 7, bit 6 and numbers above 255 are 8, and nothing is 10.
#[test]
fn a_port_of_a_myrio() {
    let text = "write select 0x20
        write encoder 0 cnfg 1
        pins encoder 0 0
        pins encoder 0 1
        read encoder 0 cntr
        bank 1 write select 0x24
        bank 1 write encoder 0 cnfg 5
        bank 1 pins encoder 0 0
        bank 1 pins encoder 0 3
        bank 1 read encoder 0 cntr
        bank 1 write pwm 0 cs 1
        bank 1 write pwm 0 cnfg 4
        bank 1 write pwm 0 max 9
        ticks 5
        bank 1 write pwm 0 max 3
        ticks 1
        bank 1 read pwm 0 cntr
        write select 0x80
        answer i2c 1
        write i2c cntl 3
        write i2c go 1
        read i2c failure
        read i2c state
        read select";
    let wanted = [1, 4_294_967_295, 6, 2, 1, 0x80];
    assert_eq!(readings(&in_edition(4, text)), wanted);
    let refusal = |text: &str| run_text(&in_edition(4, text)).refusal;
    let routed = "write select 0xBC\n";
    for (line, wanted) in [
        ("write encoder 1 cnfg 1", 7),
        ("read encoder 1 cntr", 7),
        ("pins encoder 1 0", 7),
        ("write pwm 3 cs 1", 7),
        ("read pwm 3 cs", 7),
        ("write pwm 2 cs 1", 0),
        ("pins encoder 0 4", 8),
        ("write select 0x40", 8),
        ("write select 0x100", 8),
        ("write select 0xAAAAAAAAAA", 8),
        ("bank 2 write select 0", 7),
        ("bank 1 ticks 1", 7),
        ("bank 1 write encoder 0 cnfg 1", 9),
        ("bank 1 pins encoder 0 1", 9),
    ] {
        assert_eq!(refusal(&format!("{routed}{line}")), wanted, "{line}");
    }
    for spi in 0..4 {
        assert_eq!(refusal(&format!("write select {spi}")), 0);
    }
    assert_eq!(run_text(&in_edition(5, "")).refusal, 4);
}

#[test]
fn log_lengths() {
    assert_eq!(run(&[0; 7]).refusal, 2);
    assert_eq!(run(&[0; 32_769]).refusal, 1);
    let bare = [0, 0, 0, 0, 1, 0, 0x51, 0x4D];
    let run = run(&bare);
    assert_eq!((run.refusal, run.applied), (0, 0));
    assert_eq!(run.bank, Bank::default());
}

#[test]
fn whole_log() {
    let mut out = [0x77; 24];
    let answer = replay(&WHOLE_LOG, &mut out);
    let wanted = Answer {
        refusal: 0,
        applied: 5,
    };
    assert_eq!(answer, wanted);
    assert_eq!(out[..8], [1, 0, 0, 0, 0, 0, 0, 0]);
    assert_eq!(out[8..], [0x77; 16]);
}

#[test]
fn whole_log_in_words() {
    let text = "write select 10
        write encoder 0 cnfg 1
        pins encoder 0 0
        pins encoder 0 1
        read encoder 0 cntr";
    assert_eq!(log(text), WHOLE_LOG);
}

#[test]
fn fresh_state_reads_as_zero() {
    let mut text = String::from("read select\nread i2c addr\nread i2c cntl\nread i2c state\n");
    for channel in 0..10 {
        for register in ["cnfg", "stat", "cntr"] {
            text += &format!("read encoder {channel} {register}\n");
        }
    }
    for channel in 0..20 {
        for register in ["cnfg", "cs", "max", "cmp", "cntr", "level"] {
            text += &format!("read pwm {channel} {register}\n");
        }
    }
    assert_eq!(readings(&text), [0; 4 + 30 + 120]);
}

#[test]
fn written_registers_read_back() {
    let text = "write select 0xF00000A5
        write encoder 1 cnfg 31
        write pwm 1 cnfg 5
        write pwm 1 cs 7
        write pwm 1 max 65535
        write pwm 1 cmp 65534
        write i2c addr 255
        write i2c cntl 15
        read select
        read encoder 1 cnfg
        read pwm 1 cnfg
        read pwm 1 cs
        read pwm 1 max
        read pwm 1 cmp
        read i2c addr
        read i2c cntl";
    let wanted = [0xF000_00A5, 31, 5, 7, 65_535, 65_534, 255, 15];
    assert_eq!(readings(text), wanted);
}
