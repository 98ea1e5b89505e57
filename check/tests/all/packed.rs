use crate::common::log;
use rivandoze_check::packed;

#[test]
fn replay_has_the_refusal_below_the_records_applied() {
    let mut out = [0; 8];
    assert_eq!(
        packed::replay(&log("read select\nticks 1"), &mut out),
        2 << 8
    );
    assert_eq!(
        packed::replay(&log("ticks 1\nwrite select 3"), &mut out),
        1 << 8 | 10
    );
    assert_eq!(packed::replay(&[], &mut out), 2);
}

#[test]
fn a_pair_has_choice_x_and_period_in_their_places() {
    assert_eq!(
        packed::find_pwm(40_000, 0),
        5 << 8 | 62_499 << 16 | 1_000_000 << 32
    );
    assert_eq!(
        packed::find_spi(4_000_000_000, 0),
        1 << 8 | 4 << 16 | 10 << 32
    );
    assert_eq!(packed::find_pwm(39_999, 0), 12);
    assert_eq!(packed::find_spi(3_650_000_000, 86_757), 14);
}

#[test]
fn a_rate_has_period_and_clock_in_their_places() {
    assert_eq!(
        packed::rate_pwm(7, 65_535),
        4_194_304 << 8 | 40_000_000 << 32
    );
    assert_eq!(
        packed::rate_spi(7, 65_535),
        8_388_608 << 8 | 40_000_000 << 32
    );
    assert_eq!(packed::rate_pwm(8, 0), 15);
    assert_eq!(packed::rate_spi(1, 65_536), 15);
}
