//! The four errors that people were seen to make: each test tells the wrong answer from the right.

use crate::common::readings;
use rivandoze_check::reference::find_spi;

#[test]
fn nearest_in_frequency_not_in_period() {
    // X 4 is 10 ticks, X 5 is 12; 40,000,000 / 3,650,000 is 10.96, nearer to 10.
    let x = find_spi(3_650_000_000, 1_000_000).map(|pair| pair.x);
    assert_eq!(x, Ok(5));
}

#[test]
fn first_pins_are_no_step() {
    for first in 0..4 {
        let text = format!(
            "write select 0xA
            write encoder 0 cnfg 1
            pins encoder 0 {first}
            read encoder 0 cntr
            read encoder 0 stat"
        );
        assert_eq!(readings(&text), [0, 0], "first pins {first}");
    }
}

#[test]
fn double_change_counts_nothing_in_either_direction() {
    for (step, after_step) in [(1, 1), (2, 4_294_967_295)] {
        let text = format!(
            "write select 0xA
            write encoder 0 cnfg 1
            pins encoder 0 0
            pins encoder 0 {step}
            read encoder 0 cntr
            pins encoder 0 {}
            read encoder 0 cntr",
            step ^ 3
        );
        assert_eq!(readings(&text), [after_step, after_step]);
    }
}

#[test]
fn err_is_cleared_on_the_rise_of_cerr_only() {
    let text = "write select 0xA
        write encoder 0 cnfg 9      # CERR is 1 from now on
        pins encoder 0 0
        pins encoder 0 3            # ERR
        read encoder 0 stat
        write encoder 0 cnfg 9      # stays 1: clears nothing
        read encoder 0 stat
        pins encoder 0 3
        read encoder 0 stat
        write encoder 0 cnfg 1      # falls: clears nothing
        read encoder 0 stat
        write encoder 0 cnfg 9      # rises
        read encoder 0 stat";
    assert_eq!(readings(text), [2, 2, 2, 2, 0]);
}

#[test]
fn overflows_are_cleared_on_the_rise_of_covr_only() {
    let text = "write select 0xA
        write encoder 0 cnfg 17     # COVR is 1 from now on
        pins encoder 0 0
        pins encoder 0 2            # from 0 down: UOVR, and DIR
        read encoder 0 stat
        write encoder 0 cnfg 17     # stays 1: clears nothing
        read encoder 0 stat
        pins encoder 0 0            # up to 0, again: UOERR
        read encoder 0 stat
        write encoder 0 cnfg 1      # falls: clears nothing
        read encoder 0 stat
        write encoder 0 cnfg 17     # rises
        read encoder 0 stat";
    assert_eq!(readings(text), [5, 5, 20, 20, 0]);
}
