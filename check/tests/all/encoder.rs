use crate::common::{readings, run_text, walked};
use rivandoze_check::reference::encoder::{
    Encoder, CERR, COVR, DIR, EN, ERR, MODE, RST, SOERR, SOVR, UOERR, UOVR,
};

fn counting(cnfg: u8, seen: u8, count: i32) -> Encoder {
    Encoder {
        cnfg,
        stat: 0,
        count,
        seen: Some(seen),
    }
}

/// The count's move and ERR after one change of pins from a count of 100.
fn change(cnfg: u8, old: u8, new: u8) -> (i32, bool) {
    let mut encoder = counting(cnfg, old, 100);
    encoder.pins(new);
    assert_eq!(encoder.seen, Some(new));
    (encoder.count - 100, encoder.stat & ERR != 0)
}

#[test]
fn quadrature_by_all_sixteen_changes() {
    let still = (0, false);
    let (up, down, double) = ((1, false), (-1, false), (0, true));
    // Rows by old pins, columns by new pins; bit 0 is A.
    let wanted = [
        [still, up, down, double],
        [down, still, double, up],
        [up, double, still, down],
        [double, down, up, still],
    ];
    for (old, row) in wanted.iter().enumerate() {
        for (new, &move_and_err) in row.iter().enumerate() {
            assert_eq!(change(EN, old as u8, new as u8), move_and_err);
        }
    }
}

#[test]
fn step_and_direction_by_all_sixteen_changes() {
    let still = (0, false);
    let (up, down) = ((1, false), (-1, false));
    let wanted = [
        [still, up, still, down],
        [still, still, still, still],
        [still, up, still, down],
        [still, still, still, still],
    ];
    for (old, row) in wanted.iter().enumerate() {
        for (new, &move_and_err) in row.iter().enumerate() {
            assert_eq!(change(EN | MODE, old as u8, new as u8), move_and_err);
        }
    }
}

#[test]
fn direction_is_that_of_the_last_counted_step() {
    let mut encoder = counting(EN, 0, 100);
    let mut dir_after = |pins| {
        encoder.pins(pins);
        encoder.stat & DIR
    };
    assert_eq!(dir_after(2), DIR);
    assert_eq!(dir_after(2), DIR);
    assert_eq!(dir_after(1), DIR);
    assert_eq!(dir_after(3), 0);
    assert_eq!(dir_after(0), 0);
}

/// The four flags, and nothing else of STAT.
fn overflows(encoder: &Encoder) -> u8 {
    encoder.stat & (UOVR | SOVR | UOERR | SOERR)
}

#[test]
fn unsigned_overflow_in_both_directions() {
    let mut up = counting(EN, 2, -1);
    up.pins(0);
    assert_eq!((up.cntr(), up.stat), (0, UOVR));
    up.pins(2);
    assert_eq!((up.cntr(), up.stat), (4_294_967_295, UOVR | UOERR | DIR));

    let mut down = counting(EN, 0, 0);
    down.pins(2);
    assert_eq!((down.cntr(), down.stat), (4_294_967_295, UOVR | DIR));
    down.pins(0);
    assert_eq!((down.cntr(), down.stat), (0, UOVR | UOERR));
}

#[test]
fn signed_overflow_in_both_directions() {
    let mut up = counting(EN, 2, i32::MAX);
    up.pins(0);
    assert_eq!((up.count, up.stat), (i32::MIN, SOVR));
    assert_eq!(up.cntr(), 0x8000_0000);
    up.pins(2);
    assert_eq!((up.count, up.stat), (i32::MAX, SOVR | SOERR | DIR));

    let mut down = counting(EN, 0, i32::MIN);
    down.pins(2);
    assert_eq!((down.count, down.stat), (i32::MAX, SOVR | DIR));
    down.pins(0);
    assert_eq!((down.count, down.stat), (i32::MIN, SOVR | SOERR));
}

/// Pins that count one step, in quadrature or by step and direction, from pins of 0.
const UP: u8 = 1;
const DOWN_IN_QUADRATURE: u8 = 2;
const DOWN_BY_DIRECTION: u8 = 3;

#[test]
fn a_step_overflows_at_the_borders_alone() {
    let borders = [
        (-1, UP, UOVR),
        (i32::MAX, UP, SOVR),
        (0, DOWN_IN_QUADRATURE, UOVR),
        (i32::MIN, DOWN_IN_QUADRATURE, SOVR),
    ];
    let near = [
        0,
        1,
        2,
        -1,
        -2,
        -3,
        i32::MAX,
        i32::MAX - 1,
        i32::MIN,
        i32::MIN + 1,
    ];
    for count in near {
        for pins in [UP, DOWN_IN_QUADRATURE] {
            let mut encoder = counting(EN, 0, count);
            encoder.pins(pins);
            let border = borders
                .iter()
                .find(|border| (border.0, border.1) == (count, pins));
            let wanted = border.map_or(0, |border| border.2);
            assert_eq!(overflows(&encoder), wanted, "from {count} by pins {pins}");
        }
    }
}

/// The first flag stays, and it makes no difference which way it was set.
#[test]
fn again_in_any_direction() {
    for (border, below, first, again) in [(0, -1, UOVR, UOERR), (i32::MIN, i32::MAX, SOVR, SOERR)] {
        for (count, pins) in [(below, UP), (border, DOWN_IN_QUADRATURE)] {
            let mut encoder = counting(EN, 0, count);
            encoder.stat = first;
            encoder.pins(pins);
            assert_eq!(overflows(&encoder), first | again, "from {count}");
        }
        // The other border's flag is no first one.
        let mut encoder = counting(EN, 0, border);
        encoder.stat = (UOVR | SOVR) & !first;
        encoder.pins(DOWN_IN_QUADRATURE);
        assert_eq!(overflows(&encoder), UOVR | SOVR);
    }
}

#[test]
fn overflow_in_step_and_direction_too() {
    for (count, pins, flag) in [
        (-1, UP, UOVR),
        (i32::MAX, UP, SOVR),
        (0, DOWN_BY_DIRECTION, UOVR),
        (i32::MIN, DOWN_BY_DIRECTION, SOVR),
    ] {
        let mut encoder = counting(EN | MODE, 0, count);
        encoder.pins(pins);
        assert_eq!(overflows(&encoder), flag, "from {count}");
    }
}

#[test]
fn homed_below_zero() {
    let text = "write select 0xA
        write encoder 0 cnfg 1
        pins encoder 0 0
        pins encoder 0 2            # from 0 down: UOVR, and DIR
        read encoder 0 cntr
        read encoder 0 stat
        pins encoder 0 3
        read encoder 0 stat
        pins encoder 0 2
        pins encoder 0 0            # up to 0 again: UOERR
        read encoder 0 stat
        write encoder 0 cnfg 17     # COVR
        read encoder 0 stat
        pins encoder 0 2            # down once more
        read encoder 0 stat";
    assert_eq!(readings(text), [4_294_967_295, 5, 5, 20, 0, 5]);
}

#[test]
fn each_clear_bit_clears_its_own_flags() {
    let all = DIR | ERR | UOVR | SOVR | UOERR | SOERR;
    let after = |cnfg| {
        let mut encoder = counting(EN, 0, 7);
        encoder.stat = all;
        encoder.write_cnfg(cnfg);
        assert_eq!(encoder.count, if cnfg & RST == 0 { 7 } else { 0 });
        assert_eq!(encoder.seen, Some(0));
        encoder.stat
    };
    assert_eq!(after(EN | CERR), all & !ERR);
    assert_eq!(after(EN | COVR), DIR | ERR);
    assert_eq!(after(EN | RST), all);
    assert_eq!(after(EN), all);
}

#[test]
fn reset_holds_the_count_and_stores_the_pins() {
    let text = "write select 0xA
        write encoder 0 cnfg 1
        pins encoder 0 0
        pins encoder 0 1
        write encoder 0 cnfg 3
        read encoder 0 cntr
        pins encoder 0 3
        pins encoder 0 0            # a double change under reset is no error
        read encoder 0 cntr
        read encoder 0 stat
        write encoder 0 cnfg 1      # EN and MODE as before: the pins stay seen
        pins encoder 0 1
        read encoder 0 cntr";
    assert_eq!(readings(text), [0, 0, 0, 1]);
}

#[test]
fn first_pins_under_reset_are_seen() {
    let text = "write select 0xA
        write encoder 0 cnfg 3
        pins encoder 0 0
        write encoder 0 cnfg 1
        pins encoder 0 1
        read encoder 0 cntr";
    assert_eq!(readings(text), [1]);
}

#[test]
fn reset_clears_the_count_of_a_disabled_encoder() {
    let text = "write select 0xA
        write encoder 0 cnfg 1
        pins encoder 0 0
        pins encoder 0 2
        write encoder 0 cnfg 0
        read encoder 0 cntr
        write encoder 0 cnfg 2
        read encoder 0 cntr
        read encoder 0 stat";
    assert_eq!(readings(text), [4_294_967_295, 0, 5]);
}

#[test]
fn pins_of_a_disabled_encoder_change_nothing() {
    let before = "write select 0xA\nwrite encoder 0 cnfg 0\n";
    let after = format!("{before}pins encoder 0 1\npins encoder 0 3\n");
    assert_eq!(run_text(before).bank, run_text(&after).bank);
}

#[test]
fn a_change_of_enable_or_mode_makes_the_pins_unseen() {
    for (between, wanted) in [("0", 0), ("5", 0), ("1", 1), ("9", 1), ("17", 1)] {
        let text = format!(
            "write select 0xA
            write encoder 0 cnfg 1
            pins encoder 0 0
            write encoder 0 cnfg {between}
            write encoder 0 cnfg 1
            pins encoder 0 1
            read encoder 0 cntr"
        );
        assert_eq!(readings(&text), [wanted], "CNFG {between} between");
    }
}

#[test]
fn newly_routed_is_unseen_and_still_routed_is_not() {
    // Kept; kept beside another change; routed away and back.
    for (select, wanted) in [("0xA", 1), ("0xAA", 1), ("0xA0", 0), ("0", 0), ("5", 0)] {
        let text = format!(
            "write select 0xA
            write encoder 0 cnfg 1
            pins encoder 0 0
            write select {select}
            write select 0xA
            pins encoder 0 1
            read encoder 0 cntr"
        );
        assert_eq!(readings(&text), [wanted], "SELECT {select} between");
    }
}

#[test]
fn an_unrouted_encoder_keeps_everything_readable() {
    let text = "write select 0xA
        write encoder 0 cnfg 1
        pins encoder 0 0
        pins encoder 0 2
        pins encoder 0 1
        write select 0
        read encoder 0 cnfg
        read encoder 0 stat
        read encoder 0 cntr
        write select 0xA
        read encoder 0 cnfg
        read encoder 0 stat
        read encoder 0 cntr";
    let kept = [1, 7, 4_294_967_295];
    assert_eq!(readings(text), [kept, kept].concat());
}

#[test]
fn counting_goes_on_after_a_double_change() {
    assert_eq!(walked(&[0, 3, 2]), [1, 2]);
}

#[test]
fn err_survives_a_change_to_step_and_direction() {
    let text = "write select 0xA
        write encoder 0 cnfg 1
        pins encoder 0 0
        pins encoder 0 3
        write encoder 0 cnfg 5
        pins encoder 0 0
        pins encoder 0 3            # counts down, sets no ERR of its own
        read encoder 0 cntr
        read encoder 0 stat";
    assert_eq!(readings(text), [4_294_967_295, 7]);
}

#[test]
fn encoders_do_not_touch_each_other() {
    let text = "write select 0xAAAAAAAAAA
        write encoder 3 cnfg 1
        write encoder 9 cnfg 1
        pins encoder 3 0
        pins encoder 9 0
        pins encoder 3 1
        pins encoder 9 2
        pins encoder 9 3";
    let bank = run_text(text).bank;
    for (channel, encoder) in bank.encoders.iter().enumerate() {
        let wanted = match channel {
            3 => 1,
            9 => -2,
            _ => 0,
        };
        assert_eq!(encoder.count, wanted, "encoder {channel}");
    }
}
