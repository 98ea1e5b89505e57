use rivandoze_check::generate::Rng;
use rivandoze_check::reference::select::{Functions, Select};

fn function(select: u64, pin: usize) -> u64 {
    (select >> (2 * pin)) & 3
}

/// Pin by pin, as paper 01 lists it.
fn allowed(select: u64) -> bool {
    let is = |wanted: u64| move |pin: &usize| function(select, *pin) == wanted;
    let stray = (0..20)
        .filter(is(3))
        .any(|pin| ![5, 6, 7, 14, 15].contains(&pin));
    let spi = [5, 6, 7].iter().filter(|pin| is(3)(pin)).count();
    let i2c = [14, 15].iter().filter(|pin| is(3)(pin)).count();
    let half_pair = (0..10).any(|i| is(2)(&(2 * i)) != is(2)(&(2 * i + 1)));
    !stray && [0, 3].contains(&spi) && [0, 2].contains(&i2c) && !half_pair
}

fn assert_same(value: u64) {
    assert_eq!(Functions(value).allowed(), allowed(value), "{value:#x}");
    let select = match Select::of_bank(value) {
        Ok(select) => select,
        Err(refusal) => {
            assert_eq!((refusal, allowed(value)), (10, false), "{value:#x}");
            return;
        }
    };
    assert_eq!((select, select.value), (Select::routed_by(value), value));
    for i in 0..10 {
        let pair = function(value, 2 * i) == 2 && function(value, 2 * i + 1) == 2;
        assert_eq!(select.encoder_routed(i), pair, "encoder {i} in {value:#x}");
    }
    for i in 0..20 {
        let one = function(value, i) == 1;
        assert_eq!(select.pwm_routed(i), one, "PWM {i} in {value:#x}");
    }
    let pwms: Vec<bool> = (0..20).map(|i| select.pwm_routed(i)).collect();
    let up_to_the_last = pwms.iter().rposition(|&routed| routed).map_or(0, |i| i + 1);
    assert!(
        select.pwms().eq(pwms[..up_to_the_last].iter().copied()),
        "{value:#x}"
    );
    let encoders: Vec<usize> = (0..10).filter(|&i| select.encoder_routed(i)).collect();
    let newly = select.newly_routed_encoders(Select::default());
    assert_eq!(newly.collect::<Vec<_>>(), encoders);
    assert_eq!(select.newly_routed_encoders(select).count(), 0);
    let serial = function(value, 14) == 3 && function(value, 15) == 3;
    assert_eq!(select.i2c_routed(), serial, "I2C in {value:#x}");
}

#[test]
fn every_pair_of_pins_and_every_serial_group() {
    for pair in 0..10 {
        for value in 0..16 {
            assert_same(value << (4 * pair));
        }
    }
    for value in 0..256 {
        assert_same(value << 8);
    }
}

#[test]
fn allowed_values_and_all_that_are_one_bit_away() {
    let mut rng = Rng::new(5);
    for _ in 0..3_000 {
        let mut value = 0;
        for pair in 0..10 {
            value |= rng.pick(&[0, 1, 4, 5, 10]) << (4 * pair);
        }
        if rng.chance(50) {
            value = value & !0xFF00 | 0xFC00 | rng.below(2) << 8;
        }
        if rng.chance(50) {
            value |= 0xF000_0000;
        }
        assert!(Functions(value).allowed(), "{value:#x}");
        assert_same(value);
        for bit in 0..40 {
            assert_same(value ^ 1 << bit);
        }
    }
}

#[test]
fn any_value() {
    let mut rng = Rng::new(6);
    for _ in 0..100_000 {
        assert_same(rng.draw() >> 24);
    }
}

/// Bit 7 I2C, 6 reserved, 5 the encoder, 4 to 2 PWM 2 to 0, 1 and 0 SPI, which is free; nothing above.
#[test]
fn every_byte_of_a_port() {
    for value in 0..=255_u64 {
        let bit = |place: u32| value >> place & 1 == 1;
        let select = match Select::of_port(value) {
            Ok(select) => select,
            Err(refusal) => {
                assert_eq!((refusal, bit(6)), (8, true), "{value:#x}");
                continue;
            }
        };
        assert!(!bit(6), "{value:#x}");
        assert_eq!(select.value, value);
        assert_eq!(select.i2c_routed(), bit(7), "{value:#x}");
        assert_eq!(select.encoder_routed(0), bit(5), "{value:#x}");
        assert!((1..10).all(|channel| !select.encoder_routed(channel)));
        for channel in 0..3 {
            assert_eq!(
                select.pwm_routed(channel),
                bit(2 + channel as u32),
                "{value:#x}"
            );
        }
        assert!((3..20).all(|channel| !select.pwm_routed(channel)));
        let newly = select.newly_routed_encoders(Select::default());
        assert_eq!(
            newly.collect::<Vec<_>>(),
            if bit(5) { vec![0] } else { vec![] }
        );
    }
    for bit in 8..64 {
        assert_eq!(Select::of_port(1 << bit), Err(8));
        assert_eq!(Select::of_port(1 << bit | 0x20), Err(8));
    }
    assert_eq!(Select::of_port(u64::MAX), Err(8));
}
