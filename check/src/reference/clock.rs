//! The clock and its dividers, the same for PWM and SPI.

pub const CLOCK_HZ: u64 = 40_000_000;
/// In millihertz, as rates are asked for.
pub const CLOCK_MILLIHERTZ: u64 = 1_000 * CLOCK_HZ;

/// Divider choices 1 to 7 name these in order.
pub const DIVIDERS: [u64; 7] = [1, 2, 4, 8, 16, 32, 64];

/// The divider that a choice names: none for 0 and above 7.
pub fn divider(choice: u64) -> Option<u64> {
    let index = usize::try_from(choice.checked_sub(1)?).ok()?;
    DIVIDERS.get(index).copied()
}
