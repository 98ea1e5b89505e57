//! The numbers of refusal, each with its reason.

pub type Refusal = u8;

/// Not refused.
pub const NONE: Refusal = 0;
/// The log has more than 32,768 bytes.
pub const LOG_TOO_LONG: Refusal = 1;
/// The log has fewer than 8 bytes.
pub const LOG_TOO_SHORT: Refusal = 2;
/// The mark is not 51 4D.
pub const MARK_WRONG: Refusal = 3;
/// There is no such edition.
pub const EDITION_UNKNOWN: Refusal = 4;
/// The distance is no multiple of 16, or reaches back beyond the first byte.
pub const DISTANCE_WRONG: Refusal = 5;
/// The records that begin with byte 2 need more output than was lent.
pub const OUTPUT_TOO_SHORT: Refusal = 6;
/// The record names nothing that is listed, has a reserved byte, or is a read with a value.
pub const RECORD_UNKNOWN: Refusal = 7;
/// The value is outside the range of the register or of the record.
pub const VALUE_OUT_OF_RANGE: Refusal = 8;
/// A write or pins for a channel that is not routed.
pub const NOT_ROUTED: Refusal = 9;
/// This combination of pin functions is not allowed.
pub const SELECT_NOT_ALLOWED: Refusal = 10;
/// GO with a control code that is not allowed.
pub const GO_NOT_ALLOWED: Refusal = 11;
/// The wanted rate is out of range.
pub const RATE_OUT_OF_RANGE: Refusal = 12;
/// The tolerance is above 1,000,000.
pub const TOLERANCE_TOO_WIDE: Refusal = 13;
/// No pair lies within the tolerance.
pub const NO_PAIR: Refusal = 14;
/// The divider choice is 0 or above 7, or X is above 65,535.
pub const REGISTERS_OUT_OF_RANGE: Refusal = 15;
/// GO with STOP alone after a byte that was received and acknowledged.
pub const STOP_AFTER_ACK: Refusal = 16;
/// A transcript has another length than the readings.
pub const TRANSCRIPT_LENGTH_WRONG: Refusal = 17;
/// An encoder's CNFG with MODE 1, where there is only quadrature.
pub const MODE_GONE: Refusal = 18;

/// Bytes that are no state of a stream.
pub const NO_STATE: Refusal = 19;
/// A text that is none of the dump's.
pub const NO_DUMP: Refusal = 20;

pub fn check(holds: bool, refusal: Refusal) -> Result<(), Refusal> {
    if holds {
        Ok(())
    } else {
        Err(refusal)
    }
}
