//! The rules of paper 01, a bank, its log and its rates, and of what paper 02 adds to them.

pub mod bank;
pub mod brute;
pub mod clock;
pub mod device;
pub mod dump;
pub mod dump_read;
pub mod edition;
pub mod encoder;
pub mod i2c;
pub mod judge;
pub mod log;
pub mod pwm;
pub mod rate;
pub mod record;
pub mod refusal;
pub mod select;
pub mod shrink;
pub mod sign;
pub mod stream;
pub mod writer;

pub use bank::Bank;
pub use brute::{brute_pwm, brute_spi};
pub use device::Device;
pub use dump::dump;
pub use dump_read::dump_read;
pub use edition::{Edition, EDITIONS};
pub use judge::{judge, Verdict};
pub use log::{replay, replay_fully, Answer, Outcome};
pub use rate::{find_pwm, find_spi, rate_pwm, rate_spi, Pair};
pub use shrink::shrink;
pub use sign::sign;
pub use stream::Stream;
pub use writer::write;
