//! The independent second program of Rivandoze: the rules of papers 01 and 02 in plain Rust.
//!
//! `reference` holds the rules, `packed` the same answers as single numbers, `text` a written form
//! of logs, `generate` a seeded maker of logs, `cases` what the library is asked in a comparison,
//! `exchange` the way in which it is asked and answers, `script` what is asked of a stream.

pub mod cases;
pub mod exchange;
pub mod generate;
pub mod packed;
pub mod reference;
pub mod script;
pub mod text;
