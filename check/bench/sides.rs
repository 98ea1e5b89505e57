//! The calls of the library, and the same of the second program.

use rivandoze_check::packed;
use rivandoze_check::reference::Stream;

extern "C" {
    fn rvz_replay(log: *const u8, log_len: usize, out: *mut u8, out_len: usize) -> u64;
    fn rvz_judge(log: *const u8, log_len: usize, script: *const u8, script_len: usize) -> u64;
    fn rvz_write(
        edition: u64,
        notes: *const u8,
        notes_len: usize,
        records: *const u8,
        records_len: usize,
        out: *mut u8,
        out_len: usize,
    ) -> u64;
    fn rvz_shrink(log: *const u8, log_len: usize, out: *mut u8, out_len: usize) -> u64;
    fn rvz_dump(log: *const u8, log_len: usize, out: *mut u8, out_len: usize) -> u64;
    fn rvz_sign(log: *const u8, log_len: usize, out: *mut u8, out_len: usize) -> u64;
    fn rvz_find_pwm(rate: u64, tolerance: u64) -> u64;
    fn rvz_find_spi(rate: u64, tolerance: u64) -> u64;
}
extern "C" {
    fn rvz_stream_start(edition: u64, state: *mut u8, state_len: usize) -> u64;
    fn rvz_stream_chunk(
        state: *mut u8,
        state_len: usize,
        chunk: *const u8,
        chunk_len: usize,
        out: *mut u8,
        out_len: usize,
    ) -> u64;
    fn rvz_stream_end(state: *const u8, state_len: usize) -> u64;
    fn rvz_stream_applied(state: *const u8, state_len: usize) -> u64;
}

#[derive(Clone, Copy)]
pub struct Side {
    pub replay: fn(&[u8], &mut [u8]) -> u64,
    pub judge: fn(&[u8], &[u8]) -> u64,
    /// By an edition, notes and records.
    pub write: fn(u64, &[u8], &[u8], &mut [u8]) -> u64,
    pub shrink: fn(&[u8], &mut [u8]) -> u64,
    pub dump: fn(&[u8], &mut [u8]) -> u64,
    pub sign: fn(&[u8], &mut [u8]) -> u64,
    pub find_pwm: fn(u64, u64) -> u64,
    pub find_spi: fn(u64, u64) -> u64,
    /// The applied number of a run of these records, in chunks of so many bytes, without a refusal. The bytes for a state
    /// are the library's.
    pub stream: fn(u64, &[u8], usize, &mut [u8], &mut [u8]) -> u64,
}

/// A call of a log and an output.
macro_rules! on_log {
    ($call:ident) => {
        // SAFETY: both slices are whole, apart and never null.
        |log, out| unsafe { $call(log.as_ptr(), log.len(), out.as_mut_ptr(), out.len()) }
    };
}

pub const LIBRARY: Side = Side {
    replay: on_log!(rvz_replay),
    // SAFETY: both slices are whole and never null.
    judge: |log, script| unsafe {
        rvz_judge(log.as_ptr(), log.len(), script.as_ptr(), script.len())
    },
    // SAFETY: all slices are whole and never null, and the output is apart.
    write: |edition, notes, records, out| unsafe {
        rvz_write(
            edition,
            notes.as_ptr(),
            notes.len(),
            records.as_ptr(),
            records.len(),
            out.as_mut_ptr(),
            out.len(),
        )
    },
    shrink: on_log!(rvz_shrink),
    dump: on_log!(rvz_dump),
    sign: on_log!(rvz_sign),
    // SAFETY: numbers only.
    find_pwm: |rate, tolerance| unsafe { rvz_find_pwm(rate, tolerance) },
    find_spi: |rate, tolerance| unsafe { rvz_find_spi(rate, tolerance) },
    stream: |edition, records, chunk, state, mut out| {
        let (state, len) = (state.as_mut_ptr(), state.len());
        // SAFETY: all slices are whole, apart and never null, here and below.
        assert_eq!(unsafe { rvz_stream_start(edition, state, len) }, 0);
        for chunk in records.chunks(chunk) {
            let (chunk, chunk_len) = (chunk.as_ptr(), chunk.len());
            let word = unsafe {
                rvz_stream_chunk(state, len, chunk, chunk_len, out.as_mut_ptr(), out.len())
            };
            assert_eq!(word & 0xFF, 0);
            out = &mut out[8 * (word >> 8) as usize..];
        }
        assert_eq!(unsafe { rvz_stream_end(state, len) }, 0);
        unsafe { rvz_stream_applied(state, len) }
    },
};

pub const SECOND: Side = Side {
    replay: packed::replay,
    judge: packed::judge,
    write: packed::write,
    shrink: packed::shrink,
    dump: packed::dump,
    sign: packed::sign,
    find_pwm: packed::find_pwm,
    find_spi: packed::find_spi,
    stream: |edition, records, chunk, _, mut out| {
        let mut stream = Stream::start(edition).expect("an edition");
        for chunk in records.chunks(chunk) {
            let (refusal, readings) = stream.chunk(chunk, out);
            assert_eq!(refusal, 0);
            out = &mut out[8 * readings as usize..];
        }
        assert_eq!(stream.end(), 0);
        stream.applied()
    },
};
