/* Rivandoze for C and C++: numbers and byte slices only.
 *
 * Every answer is one uint64_t. Its low byte is the refusal, RVZ_OK (0) if there is none (rvz_stream_applied alone has none in it); unless a call
 * says otherwise, the rest is 0 when it is refused. The calls keep no state, never fail in another way, and may be made from any thread. Link
 * librivandoze.a, or the shared library. */
#ifndef RIVANDOZE_H
#define RIVANDOZE_H

#include <stddef.h>
#include <stdint.h>

#ifdef __cplusplus
extern "C" {
#endif

/* The refusals of papers 01 and 02. 1 to 11, 16 and 18 come from a replay, 12 to 15 from the rate calls, 17 and a log's own from the judge, 6
 * and a log's own from the sign, the dump and from shrinking, 6 and 20 from the dump's reader, 1 and 4 to 8 from the writer, 4 to 11, 16, 18 and 19
 * from a stream. */
enum rvz_refusal {
    RVZ_OK = 0,                   /* Nothing is refused. */
    RVZ_LOG_TOO_LONG = 1,         /* The log is longer than 32,768 bytes. */
    RVZ_LOG_TOO_SHORT = 2,        /* The log is shorter than its 8-byte trailer. */
    RVZ_WRONG_MARK = 3,           /* The trailer does not end in the mark 51 4D. */
    RVZ_WRONG_EDITION = 4,        /* The edition, in the trailer or given, is none of 1 to 4. */
    RVZ_WRONG_DISTANCE = 5,       /* The trailer's distance is no multiple of 16, or reaches back before the log; records to write, or a stream, end within a record. */
    RVZ_OUTPUT_TOO_SHORT = 6,     /* The output has no room: less than 8 bytes for each read, or for the whole dump, its entries, the stretches, the log or a state. */
    RVZ_NO_SUCH_RECORD = 7,       /* The record names no kind, block, channel, register or access, or a byte that must be 0 is not. */
    RVZ_VALUE_OUT_OF_RANGE = 8,   /* The value is outside the range of its register or record. */
    RVZ_NOT_ROUTED = 9,           /* The record writes to, or moves the pins of, a channel that is not routed. */
    RVZ_WRONG_SELECT = 10,        /* The SELECT value is a combination that is not allowed. */
    RVZ_WRONG_CONTROL = 11,       /* GO meets a control code that is not allowed. */
    RVZ_RATE_OUT_OF_RANGE = 12,   /* The wanted rate is out of range. */
    RVZ_TOLERANCE_TOO_LARGE = 13, /* The tolerance is above 1,000,000. */
    RVZ_NO_PAIR = 14,             /* No pair is within the tolerance. */
    RVZ_NO_SUCH_PAIR = 15,        /* The divider choice is 0 or above 7, or X is above 65,535. */
    RVZ_STOP_AFTER_ACK = 16,      /* GO with STOP alone after a byte that was received and acknowledged. */
    RVZ_WRONG_TRANSCRIPT = 17,    /* The transcript has not 8 bytes for each reading of the log. */
    RVZ_STEP_AND_DIRECTION = 18,  /* Edition 3: a write to an encoder's CNFG with MODE 1. */
    RVZ_NO_STATE = 19,            /* The bytes are no state of a stream. */
    RVZ_NO_DUMP = 20              /* The text is not in the form of docs/WAVEFORM.md. */
};

/* The refusal of any answer, RVZ_OK (0) if none. */
static inline unsigned rvz_refused(uint64_t answer) { return (unsigned)(answer & 0xFF); }

/* ---- Replay ---- */

/* Replays the log of `log_len` bytes at `log`, by its edition:
 *   1  one bank; a PWM counter above MAX goes to 0.
 *   2  two banks: byte 4 of a record is its bank, 0 or 1 (ticks drive both). A PWM counter above MAX runs on to 65,535. Kind 5 tells how the
 *      I2C's slave answers the next GO, and register 4 of block 3 reads how the last one failed: 0 not, 1 the address, 2 the data.
 *   3  as 2, and a write to an encoder's CNFG with MODE 1 is refused by 18.
 *   4  as 2, for a myRIO: byte 4 is the port, each with one encoder and three PWM channels; SELECT is a byte (bit 7 I2C, 6 reserved, 5 the
 *      encoder, 4 to 2 PWM 2 to 0, 1 and 0 SPI), and 10 is never given.
 * Each read of the log writes its reading, 8 bytes, least byte first, into `out`, which has room for `out_len` bytes, in log order; no other
 * byte of `out` changes. The replay stops at the first refused record. Refusals 1 to 6 apply no record and write nothing; 7 to 11, 16 and
 * 18 keep what the records before the refused one did, whose index is rvz_applied(answer).
 * 16,384 bytes of output are enough for every log. `log` and `out` may not overlap, and neither may be NULL, even at length 0. */
uint64_t rvz_replay(const uint8_t *log, size_t log_len, uint8_t *out, size_t out_len);

/* How many records were applied, also when one was refused: 0 to 2,047. */
static inline uint64_t rvz_applied(uint64_t answer) { return answer >> 8; }

/* Reading number `index` of an output, 0 being the first. */
static inline uint64_t rvz_reading(const uint8_t *out, size_t index)
{
    uint64_t value = 0;
    int i;
    for (i = 7; i >= 0; i--) value = value << 8 | out[8 * index + (size_t)i];
    return value;
}

/* ---- Streams: replay while the run goes on ---- */

/* The bytes of a stream's state, which the caller lends: docs/STREAM.md has them field by field. They may be kept, copied and moved; a copy is a
 * stream of its own. */
enum { RVZ_STREAM_BYTES = 864 };

/* Starts a stream of records of an edition, 1 to 4, in the first RVZ_STREAM_BYTES bytes at `state`, which has `state_len`; the rest stays. Refusals,
 * with nothing written: 4 for an edition that there is none of, then 6 if `state_len` is too small. `state` may not be NULL. */
uint64_t rvz_stream_start(uint64_t edition, uint8_t *state, size_t state_len);

/* Takes the next `chunk_len` bytes of records, as many or few as have arrived: up to 15 bytes of an unfinished record are kept in the state. The
 * records that the chunk finishes are replayed as rvz_replay does, and each read writes its 8 bytes into `out`; rvz_stream_readings(answer) tells
 * how many, also where a record is refused. Refusals, in this order:
 *   19      the bytes at `state` are no state. Nothing changes.
 *   7 to 11, 16, 18   a record was refused, by this chunk (what the records before it did stays) or by an earlier one (nothing changes).
 *   6       8 times the records that the chunk finishes and whose first byte is 2 exceed `out_len`. Nothing changes, nothing is remembered: give
 *           the same chunk again with more room. 8 * (chunk_len / 16 + 1) bytes are always enough.
 * However the records are cut, readings, state, applied number and first refusal are those of the whole. `state`, `chunk` and `out` may not
 * overlap, and none may be NULL, even at length 0. */
uint64_t rvz_stream_chunk(uint8_t *state, size_t state_len, const uint8_t *chunk, size_t chunk_len, uint8_t *out, size_t out_len);

/* How many readings the chunk wrote (modulo 2^56, which 2^60 bytes of records would exceed). */
static inline uint64_t rvz_stream_readings(uint64_t answer) { return answer >> 8; }

/* Whether the stream may end here: a record's refusal, 5 if bytes of an unfinished record are left over, 19 if the bytes are no state, else RVZ_OK.
 * It changes nothing, and a chunk may follow. */
uint64_t rvz_stream_end(const uint8_t *state, size_t state_len);

/* How many records were applied, modulo 2^64: the number itself, no refusal in it; 0 if the bytes are no state. */
uint64_t rvz_stream_applied(const uint8_t *state, size_t state_len);

/* ---- Transcripts ---- */

/* Judges a transcript by the replay of a log. The transcript, `transcript_len` bytes at `transcript`, is the readings that some program has
 * found in the log: 8 bytes each, least byte first, in log order, as rvz_replay writes them. Refusals: the log's own, as of a replay whose
 * output is long enough (so never 6), then 17. Else read the answer by rvz_verdict_of, and by rvz_first_difference where that is
 * RVZ_DIFFERENT. `log` and `transcript` may not be NULL, even at length 0. */
uint64_t rvz_judge(const uint8_t *log, size_t log_len, const uint8_t *transcript, size_t transcript_len);

enum rvz_verdict {
    RVZ_SAME = 1,     /* The transcript is the replay's readings. */
    RVZ_NEGATED = 2,  /* It is once every encoder CNTR reading of the replay is negated modulo 2^32. */
    RVZ_BOTH = 3,     /* Both: every encoder CNTR reading is 0 or 2^31, or there is none. The log cannot tell the two apart. */
    RVZ_DIFFERENT = 4 /* Neither. */
};

/* The verdict, an rvz_verdict; 0 if refused. */
static inline unsigned rvz_verdict_of(uint64_t answer) { return (unsigned)(answer >> 8 & 0xFF); }

/* The number of the first reading, 0 being the first, that differs from the replay's; 0 unless the verdict is RVZ_DIFFERENT. */
static inline uint64_t rvz_first_difference(uint64_t answer) { return answer >> 16; }

/* ---- Writing logs ---- */

/* No log is longer, in bytes: 2,047 records of RVZ_RECORD_BYTES, 8 bytes of notes and the trailer's 8. */
enum { RVZ_LOG_BYTES = 32768, RVZ_RECORD_BYTES = 16 };

/* Makes a log of an edition: the `notes_len` bytes at `notes`, which no replay looks at, the `records_len` bytes of records at `records`, and a
 * trailer that points back over them, in this order at the front of `out`, which has room for `out_len` bytes. rvz_log_length(answer)
 * tells how many were written, and no other byte of `out` changes. Refusals, in this order, with nothing written: 4 for an edition that
 * there is none of; 5 if `records_len` is no multiple of 16; 7 or 8 if a replay of that edition would refuse a record so, whose index is
 * rvz_refused_record(answer), the first if there are several; 1 if the log were longer than RVZ_LOG_BYTES; 6 if it does not fit. What
 * depends on the records before (9, 10, 11, 16, 18) only a replay tells. RVZ_LOG_BYTES of output are enough for every log. `out` may not overlap
 * `notes` or `records`, and none may be NULL, even at length 0. */
uint64_t rvz_write(uint64_t edition, const uint8_t *notes, size_t notes_len, const uint8_t *records, size_t records_len, uint8_t *out,
                   size_t out_len);

/* The length of the log; 0 if refused by another number than 7 or 8. */
static inline uint64_t rvz_log_length(uint64_t answer) { return answer >> 8; }

/* The index of the record that 7 or 8 refuses, 0 being the first (modulo 2^56, which 2^60 bytes of records would exceed). */
static inline uint64_t rvz_refused_record(uint64_t answer) { return answer >> 8; }

/* Puts a record's 16 bytes at `record`. Byte 4 is the bank where the edition has two, else 0. */
static inline void rvz_put_record(uint8_t *record, unsigned kind, unsigned block, unsigned channel, unsigned reg, unsigned bank, uint64_t value)
{
    int i;
    record[0] = (uint8_t)kind;
    record[1] = (uint8_t)block;
    record[2] = (uint8_t)channel;
    record[3] = (uint8_t)reg;
    record[4] = (uint8_t)bank;
    record[5] = record[6] = record[7] = 0;
    for (i = 0; i < 8; i++) record[8 + i] = (uint8_t)(value >> (8 * i));
}

/* ---- The sign ---- */

/* Lists each longest stretch of each encoder in which it counts in quadrature (routed, EN 1, RST 0, MODE 0) and nothing resets, reconfigures or
 * reroutes it, and tells of each whether its pins settle the direction in which the shaft travelled: an entry of RVZ_STRETCH_BYTES bytes in
 * `out`, in the order of their first records. No other byte of `out` changes. Refusals: 1 to 5 as of a replay, then 6 if `out_len` is below
 * RVZ_STRETCH_BYTES for each record whose first byte is 3; nothing is written in these. A refused record's number (7 to 11, 16, 18) is told, and
 * the stretches of the records before it are written and counted all the same. docs/SIGN.md says what a verdict says, and what it cannot.
 * `log` and `out` may not overlap, and neither may be NULL, even at length 0. */
uint64_t rvz_sign(const uint8_t *log, size_t log_len, uint8_t *out, size_t out_len);

/* RVZ_SIGN_BYTES are enough for every log. */
enum { RVZ_STRETCH_BYTES = 32, RVZ_SIGN_BYTES = 65504 };

enum rvz_direction {
    RVZ_OPEN = 0,     /* Motions of differing direction fit the pins. */
    RVZ_FORWARD = 1,  /* Every motion that fits the pins goes forward: A leads. */
    RVZ_BACKWARD = 2, /* Every one goes backward. */
    RVZ_STILL = 3     /* Every one ends where it began. */
};

/* How many stretches are listed, also when a record is refused. */
static inline uint64_t rvz_stretches(uint64_t answer) { return answer >> 8; }

/* Of stretch number `index` of an output, 0 being the first: its bank, its encoder, its rvz_direction, the numbers of its first and its last
 * pins record among the log's records, how many pins records it has, the counted steps, and how often both pins changed together. */
static inline unsigned rvz_stretch_bank(const uint8_t *out, size_t index) { return out[RVZ_STRETCH_BYTES * index]; }
static inline unsigned rvz_stretch_encoder(const uint8_t *out, size_t index) { return out[RVZ_STRETCH_BYTES * index + 1]; }
static inline unsigned rvz_stretch_direction(const uint8_t *out, size_t index) { return out[RVZ_STRETCH_BYTES * index + 2]; }
static inline uint64_t rvz_stretch_first(const uint8_t *out, size_t index) { return rvz_reading(out, 4 * index) >> 32; }
static inline uint64_t rvz_stretch_last(const uint8_t *out, size_t index) { return rvz_reading(out, 4 * index + 1) & 0xFFFFFFFF; }
static inline uint64_t rvz_stretch_pins(const uint8_t *out, size_t index) { return rvz_reading(out, 4 * index + 1) >> 32; }
static inline int64_t rvz_stretch_steps(const uint8_t *out, size_t index) { return (int64_t)rvz_reading(out, 4 * index + 2); }
static inline uint64_t rvz_stretch_doubles(const uint8_t *out, size_t index) { return rvz_reading(out, 4 * index + 3); }

/* ---- Waveforms ---- */

/* No dump is longer, in bytes: proved. The longest that there is has RVZ_LONGEST_DUMP: computed, and tried for each edition. */
enum { RVZ_DUMP_BYTES = 25207, RVZ_LONGEST_DUMP = 24137 };

/* Writes the pins of a log that replays as a value change dump, IEEE 1364, text form, for waveform viewers: into `out`, which has room for
 * `out_len` bytes; rvz_dump_length(answer) tells how many were written, and no other byte of `out` changes. docs/WAVEFORM.md has the format.
 * Refusals: the log's own, as of a replay whose output is long enough, then 6 if the text does not fit; nothing is written in these.
 * RVZ_DUMP_BYTES are enough for every log. `log` and `out` may not overlap, and neither may be NULL, even at length 0. */
uint64_t rvz_dump(const uint8_t *log, size_t log_len, uint8_t *out, size_t out_len);

/* The length of the text; 0 if refused. */
static inline uint64_t rvz_dump_length(uint64_t answer) { return answer >> 8; }

/* Reads a dump of `text_len` bytes at `text` back: for each time at which something changed, and each encoder that changed at it, an entry
 * of RVZ_ENTRY_BYTES bytes in `out` with the pins as they stand after all changes at that time; by time, then bank, then encoder. No
 * other byte of `out` changes. Refusals: 20 for any text that is not in the form of docs/WAVEFORM.md, then 6 if the entries do not fit; nothing
 * is written in these. `text` and `out` may not overlap, and neither may be NULL, even at length 0. */
uint64_t rvz_dump_read(const uint8_t *text, size_t text_len, uint8_t *out, size_t out_len);

enum { RVZ_ENTRY_BYTES = 16 };

/* How many entries; 0 if refused. */
static inline uint64_t rvz_entries(uint64_t answer) { return answer >> 8; }

/* Entry number `index` of an output, 0 being the first: its time in ns, its bank (0 or 1; of a myRIO the port), its encoder, and its pins, bit
 * 0 pin A and bit 1 pin B. */
static inline uint64_t rvz_entry_time(const uint8_t *out, size_t index) { return rvz_reading(out, 2 * index); }
static inline unsigned rvz_entry_bank(const uint8_t *out, size_t index) { return out[RVZ_ENTRY_BYTES * index + 8]; }
static inline unsigned rvz_entry_encoder(const uint8_t *out, size_t index) { return out[RVZ_ENTRY_BYTES * index + 9]; }
static inline unsigned rvz_entry_pins(const uint8_t *out, size_t index) { return out[RVZ_ENTRY_BYTES * index + 10]; }

/* ---- Smaller logs ---- */

/* Writes a log that replays, without the records that change nothing, into `out`, which has room for `out_len` bytes; rvz_smaller_length(answer)
 * tells how many were written, and no other byte of `out` changes. Dropped are ticks records with value 0, and pins records equal to that
 * encoder's previous pins record with no write to its CNFG or its own bank's SELECT between. The smaller log has the same notes, edition,
 * readings and end state; shrinking it again changes no byte; it is never longer, so that `log_len` bytes of room are enough. Refusals: the
 * log's own, as of a replay whose output is long enough, then 6 exactly if the smaller log does not fit; nothing is written in these.
 * `log` and `out` may not overlap, and neither may be NULL, even at length 0. */
uint64_t rvz_shrink(const uint8_t *log, size_t log_len, uint8_t *out, size_t out_len);

/* The length of the smaller log; 0 if refused. */
static inline uint64_t rvz_smaller_length(uint64_t answer) { return answer >> 8; }

/* ---- Rates ---- */

/* The divider choice and X whose rate is nearest to `rate`, and their period. `rate` is in millihertz, thousandths of a hertz, so that
 * 40125 is 40.125 Hz: PWM 40,000 to 40,000,000, SPI 40,000 to 4,000,000,000. A number of hertz below 40,000 is refused by 12; a larger one
 * is taken for millihertz. `tolerance` is the largest error allowed, in millionths of `rate`, at most 1,000,000. Of equally near pairs the
 * one with the shorter period is given, then the one with the smaller divider. Refusals: 12, 13, 14, tested in this order. Read the answer
 * by rvz_choice, rvz_x and rvz_pair_period. */
uint64_t rvz_find_pwm(uint64_t rate, uint64_t tolerance);
uint64_t rvz_find_spi(uint64_t rate, uint64_t tolerance);

/* The divider choice, 1 to 7: the clock is divided by 1, 2, 4, .. 64. */
static inline unsigned rvz_choice(uint64_t answer) { return (unsigned)(answer >> 8 & 0xFF); }

/* X, 0 to 65,535. */
static inline unsigned rvz_x(uint64_t answer) { return (unsigned)(answer >> 16 & 0xFFFF); }

/* The period P of the pair, in ticks of the clock: its rate is 40,000,000 / P hertz. */
static inline uint32_t rvz_pair_period(uint64_t answer) { return (uint32_t)(answer >> 32); }

/* The rate that a divider choice and X give, as a fraction of hertz: rvz_clock(answer) / rvz_period(answer). Refusal: 15. */
uint64_t rvz_rate_pwm(uint64_t choice, uint64_t x);
uint64_t rvz_rate_spi(uint64_t choice, uint64_t x);

/* The period P, in ticks of the clock. Of a pair that was found, read it by rvz_pair_period: it stands in another place. */
static inline uint32_t rvz_period(uint64_t answer) { return (uint32_t)(answer >> 8 & 0xFFFFFF); }

/* The clock's rate in hertz: 40,000,000. */
static inline uint32_t rvz_clock(uint64_t answer) { return (uint32_t)(answer >> 32); }

#ifdef __cplusplus
}
#endif

#endif
