/* Bad use from C: every call with lengths of 0, just enough, one less, one more, the largest and beyond. Each buffer ends just before a page
 * that may not be touched, or begins just behind one, so that an access beyond it ends the program; what is lent to be read may not be
 * written; and every byte of an output that the call does not promise must stay.
 *   misuse LOG..   prints how many calls were made, or the first that was not as it must be */
#define _DEFAULT_SOURCE
#include "memory.h"
#include "rivandoze.h"

enum { TRAILER = 8, RECORD = 16, READING = 8, READ = 2, PINS = 3, NO_STATE = 19 };

static const char *about = "";
static unsigned long made = 0;

static void must(int holds, const char *what, size_t in_len, size_t out_len) {
    if (!holds) {
        fprintf(stderr, "%s: %s, of %zu bytes with %zu of room\n", about, what, in_len, out_len);
        exit(1);
    }
}

/* ---- What is lent ---- */

/* To be read: fenced, and not to be written while it is lent. */
struct input {
    uint8_t *room;
    const uint8_t *at;
    size_t len;
};

static struct input inputs[2];
static uint8_t *out_room;
/* Whether buffers end at their fence, or begin at it. */
static int at_end;

static void lend(struct input *input, const uint8_t *bytes, size_t len) {
    if (mprotect(input->room, FENCED, PROT_READ | PROT_WRITE) != 0) stop("no memory", "lent");
    memset(input->room, UNSET, FENCED);
    uint8_t *at = at_end ? input->room + FENCED - len : input->room;
    if (len > 0) memcpy(at, bytes, len);
    if (mprotect(input->room, FENCED, PROT_READ) != 0) stop("no memory", "lent");
    input->at = at;
    input->len = len;
}

static uint8_t *output(size_t len) {
    memset(out_room, UNSET, FENCED);
    return at_end ? out_room + FENCED - len : out_room;
}

/* ---- A call that has an output ---- */

enum call { REPLAY, SIGN, DUMP, SHRINK, DUMP_READ, WRITE };

static uint64_t edition;

static uint64_t answer_of(enum call call, uint8_t *out, size_t out_len) {
    const struct input *in = inputs;
    made++;
    switch (call) {
    case REPLAY: return rvz_replay(in[0].at, in[0].len, out, out_len);
    case SIGN: return rvz_sign(in[0].at, in[0].len, out, out_len);
    case DUMP: return rvz_dump(in[0].at, in[0].len, out, out_len);
    case SHRINK: return rvz_shrink(in[0].at, in[0].len, out, out_len);
    case DUMP_READ: return rvz_dump_read(in[0].at, in[0].len, out, out_len);
    case WRITE: return rvz_write(edition, in[1].at, in[1].len, in[0].at, in[0].len, out, out_len);
    }
    return 0;
}

/* The records of a log that has some: how many begin by this byte, of the first so many. */
static size_t beginning(uint8_t byte, size_t most) {
    const struct input *log = inputs;
    if (log->len < TRAILER) return 0;
    const uint8_t *trailer = log->at + log->len - TRAILER;
    size_t distance = (size_t)trailer[0] | (size_t)trailer[1] << 8 | (size_t)trailer[2] << 16 | (size_t)trailer[3] << 24, number = 0;
    if (distance > log->len - TRAILER) return 0;
    for (size_t i = 0; i < distance / RECORD && i < most; i++) {
        if (trailer[-(ptrdiff_t)distance + (ptrdiff_t)(RECORD * i)] == byte) number++;
    }
    return number;
}

/* How many bytes an answer says are written. */
static size_t written(enum call call, uint64_t answer) {
    size_t number = (size_t)(answer >> 8);
    unsigned refused = rvz_refused(answer);
    switch (call) {
    case REPLAY: return READING * beginning(READ, number);
    case SIGN: return RVZ_STRETCH_BYTES * number;
    case DUMP_READ: return RVZ_ENTRY_BYTES * number;
    default: return refused == RVZ_OK ? number : 0;
    }
}

/* How much room a call wants, that would give this answer with enough. */
static size_t wanted(enum call call, uint64_t answer) {
    unsigned refused = rvz_refused(answer);
    if (RVZ_OK < refused && refused <= RVZ_WRONG_DISTANCE) return 0;
    switch (call) {
    case REPLAY: return READING * beginning(READ, FENCED);
    case SIGN: return RVZ_STRETCH_BYTES * beginning(PINS, FENCED);
    default: return written(call, answer);
    }
}

/* Whether all is as `output` left it. */
static int unset(const uint8_t *from, const uint8_t *to) {
    size_t len = (size_t)(to - from);
    return len == 0 || (*from == UNSET && memcmp(from, from + 1, len - 1) == 0);
}

/* The inputs in all rooms, against what they give with a room of everything. */
static uint64_t in_all_rooms(enum call call) {
    static uint8_t whole[FENCED];
    uint64_t answer = answer_of(call, output(FENCED), FENCED);
    size_t len = written(call, answer), enough = wanted(call, answer), in_len = inputs[0].len;
    must(len <= enough || enough == 0, "says that it has written more than it wants", in_len, FENCED);
    must(unset(out_room + len, out_room + FENCED), "wrote more than it says", in_len, FENCED);
    memcpy(whole, out_room, len);
    const size_t rooms[] = {0, 1, enough - 1, enough, enough + 1, enough + 7, 16384, 32767, 32768, 32769, RVZ_SIGN_BYTES, FENCED - 1};
    for (size_t i = 0; i < sizeof rooms / sizeof *rooms; i++) {
        size_t room = rooms[i];
        if (room >= FENCED) continue;
        uint8_t *out = output(room);
        uint64_t got = answer_of(call, out, room);
        if (room < enough) {
            must(got == RVZ_OUTPUT_TOO_SHORT, "is not refused by 6", in_len, room);
            must(unset(out_room, out_room + FENCED), "wrote though it is refused by 6", in_len, room);
        } else {
            must(got == answer, "answers otherwise with more room", in_len, room);
            must(memcmp(out, whole, len) == 0, "writes something else with more room", in_len, room);
            must(unset(out_room, out) && unset(out + len, out_room + FENCED), "wrote elsewhere", in_len, room);
        }
    }
    return answer;
}

/* ---- Logs ---- */

static void judged(struct bytes log) {
    static uint8_t right[FENCED];
    uint8_t *out = output(FENCED);
    uint64_t replayed = rvz_replay(inputs[0].at, inputs[0].len, out, FENCED);
    size_t exact = READING * beginning(READ, (size_t)rvz_applied(replayed));
    memset(right, 0, sizeof right);
    memcpy(right, out, exact);
    const size_t lens[] = {0, 1, exact - 1, exact, exact + 1, exact + READING, 16376, 32768, 32769, FENCED};
    for (size_t i = 0; i < sizeof lens / sizeof *lens; i++) {
        if (lens[i] > FENCED) continue;
        lend(&inputs[1], right, lens[i]);
        made++;
        uint64_t got = rvz_judge(inputs[0].at, inputs[0].len, inputs[1].at, inputs[1].len);
        unsigned refused = rvz_refused(replayed), verdict = rvz_verdict_of(got);
        if (refused != RVZ_OK) {
            must(got == refused, "is not judged by the log's refusal", log.len, lens[i]);
        } else if (lens[i] != exact) {
            must(got == RVZ_WRONG_TRANSCRIPT, "is not refused by 17", log.len, lens[i]);
        } else {
            must(verdict == RVZ_SAME || verdict == RVZ_BOTH, "is not judged to be right", log.len, lens[i]);
        }
    }
}

/* The text of a dump and the dumps that are cut off, or longer. */
static void dumped(void) {
    static uint8_t text[FENCED];
    uint8_t *out = output(FENCED);
    uint64_t answer = rvz_dump(inputs[0].at, inputs[0].len, out, FENCED);
    size_t len = (size_t)rvz_dump_length(answer);
    memset(text, '\n', sizeof text);
    memcpy(text, out, len);
    const size_t lens[] = {0, 1, len - 1, len, len + 1, RVZ_DUMP_BYTES, RVZ_DUMP_BYTES + 1, 32768, 32769, FENCED};
    for (size_t i = 0; i < sizeof lens / sizeof *lens; i++) {
        if (lens[i] > FENCED) continue;
        lend(&inputs[0], text, lens[i]);
        unsigned refused = rvz_refused(in_all_rooms(DUMP_READ));
        must((refused == RVZ_OK) == (lens[i] == len && len != 0), "is a dump, or none", lens[i], FENCED);
    }
}

/* The parts of a log, and more notes and fewer bytes of records than there may be. */
static void written_again(struct bytes log, size_t distance) {
    static const uint8_t notes[FENCED];
    const uint8_t *records = log.at + log.len - TRAILER - distance;
    size_t most = (size_t)RVZ_LOG_BYTES - TRAILER - distance;
    for (edition = 0; edition < 6; edition++) {
        lend(&inputs[0], records, distance);
        lend(&inputs[1], notes, 0);
        unsigned refused = rvz_refused(in_all_rooms(WRITE));
        must((refused == RVZ_WRONG_EDITION) == (edition < 1 || 4 < edition), "is an edition, or none", distance, FENCED);
        if (refused != RVZ_OK) continue;
        const size_t lens[] = {1, most - 1, most, most + 1, 32768, 32769, FENCED};
        for (size_t i = 0; i < sizeof lens / sizeof *lens; i++) {
            if (lens[i] > FENCED) continue;
            lend(&inputs[1], notes, lens[i]);
            must(rvz_refused(in_all_rooms(WRITE)) == (lens[i] > most ? RVZ_LOG_TOO_LONG : RVZ_OK), "is too long, or not", distance, lens[i]);
        }
        lend(&inputs[1], notes, 0);
        for (size_t cut = 1; cut < RECORD && cut < distance; cut += 7) {
            lend(&inputs[0], records, distance - cut);
            must(in_all_rooms(WRITE) == RVZ_WRONG_DISTANCE, "is no run of records", distance - cut, FENCED);
        }
    }
    /* More records than any log has, all of them waits. */
    static uint8_t waits[FENCED];
    for (size_t at = 0; at < FENCED; at += RECORD) waits[at] = 4;
    edition = 1;
    for (size_t len = 32736; len <= FENCED; len = len < 32800 ? len + RECORD : 2 * len) {
        lend(&inputs[0], waits, len - len % RECORD);
        must(rvz_refused(in_all_rooms(WRITE)) == (len > 32752 ? RVZ_LOG_TOO_LONG : RVZ_OK), "is too long, or not", len, FENCED);
    }
}

static size_t distance_of(struct bytes log) {
    const uint8_t *trailer = log.at + log.len - TRAILER;
    return (size_t)trailer[0] | (size_t)trailer[1] << 8;
}

/* The log with so many bytes: cut at its front, or behind notes. */
static void of_length(struct bytes log, size_t len) {
    static uint8_t longer[FENCED];
    memcpy(longer + FENCED - log.len, log.at, log.len);
    lend(&inputs[0], longer + FENCED - len, len);
    for (int call = REPLAY; call <= SHRINK; call++) {
        unsigned refused = rvz_refused(in_all_rooms((enum call)call));
        must((refused == RVZ_LOG_TOO_LONG) == (len > RVZ_LOG_BYTES), "is too long, or not", len, FENCED);
        must((refused == RVZ_LOG_TOO_SHORT) == (len < TRAILER), "is too short, or not", len, FENCED);
    }
}

/* ---- Streams ---- */

static uint8_t *state_room;

static uint8_t *new_state(size_t len) {
    memset(state_room, UNSET, FENCED);
    return at_end ? state_room + FENCED - len : state_room;
}

/* Starts in states of all lengths, and what the other calls say of one that is too short. */
static void starts(void) {
    const size_t lens[] = {0, 1, RVZ_STREAM_BYTES - 1, RVZ_STREAM_BYTES, RVZ_STREAM_BYTES + 1, 32768, 32769, FENCED};
    lend(&inputs[0], (const uint8_t *)"0123456789abcdef", RECORD);
    for (edition = 0; edition < 6; edition++) {
        for (size_t i = 0; i < sizeof lens / sizeof *lens; i++) {
            size_t len = lens[i];
            uint8_t *state = new_state(len), *out = output(READING);
            unsigned refused = edition < 1 || 4 < edition ? RVZ_WRONG_EDITION : len < RVZ_STREAM_BYTES ? RVZ_OUTPUT_TOO_SHORT : RVZ_OK;
            made += 4;
            must(rvz_stream_start(edition, state, len) == refused, "is not started, or is", len, 0);
            if (refused == RVZ_OK) {
                must(unset(state_room, state) && unset(state + RVZ_STREAM_BYTES, state_room + FENCED), "started elsewhere too", len, 0);
                must(rvz_stream_end(state, len) == RVZ_OK && rvz_stream_applied(state, len) == 0, "is not fresh", len, 0);
                continue;
            }
            must(unset(state_room, state_room + FENCED), "wrote though it is refused", len, 0);
            must(rvz_stream_end(state, len) == NO_STATE && rvz_stream_applied(state, len) == 0, "is no state", len, 0);
            must(rvz_stream_chunk(state, len, inputs[0].at, RECORD, out, READING) == NO_STATE, "is no state", len, READING);
            must(unset(state_room, state_room + FENCED) && unset(out_room, out_room + FENCED), "wrote though there is no state", len, 0);
        }
    }
}

/* The log's records in chunks of so many bytes, each first with one byte of room too little, against the readings of its replay. */
static void in_chunks(const uint8_t *records, size_t distance, size_t step, uint64_t replayed, const uint8_t *readings) {
    static uint8_t before[RVZ_STREAM_BYTES];
    uint8_t *state = new_state(RVZ_STREAM_BYTES);
    must(rvz_stream_start(edition, state, RVZ_STREAM_BYTES) == RVZ_OK, "is not started", RVZ_STREAM_BYTES, 0);
    unsigned refused = RVZ_OK;
    size_t read = 0;
    for (size_t at = 0; at < distance; at += step) {
        size_t len = distance - at < step ? distance - at : step, room = 0;
        for (size_t i = at / RECORD; i < (at + len) / RECORD; i++) room += records[RECORD * i] == READ ? READING : 0;
        lend(&inputs[0], records + at, len);
        memcpy(before, state, RVZ_STREAM_BYTES);
        made += 2;
        if (room > 0) {
            uint64_t got = rvz_stream_chunk(state, RVZ_STREAM_BYTES, inputs[0].at, len, output(room - 1), room - 1);
            must(got == (refused == RVZ_OK ? RVZ_OUTPUT_TOO_SHORT : refused), "is not refused", len, room - 1);
            must(unset(out_room, out_room + FENCED) && memcmp(before, state, RVZ_STREAM_BYTES) == 0, "is taken without room", len, room - 1);
        }
        uint8_t *out = output(room);
        uint64_t got = rvz_stream_chunk(state, RVZ_STREAM_BYTES, inputs[0].at, len, out, room);
        size_t wrote = READING * (size_t)(got >> 8);
        must(refused == RVZ_OK || (rvz_refused(got) == refused && wrote == 0 && memcmp(before, state, RVZ_STREAM_BYTES) == 0),
            "goes on after a refusal", len, room);
        refused = rvz_refused(got);
        must(wrote <= room && memcmp(out, readings + read, wrote) == 0, "has other readings", len, room);
        must(unset(out_room, out) && unset(out + wrote, out_room + FENCED), "wrote elsewhere", len, room);
        must(at_end ? unset(state_room, state) : unset(state + RVZ_STREAM_BYTES, state_room + FENCED), "wrote beside the state", len, room);
        read += wrote;
    }
    must(refused == rvz_refused(replayed), "ends otherwise than its replay", distance, step);
    must(rvz_stream_end(state, RVZ_STREAM_BYTES) == refused, "ends otherwise than its chunks", distance, step);
    must(rvz_stream_applied(state, RVZ_STREAM_BYTES) == rvz_applied(replayed), "applied something else", distance, step);
}

static void streamed(struct bytes log, size_t distance) {
    static uint8_t readings[FENCED];
    starts();
    lend(&inputs[0], log.at, log.len);
    uint8_t *out = output(FENCED);
    uint64_t replayed = rvz_replay(inputs[0].at, inputs[0].len, out, FENCED);
    memcpy(readings, out, READING * beginning(READ, (size_t)rvz_applied(replayed)));
    edition = log.at[log.len - 4];
    const size_t steps[] = {1, 15, 16, 17, 4096, 32752};
    for (size_t i = distance > 2048 ? 4 : 0; i < sizeof steps / sizeof *steps; i++) {
        in_chunks(log.at + log.len - TRAILER - distance, distance, steps[i], replayed, readings);
    }
}

static void all_of(struct bytes log) {
    const size_t lens[] = {0, 1, 7, 8, 9, log.len - 1, log.len, log.len + 1, 32767, 32768, 32769, 65536, FENCED};
    for (size_t i = 0; i < sizeof lens / sizeof *lens; i++) of_length(log, lens[i]);
    lend(&inputs[0], log.at, log.len);
    judged(log);
    dumped();
    written_again(log, distance_of(log));
    streamed(log, distance_of(log));
}

/* Numbers of any size go to the rate calls. */
static void rates(void) {
    static const uint64_t numbers[] = {0, 1, 7, 8, 39999, 40000, 65535, 65536, 1000000, 1000001, 40000000, 40000001, UINT32_MAX,
        4000000000, 4000000001, (uint64_t)1 << 63, UINT64_MAX};
    const size_t all = sizeof numbers / sizeof *numbers;
    about = "a rate";
    for (size_t i = 0; i < all * all; i++) {
        uint64_t a = numbers[i / all], b = numbers[i % all];
        const uint64_t found[] = {rvz_find_pwm(a, b), rvz_find_spi(a, b)}, told[] = {rvz_rate_pwm(a, b), rvz_rate_spi(a, b)};
        made += 4;
        for (int kind = 0; kind < 2; kind++) {
            uint64_t most = kind == 0 ? 40000000 : 4000000000;
            int out_of_range = a < 40000 || a > most;
            must((rvz_refused(found[kind]) == RVZ_RATE_OUT_OF_RANGE) == out_of_range, "is out of range, or not", (size_t)a, (size_t)b);
            must(rvz_refused(found[kind]) == RVZ_OK || found[kind] < 256, "is refused with more than the number", (size_t)a, (size_t)b);
            must(rvz_refused(told[kind]) == (a < 1 || a > 7 || b > 65535 ? RVZ_NO_SUCH_PAIR : RVZ_OK), "is a pair, or none", (size_t)a, (size_t)b);
        }
    }
}

int main(int argc, char **argv) {
    for (int i = 0; i < 2; i++) inputs[i].room = fenced();
    out_room = fenced();
    state_room = fenced();
    for (int i = 1; i < argc; i++) {
        struct bytes log = file(argv[i]);
        about = argv[i];
        if (log.len < TRAILER || log.len > RVZ_LOG_BYTES || distance_of(log) > log.len - TRAILER) stop("no log", argv[i]);
        for (at_end = 0; at_end < 2; at_end++) all_of(log);
        free(log.at);
    }
    rates();
    printf("%lu calls\n", made);
    return 0;
}
