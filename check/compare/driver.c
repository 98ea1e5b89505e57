/* Makes each call of the library that it is asked for, and gives back the word and every byte of the output and of the guard bytes around
 * it. See check/src/exchange.rs for what goes over the pipes. */
#define _DEFAULT_SOURCE
#include <stdint.h>
#include <stdio.h>
#include <stdlib.h>
#include <string.h>
#include <sys/mman.h>
#include <unistd.h>

#include "rivandoze.h"

enum { GUARD = 64, ROOM = 1 << 20 };
enum call { REPLAY, JUDGE, DUMP, DUMP_READ, WRITE, SHRINK, SIGN, STREAM };
enum place { BETWEEN_GUARDS, BEFORE_THE_END, BEHIND_THE_START, ALONE };

/* The header's numbers are those of docs/WAVEFORM.md. */
typedef char as_the_page_says[RVZ_DUMP_BYTES == 25207 && RVZ_NO_DUMP == 20 ? 1 : -1];

static void stop(const char *why) {
    fprintf(stderr, "driver: %s\n", why);
    exit(2);
}

/* ROOM bytes with a page before and a page behind them that may not be touched. */
static uint8_t *fenced(void) {
    size_t page = (size_t)sysconf(_SC_PAGESIZE);
    uint8_t *start = mmap(NULL, ROOM + 2 * page, PROT_READ | PROT_WRITE, MAP_PRIVATE | MAP_ANONYMOUS, -1, 0);
    if (start == MAP_FAILED || mprotect(start, page, PROT_NONE) || mprotect(start + page + ROOM, page, PROT_NONE)) {
        stop("no memory");
    }
    return start + page;
}

/* Some bytes with the guards that their place gives them: in a fenced room, or a block of the heap. */
struct area {
    uint8_t *start;
    size_t before, len, behind;
};

static struct area lay(uint8_t *room, enum place place, size_t len) {
    struct area area = {room, 0, len, 0};
    if (place == BETWEEN_GUARDS || place == BEFORE_THE_END) {
        area.before = GUARD;
    }
    if (place == BETWEEN_GUARDS || place == BEHIND_THE_START) {
        area.behind = GUARD;
    }
    if (place == BEFORE_THE_END) {
        area.start = room + ROOM - area.before - len;
    }
    if (place == ALONE) {
        area.start = malloc(len);
        if (area.start == NULL) {
            stop("no memory");
        }
    }
    return area;
}

static size_t whole(const struct area *area) { return area->before + area->len + area->behind; }

static uint8_t *inside(const struct area *area) { return area->start + area->before; }

static void fill(const struct area *area, uint64_t pattern) {
    for (size_t i = 0; i < whole(area); i++) {
        pattern = pattern * 6364136223846793005u + 1442695040888963407u;
        area->start[i] = (uint8_t)(pattern >> 56);
    }
}

/* Little-endian, as the machines are that the library is for. Whether there was anything left to read. */
static int take(void *to, size_t len) {
    size_t got = fread(to, 1, len, stdin);
    if (got != len && got != 0) {
        stop("half a request");
    }
    return got == len;
}

static void give(const void *from, size_t len) {
    if (fwrite(from, 1, len, stdout) != len) {
        stop("the answer is not taken");
    }
}

/* What is lent to be read, and a copy of it with its guards. */
struct lent {
    uint8_t *room, *copy;
    struct area area;
};

static struct lent reserve(void) {
    struct lent lent = {fenced(), malloc(ROOM), {NULL, 0, 0, 0}};
    if (lent.copy == NULL) {
        stop("no memory");
    }
    return lent;
}

static void take_lent(struct lent *lent, enum place place, size_t len) {
    lent->area = lay(lent->room, place, len);
    memset(lent->area.start, 0xA5, whole(&lent->area));
    if (!take(inside(&lent->area), len) && len != 0) {
        stop("half a request");
    }
    memcpy(lent->copy, lent->area.start, whole(&lent->area));
}

static int kept(const struct lent *lent) { return memcmp(lent->copy, lent->area.start, whole(&lent->area)) == 0; }

/* Declared here as well as in the header, so that they must agree. */
uint64_t rvz_stream_start(uint64_t edition, uint8_t *state, size_t state_len);
uint64_t rvz_stream_chunk(uint8_t *state, size_t state_len, const uint8_t *chunk, size_t chunk_len, uint8_t *out, size_t out_len);
uint64_t rvz_stream_end(const uint8_t *state, size_t state_len);
uint64_t rvz_stream_applied(const uint8_t *state, size_t state_len);

enum ask { START, CHUNK, END, APPLIED, MOVE, SHORT_CHUNK, SHORT_END, SHORT_APPLIED, AGAIN, OTHER, DAMAGED, NOISE, REPEATED, SET_APPLIED, SET_COUNT };
enum { SIX = 6, NO_STATE = 19, UNSET = 0xC3 };

/* The states of two streams, each in a block of the heap of its own; the one that is asked; and whether a record of it was refused. */
static struct state { uint8_t *bytes; size_t len; int refused; } states[2], *state = states;

static uint8_t *block(size_t len) {
    uint8_t *bytes = malloc(len + (len == 0));
    if (bytes == NULL) {
        stop("no memory");
    }
    return bytes;
}

static void new_state(size_t len) {
    free(state->bytes);
    state->bytes = block(len);
    state->len = len;
    state->refused = 0;
    memset(state->bytes, UNSET, len);
}

static void move_state(void) {
    uint8_t *old = state->bytes;
    state->bytes = block(state->len);
    memcpy(state->bytes, old, state->len);
    memset(old, UNSET, state->len);
    free(old);
}

/* Whether the state is unset from here on: what lies behind the state proper, and all of it where there is none. */
static int unset_from(size_t from) {
    for (size_t i = from; i < state->len; i++) {
        if (state->bytes[i] != UNSET) return 0;
    }
    return 1;
}

/* The answer to a read, with room for two readings, of these bytes, which may be a state or not. Clears `good` unless the end and the applied
 * number agree with it, nothing is changed where they are none, and a state stays one. */
static uint64_t ask_aside(uint8_t *bytes, size_t len, uint64_t *good) {
    static const uint8_t a_read[16] = {2};
    uint8_t out[16], *old = block(len);
    memcpy(old, bytes, len);
    memset(out, UNSET, sizeof out);
    uint64_t end = rvz_stream_end(bytes, len), applied = rvz_stream_applied(bytes, len);
    if (memcmp(old, bytes, len) != 0) *good = 0;
    uint64_t chunk = rvz_stream_chunk(bytes, len, a_read, sizeof a_read, out, sizeof out);
    size_t written = 8 * (size_t)(chunk >> 8);
    if (((chunk & 0xFF) == NO_STATE) != (end == NO_STATE) || written > sizeof out) *good = 0;
    for (size_t i = written; i < sizeof out; i++) {
        if (out[i] != UNSET) *good = 0;
    }
    size_t proper = end == NO_STATE || len < RVZ_STREAM_BYTES ? 0 : RVZ_STREAM_BYTES;
    if (memcmp(old + proper, bytes + proper, len - proper) != 0) *good = 0;
    if (proper == 0 ? chunk != NO_STATE || applied != 0 : rvz_stream_end(bytes, len) == NO_STATE) *good = 0;
    free(old);
    return chunk;
}

static void damaged(const uint64_t words[4], uint64_t *good) {
    uint8_t *copy = block(state->len);
    memcpy(copy, state->bytes, state->len);
    if (words[1] != 0) {
        memset(copy, (int)(words[3] & 0xFF), state->len);
    } else if (state->len != 0) {
        copy[words[2] % (state->len < RVZ_STREAM_BYTES ? state->len : RVZ_STREAM_BYTES)] ^= (uint8_t)words[3];
    }
    ask_aside(copy, state->len, good);
    free(copy);
}

static uint64_t noise(const uint64_t words[4], uint64_t *good) {
    size_t len = words[3] > RVZ_STREAM_BYTES ? 0 : (size_t)(RVZ_STREAM_BYTES + words[2] - words[3]);
    struct area area = {block(len), 0, len, 0};
    fill(&area, words[1]);
    uint64_t answer = ask_aside(area.start, len, good);
    free(area.start);
    return answer;
}

/* Where the state has the applied number, of 8 bytes, and the count of each encoder, of 4, least byte first. edits.h has these two functions as
 * docs/STREAM.md says it. */
#include "edits.h"

static void edit(size_t at, uint64_t value, size_t len) {
    if (at > state->len || len > state->len - at) {
        stop("nowhere to edit");
    }
    for (size_t i = 0; i < len; i++) state->bytes[at + i] = (uint8_t)(value >> 8 * i);
}

/* The record bytes of a log from here, so many. */
static const uint8_t *part(const struct area *log, uint64_t from, uint64_t len) {
    if (from > log->len || len > log->len - from) {
        stop("a chunk of no log");
    }
    return inside(log) + from;
}

static uint64_t ask(const uint64_t words[4], const struct area *log, uint8_t *out, uint64_t *good) {
    size_t shorter = state->len < RVZ_STREAM_BYTES ? state->len : RVZ_STREAM_BYTES - 1;
    size_t len = words[0] >= SHORT_CHUNK ? shorter : state->len;
    switch ((enum ask)words[0]) {
    case START:
        new_state((size_t)(RVZ_STREAM_BYTES + words[2] - words[3]));
        return rvz_stream_start(words[1], state->bytes, state->len);
    case AGAIN:
        return rvz_stream_start(words[1], state->bytes, state->len);
    case CHUNK:
    case SHORT_CHUNK:
        return rvz_stream_chunk(state->bytes, len, part(log, words[1], words[2]), words[2], out, words[3]);
    case END:
    case SHORT_END:
        return rvz_stream_end(state->bytes, len);
    case APPLIED:
    case SHORT_APPLIED:
        return rvz_stream_applied(state->bytes, len);
    case MOVE:
        move_state();
        return 0;
    case OTHER:
        state = state == states ? states + 1 : states;
        return 0;
    case DAMAGED:
        damaged(words, good);
        return 0;
    case NOISE:
        return noise(words, good);
    case REPEATED: {
        uint64_t answer = 0;
        for (uint64_t i = 0; i < words[3]; i++) {
            answer = rvz_stream_chunk(state->bytes, state->len, part(log, words[1], words[2]), words[2], out, 0);
        }
        return answer;
    }
    case SET_APPLIED:
        edit(applied_at(), words[1], 8);
        return 0;
    case SET_COUNT:
        edit(count_at(words[1], words[2]), words[3], 4);
        return 0;
    }
    stop("no such ask");
    return 0;
}

/* Whether this call may have changed the state, which a record that was refused before forbids. */
static int may_change(enum ask asked, unsigned refused) {
    if (asked == AGAIN) return refused == 0;
    if (asked == OTHER || asked == REPEATED || asked == SET_APPLIED || asked == SET_COUNT) return 1;
    return asked == CHUNK && refused != SIX && refused != NO_STATE && !state->refused;
}

/* Plays a script, as check/src/script.rs has it: how many calls that was. Clears `good` where a state was changed that may not be. */
static uint64_t play(const struct area *log, const struct area *script, const struct area *out, uint64_t *good) {
    uint8_t *at = inside(out), *old = block(ROOM);
    uint64_t number = 0;
    state = states + 1;
    new_state(0);
    state = states;
    new_state(0);
    for (size_t next = 0; next < script->len; next += 32, number++) {
        uint64_t words[4];
        memcpy(words, inside(script) + next, sizeof words);
        enum ask asked = (enum ask)words[0];
        size_t room = asked == CHUNK || asked == SHORT_CHUNK ? (size_t)words[3] : 0, len = state->len;
        if ((size_t)(inside(out) + out->len - at) < room + 16 || len > ROOM) {
            stop("no such script");
        }
        memcpy(old, state->bytes, len);
        uint64_t answer = ask(words, log, at + 8, good);
        unsigned refused = (unsigned)(answer & 0xFF);
        if (asked == START) {
            if (!unset_from(refused == 0 ? RVZ_STREAM_BYTES : 0)) *good = 0;
        } else if (!may_change(asked, refused)) {
            if (memcmp(old, state->bytes, len) != 0) *good = 0;
        } else if (!unset_from(RVZ_STREAM_BYTES)) {
            *good = 0;
        }
        if (asked == AGAIN && refused == 0) state->refused = 0;
        if (asked == CHUNK && refused != SIX && refused != NO_STATE) state->refused = refused != 0;
        memcpy(at, &answer, sizeof answer);
        at += room + 16;
    }
    free(old);
    return number;
}

static uint64_t answer_to(enum call call, uint64_t edition, const struct area *log, const struct area *beside, const struct area *out) {
    switch (call) {
    case REPLAY:
        return rvz_replay(inside(log), log->len, inside(out), out->len);
    case JUDGE:
        return rvz_judge(inside(log), log->len, inside(beside), beside->len);
    case DUMP:
        return rvz_dump(inside(log), log->len, inside(out), out->len);
    case DUMP_READ:
        return rvz_dump_read(inside(log), log->len, inside(out), out->len);
    case WRITE:
        return rvz_write(edition, inside(beside), beside->len, inside(log), log->len, inside(out), out->len);
    case SHRINK:
        return rvz_shrink(inside(log), log->len, inside(out), out->len);
    case SIGN:
        return rvz_sign(inside(log), log->len, inside(out), out->len);
    default:
        break;
    }
    stop("no such call");
    return 0;
}

int main(void) {
    struct lent log = reserve(), beside = reserve();
    uint8_t *out_room = fenced();
    struct { uint64_t call, log_len, beside_len, out_len, pattern, place, edition; } request;
    const size_t most = ROOM - 2 * GUARD;
    while (take(&request, sizeof request)) {
        if (request.log_len > most || request.beside_len > most || request.out_len > most || request.place > ALONE) {
            stop("no such request");
        }
        enum place place = (enum place)request.place;
        take_lent(&log, place, request.log_len);
        take_lent(&beside, place, request.beside_len);
        struct area out = lay(out_room, place, request.out_len);
        fill(&out, request.pattern);

        uint64_t answer[2];
        if (request.call == STREAM) {
            uint64_t good = 1;
            answer[0] = play(&log.area, &beside.area, &out, &good);
            answer[1] = good && kept(&log) && kept(&beside);
        } else {
            answer[0] = answer_to((enum call)request.call, request.edition, &log.area, &beside.area, &out);
            answer[1] = kept(&log) && kept(&beside);
        }

        give(answer, sizeof answer);
        give(out.start, whole(&out));
        fflush(stdout);
        if (place == ALONE) {
            free(log.area.start);
            free(beside.area.start);
            free(out.start);
        }
    }
    free(states[0].bytes);
    free(states[1].bytes);
    free(log.copy);
    free(beside.copy);
    return 0;
}
