/* Between the driver and the library: does what the library does and then touches one byte that it may not, or does what no program may,
 * as WRONG in the environment says. The driver's fences, guard bytes and copy of the log, or a tool that watches, have to show it. */
#include <limits.h>
#include <stddef.h>
#include <stdint.h>
#include <stdlib.h>
#include <string.h>

#include "rivandoze.h"

uint64_t __real_rvz_replay(const uint8_t *log, size_t log_len, uint8_t *out, size_t out_len);
uint64_t __wrap_rvz_replay(const uint8_t *log, size_t log_len, uint8_t *out, size_t out_len);
uint64_t __real_rvz_judge(const uint8_t *log, size_t log_len, const uint8_t *transcript, size_t transcript_len);
uint64_t __wrap_rvz_judge(const uint8_t *log, size_t log_len, const uint8_t *transcript, size_t transcript_len);

static void look(const uint8_t *at) {
    volatile uint8_t seen = *(const volatile uint8_t *)at;
    (void)seen;
}

/* Without a look: the tools tell the two apart. */
static void change(uint8_t *at) { *(volatile uint8_t *)at = 0x5A; }

static void use_unset(void) {
    volatile uint8_t *block = malloc(1);
    if (block != NULL && *block == 0x5A) exit(3);
    free((void *)block);
}

static void pass_int_max(void) {
    volatile int number = INT_MAX;
    number = number + 1;
}

uint64_t __wrap_rvz_replay(const uint8_t *log, size_t log_len, uint8_t *out, size_t out_len) {
    uint64_t answer = __real_rvz_replay(log, log_len, out, out_len);
    const char *wrong = getenv("WRONG");
    if (strcmp(wrong, "reads-before-log") == 0) look(log - 1);
    if (strcmp(wrong, "reads-behind-log") == 0) look(log + log_len);
    if (strcmp(wrong, "reads-before-output") == 0) look(out - 1);
    if (strcmp(wrong, "reads-behind-output") == 0) look(out + out_len);
    if (strcmp(wrong, "writes-log") == 0 && log_len > 0) change((uint8_t *)log);
    if (strcmp(wrong, "writes-before-output") == 0) change(out - 1);
    if (strcmp(wrong, "writes-behind-output") == 0) change(out + out_len);
    if (strcmp(wrong, "writes-output") == 0 && out_len > 0) change(out + out_len - 1);
    if (strcmp(wrong, "uses-unset-memory") == 0) use_unset();
    if (strcmp(wrong, "passes-INT_MAX") == 0) pass_int_max();
    return answer;
}

uint64_t __wrap_rvz_judge(const uint8_t *log, size_t log_len, const uint8_t *transcript, size_t transcript_len) {
    uint64_t answer = __real_rvz_judge(log, log_len, transcript, transcript_len);
    const char *wrong = getenv("WRONG");
    if (strcmp(wrong, "judge-reads-before-log") == 0) look(log - 1);
    if (strcmp(wrong, "judge-reads-behind-log") == 0) look(log + log_len);
    if (strcmp(wrong, "judge-writes-log") == 0 && log_len > 0) change((uint8_t *)log);
    if (strcmp(wrong, "judge-reads-before-transcript") == 0) look(transcript - 1);
    if (strcmp(wrong, "judge-reads-behind-transcript") == 0) look(transcript + transcript_len);
    if (strcmp(wrong, "judge-writes-transcript") == 0 && transcript_len > 0) change((uint8_t *)transcript);
    return answer;
}

/* What WRONG says behind the name of the call. */
static void touch(const char *call, const uint8_t *input, size_t input_len, uint8_t *out, size_t out_len) {
    const char *wrong = getenv("WRONG");
    if (strncmp(wrong, call, strlen(call)) != 0) return;
    wrong += strlen(call);
    if (strcmp(wrong, "-reads-before-input") == 0) look(input - 1);
    if (strcmp(wrong, "-reads-behind-input") == 0) look(input + input_len);
    if (strcmp(wrong, "-reads-before-output") == 0) look(out - 1);
    if (strcmp(wrong, "-reads-behind-output") == 0) look(out + out_len);
    if (strcmp(wrong, "-writes-input") == 0 && input_len > 0) change((uint8_t *)input);
    if (strcmp(wrong, "-writes-before-output") == 0) change(out - 1);
    if (strcmp(wrong, "-writes-behind-output") == 0) change(out + out_len);
}

/* A call of an input and an output. */
#define WRAPPED(call, name)                                                                            \
    uint64_t __real_##call(const uint8_t *input, size_t input_len, uint8_t *out, size_t out_len);      \
    uint64_t __wrap_##call(const uint8_t *input, size_t input_len, uint8_t *out, size_t out_len);      \
    uint64_t __wrap_##call(const uint8_t *input, size_t input_len, uint8_t *out, size_t out_len) {     \
        uint64_t answer = __real_##call(input, input_len, out, out_len);                               \
        touch(name, input, input_len, out, out_len);                                                   \
        return answer;                                                                                 \
    }

WRAPPED(rvz_dump, "dump")
WRAPPED(rvz_dump_read, "dump-read")
WRAPPED(rvz_shrink, "shrink")
WRAPPED(rvz_sign, "sign")

uint64_t __real_rvz_write(uint64_t edition, const uint8_t *notes, size_t notes_len, const uint8_t *records, size_t records_len, uint8_t *out,
    size_t out_len);
uint64_t __wrap_rvz_write(uint64_t edition, const uint8_t *notes, size_t notes_len, const uint8_t *records, size_t records_len, uint8_t *out,
    size_t out_len);

uint64_t __wrap_rvz_write(uint64_t edition, const uint8_t *notes, size_t notes_len, const uint8_t *records, size_t records_len, uint8_t *out,
    size_t out_len) {
    uint64_t answer = __real_rvz_write(edition, notes, notes_len, records, records_len, out, out_len);
    touch("write", records, records_len, out, out_len);
    touch("write-notes", notes, notes_len, out, out_len);
    return answer;
}

uint64_t __real_rvz_stream_chunk(uint8_t *state, size_t state_len, const uint8_t *chunk, size_t chunk_len, uint8_t *out, size_t out_len);
uint64_t __wrap_rvz_stream_chunk(uint8_t *state, size_t state_len, const uint8_t *chunk, size_t chunk_len, uint8_t *out, size_t out_len);
uint64_t __real_rvz_stream_end(const uint8_t *state, size_t state_len);
uint64_t __wrap_rvz_stream_end(const uint8_t *state, size_t state_len);
uint64_t __real_rvz_stream_applied(const uint8_t *state, size_t state_len);
uint64_t __wrap_rvz_stream_applied(const uint8_t *state, size_t state_len);

/* The first byte of a state, or of what is none, where WRONG says this. */
static void spoil(const char *when, int now, const uint8_t *state, size_t state_len) {
    if (now && state_len > 0 && strcmp(getenv("WRONG"), when) == 0) change((uint8_t *)state);
}

/* A chunk lies between others, so that only what is written shows. */
uint64_t __wrap_rvz_stream_chunk(uint8_t *state, size_t state_len, const uint8_t *chunk, size_t chunk_len, uint8_t *out, size_t out_len) {
    uint64_t end = __real_rvz_stream_end(state, state_len);
    uint64_t answer = __real_rvz_stream_chunk(state, state_len, chunk, chunk_len, out, out_len);
    touch("stream", chunk, chunk_len, out, out_len);
    spoil("stream-spoils-state-on-6", (answer & 0xFF) == 6, state, state_len);
    spoil("stream-spoils-state-on-19", (answer & 0xFF) == 19, state, state_len);
    spoil("stream-spoils-state-behind-a-refusal", end != 0 && end != 5 && end != 19, state, state_len);
    if (state_len > RVZ_STREAM_BYTES) spoil("stream-writes-behind-state", 1, state + RVZ_STREAM_BYTES, 1);
    return answer;
}

uint64_t __wrap_rvz_stream_end(const uint8_t *state, size_t state_len) {
    uint64_t answer = __real_rvz_stream_end(state, state_len);
    spoil("stream-spoils-state-at-the-end", 1, state, state_len);
    return answer;
}

uint64_t __wrap_rvz_stream_applied(const uint8_t *state, size_t state_len) {
    uint64_t answer = __real_rvz_stream_applied(state, state_len);
    spoil("stream-spoils-state-when-counted", 1, state, state_len);
    return answer;
}
