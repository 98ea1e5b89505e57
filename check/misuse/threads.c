/* Several threads make every call on the same logs at once, each into an output of its own, and must find what one thread alone has found:
 * the calls keep no state. ThreadSanitizer watches what is compiled from C.
 *   threads THREADS ROUNDS LOG..   prints how often all calls were made
 * With SHARED the threads share one output, which ThreadSanitizer has to see. */
#define _DEFAULT_SOURCE
#include "memory.h"
#include "rivandoze.h"
#include <pthread.h>

enum { MOST = 64, TRAILER = 8 };

/* What a thread writes to. */
struct lent {
    uint8_t out[RVZ_SIGN_BYTES], text[RVZ_DUMP_BYTES], readings[16384];
};

static uint64_t with(uint64_t sum, uint64_t number) { return (sum ^ number) * 1099511628211u; }

static uint64_t bytes_too(uint64_t sum, const uint8_t *bytes, size_t len) {
    for (size_t i = 0; i < len; i++) sum = with(sum, bytes[i]);
    return sum;
}

/* Everything that all calls answer and write of a log, as one number. */
static uint64_t all_calls(struct bytes log, struct lent *lent) {
    memset(lent, 0, sizeof *lent);
    uint8_t *out = lent->out;
    uint64_t replayed = rvz_replay(log.at, log.len, lent->readings, sizeof lent->readings);
    uint64_t sum = bytes_too(with(1, replayed), lent->readings, sizeof lent->readings);
    for (size_t len = 0; len <= sizeof lent->readings; len += 8 + len) sum = with(sum, rvz_judge(log.at, log.len, lent->readings, len));
    sum = bytes_too(with(sum, rvz_sign(log.at, log.len, out, sizeof lent->out)), out, sizeof lent->out);
    sum = bytes_too(with(sum, rvz_shrink(log.at, log.len, out, sizeof lent->out)), out, sizeof lent->out);
    uint64_t dumped = rvz_dump(log.at, log.len, lent->text, sizeof lent->text);
    sum = bytes_too(with(sum, dumped), lent->text, sizeof lent->text);
    sum = with(sum, rvz_dump_read(lent->text, (size_t)rvz_dump_length(dumped), out, sizeof lent->out));
    sum = bytes_too(sum, out, sizeof lent->out);
    size_t records_len = (log.len - TRAILER) / 16 * 16;
    const uint8_t *records = log.at + log.len - TRAILER - records_len;
    for (uint64_t edition = 0; edition < 6; edition++) {
        sum = with(sum, rvz_write(edition, log.at, 5, records, records_len, out, sizeof lent->out));
        sum = bytes_too(sum, out, sizeof lent->out);
    }
    const size_t whole = RVZ_STREAM_BYTES, step = 40;
    uint8_t *state = lent->text;
    sum = with(sum, rvz_stream_start(log.at[log.len - 4], state, whole));
    for (size_t at = 0; at < records_len; at += step) {
        size_t len = records_len - at < step ? records_len - at : step;
        sum = with(sum, rvz_stream_chunk(state, whole, records + at, len, out, step));
        sum = bytes_too(sum, out, step);
    }
    sum = with(with(sum, rvz_stream_end(state, whole)), rvz_stream_applied(state, whole));
    sum = with(sum, rvz_find_pwm(40000 + log.len, 1000000));
    return with(with(sum, rvz_find_spi(40000 + log.len, 1000000)), rvz_rate_pwm(1 + log.len % 7, log.len));
}

static struct bytes logs[1024];
static uint64_t alone[1024];
static int number, rounds;
#ifdef SHARED
static struct lent shared;
#endif

static void *thread(void *index) {
#ifdef SHARED
    struct lent *lent = &shared;
#else
    struct lent *lent = malloc(sizeof *lent);
#endif
    if (lent == NULL) stop("no memory", "a thread");
    for (int i = 0; i < rounds * number; i++) {
        /* Some threads are at the same log, some at another. */
        int at = (i + (int)(size_t)index / 2) % number;
        if (all_calls(logs[at], lent) != alone[at]) return "answered otherwise than alone";
    }
#ifndef SHARED
    free(lent);
#endif
    return NULL;
}

int main(int argc, char **argv) {
    static struct lent lent;
    pthread_t threads[MOST];
    int all = argc > 3 ? atoi(argv[1]) : 0;
    if (all < 1 || all > MOST || argc > 1024) stop("usage", "threads THREADS ROUNDS LOG..");
    rounds = atoi(argv[2]);
    for (number = 0; number < argc - 3; number++) {
        logs[number] = file(argv[number + 3]);
        if (logs[number].len < TRAILER) stop("no log", argv[number + 3]);
        alone[number] = all_calls(logs[number], &lent);
    }
    for (int i = 0; i < all; i++) {
        if (pthread_create(&threads[i], NULL, thread, (void *)(size_t)i) != 0) stop("no thread", argv[1]);
    }
    int wrong = 0;
    for (int i = 0; i < all; i++) {
        void *said = NULL;
        pthread_join(threads[i], &said);
        if (said != NULL) {
            fprintf(stderr, "thread %d %s\n", i, (const char *)said);
            wrong = 1;
        }
    }
    for (int i = 0; i < number; i++) free(logs[i].at);
    if (!wrong) printf("%d threads, %d logs, all calls %d times\n", all, number, all * number * rounds);
    return wrong;
}
