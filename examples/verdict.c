/* Judges transcripts by the replay of a log: whose readings are right, whose counts have the wrong sign, and whose are neither. Then what the
 * log itself settles, whoever reads it: for each stretch in which an encoder counts undisturbed, the direction in which its shaft went.
 *
 *   cc -std=c99 verdict.c $(pkg-config --cflags --libs rivandoze) -o verdict
 *   ./verdict LOG TRANSCRIPT..
 *
 * A transcript is the readings that a program has found in the log: 8 bytes each, least byte first, in log order. The exit status is 0 if
 * each was judged, 1 if one was refused, 2 if a file cannot be read. */
#include <inttypes.h>
#include <stdio.h>

#include "rivandoze.h"

enum { LOG_MAX = 32768, OUT_LEN = 16384 };

/* A file of at most `max` bytes, or one byte more of a longer one, so that it is seen; -1 if it cannot be read. */
static long read_file(const char *name, uint8_t *bytes, size_t max) {
    FILE *file = fopen(name, "rb");
    size_t len;
    if (file == NULL) {
        perror(name);
        return -1;
    }
    len = fread(bytes, 1, max + 1, file);
    if (ferror(file)) {
        perror(name);
        fclose(file);
        return -1;
    }
    fclose(file);
    return (long)len;
}

static void print_refusal(unsigned refusal) {
    if (refusal == RVZ_WRONG_TRANSCRIPT) {
        printf("refused by 17: it has not 8 bytes for each reading of the log\n");
    } else {
        printf("refused by %u, which is the log's own refusal\n", refusal);
    }
}

static void print_verdict(uint64_t answer, const uint8_t *log, size_t log_len, const uint8_t *transcript) {
    static uint8_t out[OUT_LEN];
    uint64_t index = rvz_first_difference(answer);
    switch (rvz_verdict_of(answer)) {
    case RVZ_SAME:
        printf("same: its readings are the replay's\n");
        break;
    case RVZ_NEGATED:
        printf("negated: its readings are the replay's but for the sign of every count\n");
        break;
    case RVZ_BOTH:
        printf("both: its readings are the replay's, and to negate every count changes none of them\n");
        break;
    default:
        rvz_replay(log, log_len, out, sizeof out);
        printf("different: reading %" PRIu64 " is %" PRIu64 ", and the replay's is %" PRIu64 "\n", index, rvz_reading(transcript, (size_t)index),
               rvz_reading(out, (size_t)index));
    }
}

static const char *plus(int64_t n) { return n > 0 ? "+" : ""; }
static const char *plural(int64_t n) { return n == 1 ? "" : "s"; }

/* The stretches of the records that are applied, in the words of `rvz sign`. A double change may have been two steps either way, so the travel is
 * a range; more steps than 2d settle its direction. */
static void print_stretch(const uint8_t *out, size_t i) {
    static const char *const words[] = {"open", "forward", "backward", "still"};
    int64_t steps = rvz_stretch_steps(out, i), size = steps < 0 ? -steps : steps;
    int64_t pins = (int64_t)rvz_stretch_pins(out, i), doubles = (int64_t)rvz_stretch_doubles(out, i);
    int64_t least = steps - 2 * doubles, most = steps + 2 * doubles, wanting = 2 * doubles + 1 - size;
    unsigned direction = rvz_stretch_direction(out, i);
    printf("bank %u encoder %u: records %" PRIu64 " to %" PRIu64 ", %" PRId64 " pin%s", rvz_stretch_bank(out, i), rvz_stretch_encoder(out, i),
           rvz_stretch_first(out, i), rvz_stretch_last(out, i), pins, plural(pins));
    printf(", %s%" PRId64 " step%s, %" PRId64 " double change%s", plus(steps), steps, plural(size), doubles, plural(doubles));
    printf(", travel %s%" PRId64 " to %s%" PRId64 ": %s", plus(least), least, plus(most), most, words[direction]);
    if (direction == RVZ_OPEN) printf(", %" PRId64 " step%s short of a direction", wanting, plural(wanting));
    putchar('\n');
}

static void print_settled(const uint8_t *log, size_t log_len) {
    static uint8_t out[RVZ_SIGN_BYTES];
    uint64_t count = rvz_stretches(rvz_sign(log, log_len, out, sizeof out));
    size_t i;
    for (i = 0; i < count; i++) print_stretch(out, i);
}

int main(int argc, char **argv) {
    static uint8_t log[LOG_MAX + 1], transcript[OUT_LEN + 1];
    int i, status = 0;
    long log_len, len;
    if (argc < 3) {
        fprintf(stderr, "usage: verdict LOG TRANSCRIPT..\n");
        return 2;
    }
    log_len = read_file(argv[1], log, LOG_MAX);
    if (log_len < 0) return 2;
    for (i = 2; i < argc; i++) {
        uint64_t answer;
        len = read_file(argv[i], transcript, OUT_LEN);
        if (len < 0) return 2;
        answer = rvz_judge(log, (size_t)log_len, transcript, (size_t)len);
        printf("%s: ", argv[i]);
        if (rvz_refused(answer) != RVZ_OK) {
            print_refusal(rvz_refused(answer));
            status = 1;
        } else {
            print_verdict(answer, log, (size_t)log_len, transcript);
        }
    }
    print_settled(log, (size_t)log_len);
    return status;
}
