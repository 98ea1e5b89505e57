/* Makes a log: one turn forward of an encoder, and a read of its count.
 *
 *   cc -std=c99 record.c $(pkg-config --cflags --libs rivandoze) -o record
 *   ./record ENCODER FILE
 *
 * ENCODER is its number, 0 to 9 on our boxes; another is refused, and which record it is that is wrong is told. The exit status is 0 if the
 * log was written, 1 if it was refused, 2 if ENCODER is no number or the file cannot be written. */
#include <inttypes.h>
#include <stdio.h>
#include <stdlib.h>
#include <string.h>

#include "rivandoze.h"

enum { EDITION = 1, WRITE = 1, READ = 2, PINS = 3, SELECT = 0, ENCODER = 1, CNFG = 0, CNTR = 2 };

static uint8_t records[16 * RVZ_RECORD_BYTES];
static size_t records_len;

static void add(unsigned kind, unsigned block, unsigned channel, unsigned reg, uint64_t value)
{
    rvz_put_record(records + records_len, kind, block, channel, reg, 0, value);
    records_len += RVZ_RECORD_BYTES;
}

/* The pins 00, 10, 11, 01, 00: A leads. Bit 0 is pin A, bit 1 is pin B. */
static void add_turn(unsigned encoder)
{
    static const unsigned turn[] = {0, 1, 3, 2, 0};
    size_t i;
    add(WRITE, SELECT, 0, 0, encoder < 16 ? (uint64_t)10 << (4 * encoder) : UINT64_MAX);
    add(WRITE, ENCODER, encoder, CNFG, 1);
    for (i = 0; i < sizeof turn / sizeof *turn; i++) add(PINS, ENCODER, encoder, 0, turn[i]);
    add(READ, ENCODER, encoder, CNTR, 0);
}

static int write_file(const char *name, const uint8_t *bytes, size_t len)
{
    FILE *file = fopen(name, "wb");
    if (file == NULL || fwrite(bytes, 1, len, file) != len || fclose(file) != 0) {
        perror(name);
        return 2;
    }
    return 0;
}

int main(int argc, char **argv)
{
    static const char notes[] = "one turn, made by record.c";
    static uint8_t log[RVZ_LOG_BYTES];
    uint64_t answer;
    unsigned long encoder;
    char *end;
    if (argc != 3 || (encoder = strtoul(argv[1], &end, 10)) > 255 || *end != 0 || end == argv[1]) {
        fprintf(stderr, "usage: record ENCODER FILE\n");
        return 2;
    }
    add_turn((unsigned)encoder);
    answer = rvz_write(EDITION, (const uint8_t *)notes, strlen(notes), records, records_len, log, sizeof log);
    switch (rvz_refused(answer)) {
    case RVZ_OK:
        printf("%" PRIu64 " bytes, %zu records\n", rvz_log_length(answer), records_len / RVZ_RECORD_BYTES);
        return write_file(argv[2], log, (size_t)rvz_log_length(answer));
    case RVZ_NO_SUCH_RECORD:
    case RVZ_VALUE_OUT_OF_RANGE:
        printf("refused by %u: record %" PRIu64 "\n", rvz_refused(answer), rvz_refused_record(answer));
        return 1;
    default:
        printf("refused by %u\n", rvz_refused(answer));
        return 1;
    }
}
