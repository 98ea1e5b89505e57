/* Replays a log file, prints each reading with its register's name, and explains a refusal.
 *
 *   cc -std=c99 scan.c $(pkg-config --cflags --libs rivandoze) -o scan
 *   ./scan FILE
 *
 * The exit status is 0 if nothing was refused, 1 if something was, 2 if the file cannot be read. */
#include <inttypes.h>
#include <stdio.h>

#include "rivandoze.h"

enum { LOG_MAX = 32768, OUT_LEN = 16384, RECORD_LEN = 16, TRAILER_LEN = 8 };
enum { WRITE = 1, READ = 2, PINS = 3, TICKS = 4, ANSWER = 5 };
enum { BLOCKS = 4, ENCODER = 1, REGISTERS = 6, STAT = 1, CNTR = 2 };

struct block {
    const char *name;
    int has_channels;
    const char *registers[REGISTERS];
};

static const struct block blocks[BLOCKS] = {
    {"function", 0, {"SELECT", NULL, NULL, NULL, NULL, NULL}},
    {"encoder", 1, {"CNFG", "STAT", "CNTR", NULL, NULL, NULL}},
    {"PWM", 1, {"CNFG", "CS", "MAX", "CMP", "CNTR", "output level"}},
    {"I2C", 0, {"ADDR", "CNTL", "GO", "state", "failure", NULL}},
};

/* By their numbers; those of rates, 12 to 15, no log gives. */
static const char *const reasons[] = {
    "nothing is refused",
    "the log is longer than 32,768 bytes",
    "the log is shorter than its trailer of 8 bytes",
    "the trailer does not end in the mark 51 4D",
    "the trailer's edition is none of 1 to 4",
    "the trailer's distance is no multiple of 16, or reaches back before the log",
    "the readings do not fit into the output",
    "it names no kind, block, channel, register or access that there is, or a byte that must be 0 is not",
    "its value is outside the range of the register or of the record",
    "its channel is not routed to any pin",
    "these pin functions cannot be combined",
    "the control code in CNTL is not allowed here",
    "the wanted rate is out of range",
    "the tolerance is above 1,000,000",
    "no pair is within the tolerance",
    "there is no such divider choice or X",
    "STOP would follow a received byte that was acknowledged",
    "the transcript has another length than the readings",
    "step-and-direction mode (MODE 1) is not allowed in edition 3",
};

/* Everything in a log is little-endian, as readings are. */
static uint64_t value_of(const uint8_t *record) { return rvz_reading(record + 8, 0); }

static void print_place(const uint8_t *record) {
    unsigned block = record[1], channel = record[2], reg = record[3];
    if (block >= BLOCKS) {
        printf("block %u channel %u register %u", block, channel, reg);
        return;
    }
    printf("%s", blocks[block].name);
    if (blocks[block].has_channels) {
        printf(" %u", channel);
    } else if (channel != 0) {
        printf(" channel %u", channel);
    }
    if (record[4] != 0) printf(" of bank %u", (unsigned)record[4]);
    if (reg < REGISTERS && blocks[block].registers[reg] != NULL) {
        printf(" %s", blocks[block].registers[reg]);
    } else {
        printf(" register %u", reg);
    }
}

/* What the number of a reading says, where that is not plain. */
static void print_sense(const uint8_t *record, uint64_t reading) {
    static const char *const flags[] = {"DIR", "ERR", "UOVR", "SOVR", "UOERR", "SOERR"};
    int i;
    if (record[1] != ENCODER) return;
    if (record[3] == STAT) {
        for (i = 0; i < 6; i++) {
            if (reading >> i & 1) printf(" %s", flags[i]);
        }
    }
    if (record[3] == CNTR && reading > INT32_MAX) {
        printf(" (%" PRId64 ")", (int64_t)reading - ((int64_t)1 << 32));
    }
}

static void print_pins(const uint8_t *record) {
    uint64_t value = value_of(record);
    if (record[1] == ENCODER && record[3] == 0 && value <= 3) {
        printf("pins of encoder %u", (unsigned)record[2]);
        if (record[4] != 0) printf(" of bank %u", (unsigned)record[4]);
        printf(": A %u, B %u", (unsigned)(value & 1), (unsigned)(value >> 1));
        return;
    }
    printf("pins of ");
    print_place(record);
    printf(": %" PRIu64, value);
}

static void print_meaning(const uint8_t *record) {
    uint64_t value = value_of(record);
    switch (record[0]) {
    case WRITE:
        printf("write of ");
        print_place(record);
        printf(", value %" PRIu64, value);
        break;
    case READ:
        printf("read of ");
        print_place(record);
        if (value != 0) printf(", with the value %" PRIu64, value);
        break;
    case PINS:
        print_pins(record);
        break;
    case ANSWER:
        printf("answer %" PRIu64 " of the slave", value);
        if (record[4] != 0) printf(" of bank %u", (unsigned)record[4]);
        break;
    case TICKS:
        printf("%" PRIu64 " ticks", value);
        if (record[1] != 0 || record[2] != 0 || record[3] != 0) {
            printf(" of ");
            print_place(record);
        }
        break;
    default:
        printf("kind %u of ", (unsigned)record[0]);
        print_place(record);
        printf(", value %" PRIu64, value);
    }
    if (record[5] != 0 || record[6] != 0 || record[7] != 0) {
        printf(", with reserved bytes that are not 0");
    }
}

static void explain(unsigned refusal, uint64_t index, const uint8_t *record) {
    int i;
    printf("record %" PRIu64 " is refused by %u: %s\n   ", index, refusal, reasons[refusal]);
    for (i = 0; i < RECORD_LEN; i++) printf(" %02X", (unsigned)record[i]);
    printf("\n    ");
    print_meaning(record);
    printf("\n");
}

/* The records of a log whose trailer was not refused. */
static const uint8_t *records_of(const uint8_t *log, size_t len) {
    const uint8_t *trailer = log + len - TRAILER_LEN;
    size_t distance = trailer[0] | (size_t)trailer[1] << 8 | (size_t)trailer[2] << 16 | (size_t)trailer[3] << 24;
    return trailer - distance;
}

static void print_reading(uint64_t index, const uint8_t *record, uint64_t reading) {
    printf("record %" PRIu64 ": ", index);
    print_place(record);
    printf(" = %" PRIu64, reading);
    print_sense(record, reading);
    printf("\n");
}

/* The exit status. */
static int scan(const uint8_t *log, size_t len) {
    static uint8_t out[OUT_LEN];
    uint64_t answer = rvz_replay(log, len, out, sizeof out);
    unsigned refusal = rvz_refused(answer);
    uint64_t applied = rvz_applied(answer), i;
    const uint8_t *records;
    size_t reading = 0;

    if (refusal != RVZ_OK && refusal <= RVZ_OUTPUT_TOO_SHORT) {
        printf("the log is refused by %u: %s\n", refusal, reasons[refusal]);
        return 1;
    }
    records = records_of(log, len);
    for (i = 0; i < applied; i++) {
        const uint8_t *record = records + i * RECORD_LEN;
        if (record[0] == READ) print_reading(i, record, rvz_reading(out, reading++));
    }
    if (refusal != RVZ_OK) explain(refusal, applied, records + applied * RECORD_LEN);
    printf("records applied: %" PRIu64 "\n", applied);
    return refusal == RVZ_OK ? 0 : 1;
}

int main(int argc, char **argv) {
    static uint8_t log[LOG_MAX + 1]; /* One more than a log may have, so that a longer one is seen. */
    size_t len;
    FILE *file;
    if (argc != 2) {
        fprintf(stderr, "usage: scan FILE\n");
        return 2;
    }
    file = fopen(argv[1], "rb");
    if (file == NULL) {
        perror(argv[1]);
        return 2;
    }
    len = fread(log, 1, sizeof log, file);
    if (ferror(file)) {
        perror(argv[1]);
        fclose(file);
        return 2;
    }
    fclose(file);
    return scan(log, len);
}
