/* A log's pins for a waveform viewer, and what a dump says.
 *
 *     waves LOG >FILE.vcd     the dump of the log
 *     waves - DUMP            a line `TIME ns bank B encoder E pins AB` for each entry of the dump
 *
 * Ends with 0; with 1 for a refusal, which it tells on standard error; with 2 where a file cannot be read. */
#include <stdio.h>
#include <stdlib.h>
#include <string.h>

#include "rivandoze.h"

/* The first `room` bytes of a file. */
static size_t file_bytes(const char *path, uint8_t *bytes, size_t room)
{
    FILE *file = fopen(path, "rb");
    size_t len;
    if (file == NULL) {
        perror(path);
        exit(2);
    }
    len = fread(bytes, 1, room, file);
    fclose(file);
    return len;
}

static void refuse(uint64_t answer)
{
    fprintf(stderr, "refused %u\n", rvz_refused(answer));
    exit(1);
}

static void write_dump(const char *path)
{
    static uint8_t log[32769], text[RVZ_DUMP_BYTES];
    uint64_t answer = rvz_dump(log, file_bytes(path, log, sizeof log), text, sizeof text);
    if (rvz_refused(answer) != RVZ_OK) refuse(answer);
    fwrite(text, 1, (size_t)rvz_dump_length(answer), stdout);
}

static void read_dump(const char *path)
{
    static uint8_t text[RVZ_DUMP_BYTES + 1];
    /* An entry takes a change of 3 bytes at least. */
    static uint8_t entries[RVZ_DUMP_BYTES / 3 * RVZ_ENTRY_BYTES];
    uint64_t answer = rvz_dump_read(text, file_bytes(path, text, sizeof text), entries, sizeof entries);
    size_t i;
    if (rvz_refused(answer) != RVZ_OK) refuse(answer);
    for (i = 0; i < rvz_entries(answer); i++) {
        unsigned pins = rvz_entry_pins(entries, i);
        printf("%llu ns bank %u encoder %u pins %u%u\n", (unsigned long long)rvz_entry_time(entries, i), rvz_entry_bank(entries, i),
               rvz_entry_encoder(entries, i), pins & 1, pins >> 1);
    }
}

int main(int argc, char **argv)
{
    if (argc == 2) {
        write_dump(argv[1]);
    } else if (argc == 3 && strcmp(argv[1], "-") == 0) {
        read_dump(argv[2]);
    } else {
        fputs("usage: waves LOG, or waves - DUMP\n", stderr);
        return 2;
    }
    return 0;
}
