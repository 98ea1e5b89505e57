/* Logs for the archive, without the records that change nothing.
 *
 *     archive LOG SMALLER     writes the smaller log of LOG to the file SMALLER
 *
 * Prints `N of M bytes`, then whether both logs have the same readings. Ends with 0; with 1 for a refusal, which it tells on standard error
 * and which leaves SMALLER as it was; with 2 where a file cannot be read or written. */
#include <stdio.h>
#include <stdlib.h>
#include <string.h>

#include "rivandoze.h"

static FILE *opened(const char *path, const char *mode)
{
    FILE *file = fopen(path, mode);
    if (file == NULL) {
        perror(path);
        exit(2);
    }
    return file;
}

/* The readings of a log, of which there are 16,384 bytes at most; how many records were applied is of no account here. */
static void readings(const uint8_t *log, size_t len, uint8_t out[16384])
{
    memset(out, 0, 16384);
    rvz_replay(log, len, out, 16384);
}

int main(int argc, char **argv)
{
    static uint8_t log[32769], smaller[32768], before[16384], after[16384];
    FILE *file;
    uint64_t answer;
    size_t len, size;
    if (argc != 3) {
        fputs("usage: archive LOG SMALLER\n", stderr);
        return 2;
    }
    file = opened(argv[1], "rb");
    len = fread(log, 1, sizeof log, file);
    fclose(file);
    answer = rvz_shrink(log, len, smaller, sizeof smaller);
    if (rvz_refused(answer) != RVZ_OK) {
        fprintf(stderr, "refused %u\n", rvz_refused(answer));
        return 1;
    }
    size = (size_t)rvz_smaller_length(answer);
    file = opened(argv[2], "wb");
    if (fwrite(smaller, 1, size, file) != size || fclose(file) != 0) {
        perror(argv[2]);
        return 2;
    }
    readings(log, len, before);
    readings(smaller, size, after);
    printf("%lu of %lu bytes, %s readings\n", (unsigned long)size, (unsigned long)len,
           memcmp(before, after, sizeof before) == 0 ? "the same" : "other");
    return 0;
}
