/* Replays every log that is named, for folders of any number of them.
 *
 *     folder FILE..       a line for each file: its name, then `applied K refused R`
 *     folder -t FILE..    one line for all: `logs N applied K refused R`, the number of records applied and of logs refused
 *
 * A line is written at once, so that several of these programs may share an output:
 *
 *     find DIR -name '*.log' -print0 | xargs -0 -P"$(nproc)" -n 500 ./folder >replayed
 *
 * A refusal is an answer. Ends with 0, or with 2 where a file cannot be read: it is told on standard error, and the others are replayed. */
#include <stdio.h>
#include <string.h>

#include "rivandoze.h"

/* A longer file is refused by 1, which its first 32,769 bytes tell as well. */
enum { LOG_BYTES = 32769, OUT_BYTES = 16384 };

/* Whether the file could be read. */
static int replayed(const char *name, uint64_t *answer)
{
    static uint8_t log[LOG_BYTES], out[OUT_BYTES];
    size_t len;
    int bad;
    FILE *file = fopen(name, "rb");
    if (file == NULL) {
        perror(name);
        return 0;
    }
    len = fread(log, 1, sizeof log, file);
    bad = ferror(file);
    if (bad) perror(name);
    fclose(file);
    if (!bad) *answer = rvz_replay(log, len, out, sizeof out);
    return !bad;
}

int main(int argc, char **argv)
{
    static char line[4096];
    int totals = argc > 1 && strcmp(argv[1], "-t") == 0, first = 1 + totals, unread = 0, i;
    unsigned long logs = 0, applied = 0, refused = 0;
    if (first >= argc) {
        fputs("usage: folder [-t] FILE..\n", stderr);
        return 2;
    }
    setvbuf(stdout, line, _IOLBF, sizeof line);
    for (i = first; i < argc; i++) {
        uint64_t answer = 0;
        if (!replayed(argv[i], &answer)) {
            unread = 1;
            continue;
        }
        logs++;
        applied += (unsigned long)rvz_applied(answer);
        refused += rvz_refused(answer) != RVZ_OK;
        if (!totals) printf("%s applied %lu refused %u\n", argv[i], (unsigned long)rvz_applied(answer), rvz_refused(answer));
    }
    if (totals) printf("logs %lu applied %lu refused %lu\n", logs, applied, refused);
    if (fflush(stdout) != 0 || ferror(stdout)) {
        perror("standard output");
        return 2;
    }
    return unread ? 2 : 0;
}
