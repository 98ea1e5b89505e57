/* Replays records while they arrive on standard input, as a scan program on the bench does: each reading is printed as soon as its record is
 * complete, and at the end how many were applied, and what refused the rest.
 *     live EDITION <records */
#include <inttypes.h>
#include <stdio.h>
#include <stdlib.h>
#include <unistd.h>

#include "rivandoze.h"

int main(int argc, char **argv)
{
    static uint8_t state[RVZ_STREAM_BYTES], chunk[4096], out[8 * (sizeof chunk / RVZ_RECORD_BYTES + 1)];
    uint64_t answer;
    ssize_t got;

    if (argc != 2) {
        fputs("usage: live EDITION <records\n", stderr);
        return 2;
    }
    answer = rvz_stream_start(strtoull(argv[1], NULL, 10), state, sizeof state);
    while (rvz_refused(answer) == RVZ_OK && (got = read(STDIN_FILENO, chunk, sizeof chunk)) > 0) {
        uint64_t i;
        answer = rvz_stream_chunk(state, sizeof state, chunk, (size_t)got, out, sizeof out);
        for (i = 0; i < rvz_stream_readings(answer); i++) printf("%" PRIu64 "\n", rvz_reading(out, i));
        fflush(stdout);
    }
    if (rvz_refused(answer) == RVZ_OK) answer = rvz_stream_end(state, sizeof state);
    printf("applied %" PRIu64 " refused %u\n", rvz_stream_applied(state, sizeof state), rvz_refused(answer));
    return rvz_refused(answer) != RVZ_OK;
}
