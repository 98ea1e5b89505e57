/* Answers each request on standard input by the library: a kind and two numbers to a line, the whole answer in decimal on the next. */
#include <inttypes.h>
#include <stdio.h>

#include "rivandoze.h"

int main(void) {
    char kind;
    uint64_t a, b;
    while (scanf(" %c %" SCNu64 " %" SCNu64, &kind, &a, &b) == 3) {
        uint64_t answer = kind == 'P'   ? rvz_find_pwm(a, b)
                          : kind == 'S' ? rvz_find_spi(a, b)
                          : kind == 'p' ? rvz_rate_pwm(a, b)
                                        : rvz_rate_spi(a, b);
        printf("%" PRIu64 "\n", answer);
    }
    return 0;
}
