/* The header's calls and accessors, as a C program uses them. */
#include <stdio.h>

#include "rivandoze.h"

/* Two reads of SELECT, and a transcript whose second reading is another. */
static uint64_t judge(size_t transcript_len) {
    uint8_t log[40] = {0}, transcript[16] = {0};
    log[0] = log[16] = 2;
    log[32] = 32;
    log[36] = 1;
    log[38] = 0x51;
    log[39] = 0x4D;
    transcript[8] = 1;
    return rvz_judge(log, sizeof log, transcript, transcript_len);
}

int main(void) {
    uint64_t pair = rvz_find_spi(3650000000, 86758), none = rvz_find_pwm(610000, 3);
    uint64_t rate = rvz_rate_spi(rvz_choice(pair), rvz_x(pair)), wrong = rvz_rate_pwm(8, 0);
    printf("%u %u %u %u\n", rvz_refused(pair), rvz_choice(pair), rvz_x(pair), (unsigned)rvz_pair_period(pair));
    printf("%u %u %u %u\n", rvz_refused(none), rvz_choice(none), rvz_x(none), (unsigned)rvz_pair_period(none));
    printf("%u %u/%u\n", rvz_refused(rate), (unsigned)rvz_clock(rate), (unsigned)rvz_period(rate));
    printf("%d %d\n", rvz_refused(none) == RVZ_NO_PAIR, rvz_refused(wrong) == RVZ_NO_SUCH_PAIR);
    printf("%u %u %u\n", rvz_refused(judge(16)), rvz_verdict_of(judge(16)), (unsigned)rvz_first_difference(judge(16)));
    printf("%u %u %u\n", rvz_refused(judge(8)), rvz_verdict_of(judge(8)), (unsigned)rvz_first_difference(judge(8)));
    printf("%d %d\n", rvz_verdict_of(judge(16)) == RVZ_DIFFERENT, rvz_refused(judge(8)) == RVZ_WRONG_TRANSCRIPT);
    return 0;
}
