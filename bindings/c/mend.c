/* Mends the plan on standard input: prints the cables to lay, the grade before, and the grade that the checker gives the mended plan. */
#include "fikzarn.h"

#include <stdio.h>

static uint8_t plan[4096], list[FIKZARN_PLAN_ROOM], mended[FIKZARN_PLAN_ROOM], certificate[FIKZARN_CERTIFICATE_ROOM];

/* The number at `at`, which goes on behind it. */
static unsigned number(const uint8_t **at) {
    unsigned low = *(*at)++;
    return low < 128 ? low : low - 128 + 128u * *(*at)++;
}

int main(void) {
    size_t length = fread(plan, 1, sizeof plan, stdin);
    uint64_t made = fikzarn_mend(plan, length, list, sizeof list, mended, sizeof mended, certificate, sizeof certificate);
    if (fikzarn_case(made) != FIKZARN_GRADE) {
        printf("plan refused %u at %u\n", fikzarn_number(made), (unsigned)fikzarn_place(made));
        return 1;
    }
    const uint8_t *at = list;
    number(&at); /* how many boxes */
    for (unsigned left = number(&at); left > 0; left--) {
        unsigned lower = number(&at), higher = number(&at);
        printf("lay %u %u\n", lower, higher);
    }
    uint64_t before = fikzarn_certificate_length(plan, length);
    uint64_t after = fikzarn_check(mended, fikzarn_length(made, 1), certificate, fikzarn_length(made, 2));
    printf("grade %u before, %u after\n", fikzarn_number(before), fikzarn_number(after));
    return 0;
}
