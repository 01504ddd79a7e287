/* Makes a certificate of the plan on standard input, checks it, and prints the grade. */
#include "fikzarn.h"

#include <stdio.h>

int main(void) {
    uint8_t plan[4096], certificate[FIKZARN_CERTIFICATE_ROOM];
    size_t length = fread(plan, 1, sizeof plan, stdin);
    uint64_t made = fikzarn_certify(plan, length, certificate, sizeof certificate);
    if (fikzarn_case(made) != FIKZARN_GRADE) {
        printf("plan refused %u at %u\n", fikzarn_number(made), (unsigned)fikzarn_place(made));
        return 1;
    }
    uint64_t checked = fikzarn_check(plan, length, certificate, (size_t)fikzarn_place(made));
    printf("grade %u\n", fikzarn_number(checked));
    return 0;
}
