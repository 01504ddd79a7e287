/* Stores the certificates of the plans in the files named, side by side, each in just the bytes that it needs; then checks each where
 * it lies. */
#include "fikzarn.h"

#include <stdio.h>

enum { PLANS = 16 };

/* No plan record has more than 1,028 bytes; what is longer is refused. */
static uint8_t plan[2048], store[4096];
/* Where each certificate begins. It ends where the next one begins. */
static size_t begins[PLANS + 1];

static size_t read_plan(const char *name) {
    FILE *file = fopen(name, "rb");
    if (!file)
        return 0;
    size_t length = fread(plan, 1, sizeof plan, file);
    fclose(file);
    return length;
}

/* Makes the certificate of the plan behind those that are stored; 0 where the plan is refused or the store is full. */
static int stored(size_t length, int at) {
    uint64_t word = fikzarn_certificate_length(plan, length);
    size_t size = (size_t)fikzarn_place(word);
    if (fikzarn_case(word) != FIKZARN_GRADE || size > sizeof store - begins[at])
        return 0;
    fikzarn_certify(plan, length, store + begins[at], size);
    begins[at + 1] = begins[at] + size;
    return 1;
}

int main(int count, char **names) {
    for (int i = 0; i < count - 1; i++) {
        if (i == PLANS || !stored(read_plan(names[i + 1]), i)) {
            printf("%s: not stored\n", names[i + 1]);
            return 1;
        }
    }
    for (int i = 0; i < count - 1; i++) {
        size_t length = read_plan(names[i + 1]), size = begins[i + 1] - begins[i];
        uint64_t checked = fikzarn_check(plan, length, store + begins[i], size);
        printf("%s: %zu bytes from byte %zu on, grade %u\n", names[i + 1], size, begins[i], fikzarn_number(checked));
    }
    return 0;
}
