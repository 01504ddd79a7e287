/* Tests every function of include/fikzarn.h. tests/bindings compiles it:
 *   cc -std=c11 -Wall -Wextra -Werror -Iinclude bindings/c/test.c target/staticlib/libfikzarn.a -o target/bindings/test-c */
#include "fikzarn.h"

#include <stdio.h>
#include <string.h>

static unsigned tested, failed;

#define IS(given, expected) is(#given, __LINE__, given, expected)

static void is(const char *what, int line, uint64_t given, uint64_t expected) {
    tested++;
    if (given == expected)
        return;
    failed++;
    printf("test.c:%d: %s is %#llx, expected %#llx\n", line, what, (unsigned long long)given, (unsigned long long)expected);
}

static uint64_t word(uint64_t answer, uint64_t number, uint64_t place) {
    return answer + 256 * number + 65536 * place;
}

/* How many bytes from `from` on are still `fill`; all of them, where it is right. */
static size_t kept(const uint8_t *bytes, size_t from, size_t length, uint8_t fill) {
    size_t count = 0;
    for (size_t i = from; i < length; i++)
        count += bytes[i] == fill;
    return count;
}

/* Document 01's barns: four boxes with all cables (A), without the cable 2 3 (B), none (E); five with all cables (G, H). The same four
 * with the first cable doubled and the last one there three times; five with all cables doubled; one cable doubled alone. */
static const uint8_t FOUR[] = {4, 6, 0, 1, 0, 2, 0, 3, 1, 2, 1, 3, 2, 3};
static const uint8_t FOUR_DOUBLED[] = {4, 9, 0, 1, 0, 1, 0, 2, 0, 3, 1, 2, 1, 3, 2, 3, 2, 3, 2, 3};
static const uint8_t FOUR_BUILD[] = {3, 0, 1, 2, 3, 2, 0, 1, 2, 0, 2, 2, 0, 3, 2, 1, 2, 2, 1, 3, 2, 2, 3};
static const uint8_t SQUARE[] = {4, 5, 0, 1, 0, 2, 0, 3, 1, 2, 1, 3};
static const uint8_t SQUARE_EARS[] = {2, 0, 1, 2, 3, 0, 1, 2, 3, 0, 3, 1, 1, 2};
static const uint8_t APART[] = {4, 0};
static const uint8_t APART_SIDE[] = {0, 1, 0};
static const uint8_t FIVE[] = {5, 10, 0, 1, 0, 2, 0, 3, 0, 4, 1, 2, 1, 3, 1, 4, 2, 3, 2, 4, 3, 4};
static const uint8_t FIVE_BUILD[] = {3, 0, 1, 2, 3, 3, 0, 4, 1, 2, 0, 2, 2, 0, 3, 2, 1, 2, 2, 1, 3, 2, 2, 3,
                                     2, 4, 2, 2, 4, 3, 2, 0, 1};
static const uint8_t FIVE_HELD[] = {3, 0, 1, 2, 3, 3, 0, 4, 1, 2, 0, 2, 2, 0, 3, 2, 1, 2, 2, 1, 3, 2, 2, 3, 2, 0, 1};
static const uint8_t FIVE_DOUBLED[] = {5, 20, 0, 1, 0, 1, 0, 2, 0, 2, 0, 3, 0, 3, 0, 4, 0, 4, 1, 2, 1, 2,
                                       1, 3, 1, 3, 1, 4, 1, 4, 2, 3, 2, 3, 2, 4, 2, 4, 3, 4, 3, 4};
static const uint8_t TWICE[] = {4, 2, 0, 1, 0, 1};
/* Four boxes in a row (D). */
static const uint8_t ROW[] = {4, 3, 0, 1, 1, 2, 2, 3};
/* A cable before its predecessor. */
static const uint8_t UNSORTED[] = {4, 2, 0, 2, 0, 1};

static void limits(void) {
    IS(fikzarn_edition(), 7);
    IS(fikzarn_min_boxes(), 4);
    IS(fikzarn_max_boxes(), 128);
    IS(fikzarn_max_cables(), 512);
    IS(fikzarn_certificate_room(), FIKZARN_CERTIFICATE_ROOM);
    /* n and m have up to two bytes each, a box has one. */
    IS(FIKZARN_PLAN_ROOM, 4 + 2 * fikzarn_max_cables());
}

static void checks(void) {
    uint64_t held = fikzarn_check(FIVE, sizeof FIVE, FIVE_HELD, sizeof FIVE_HELD);
    IS(fikzarn_case(held), FIKZARN_CERTIFICATE_FAULT);
    IS(fikzarn_number(held), 27);
    IS(fikzarn_place(held), 24);
    IS(fikzarn_check(FIVE, sizeof FIVE, FIVE_BUILD, sizeof FIVE_BUILD), word(FIKZARN_GRADE, 3, 0));
    IS(fikzarn_check(FOUR, sizeof FOUR, FOUR_BUILD, sizeof FOUR_BUILD), word(FIKZARN_GRADE, 3, 0));
    IS(fikzarn_check(SQUARE, sizeof SQUARE, SQUARE_EARS, sizeof SQUARE_EARS), word(FIKZARN_GRADE, 2, 0));
    IS(fikzarn_check(APART, sizeof APART, APART_SIDE, sizeof APART_SIDE), word(FIKZARN_GRADE, 0, 0));
    IS(fikzarn_check(UNSORTED, sizeof UNSORTED, APART_SIDE, sizeof APART_SIDE), word(FIKZARN_PLAN_FAULT, 6, 4));
    /* No bytes at all, at an address that is not null. */
    IS(fikzarn_check(FOUR, 0, FOUR, 0), word(FIKZARN_PLAN_FAULT, 1, 0));
    IS(fikzarn_check(FOUR, sizeof FOUR, FOUR, 0), word(FIKZARN_CERTIFICATE_FAULT, 1, 0));
}

/* A certificate shows the same beside a plan with doubles: only pairs of boxes count. */
static void doubles(void) {
    IS(fikzarn_check(FOUR_DOUBLED, sizeof FOUR_DOUBLED, FOUR_BUILD, sizeof FOUR_BUILD), word(FIKZARN_GRADE, 3, 0));
    IS(fikzarn_check(FIVE_DOUBLED, sizeof FIVE_DOUBLED, FIVE_BUILD, sizeof FIVE_BUILD), word(FIKZARN_GRADE, 3, 0));
    IS(fikzarn_check(FIVE_DOUBLED, sizeof FIVE_DOUBLED, FIVE_HELD, sizeof FIVE_HELD), word(FIKZARN_CERTIFICATE_FAULT, 27, 24));
    IS(fikzarn_check(TWICE, sizeof TWICE, APART_SIDE, sizeof APART_SIDE), word(FIKZARN_CERTIFICATE_FAULT, 23, 1));
    const uint8_t square[] = {4, 6, 0, 1, 0, 2, 0, 3, 1, 2, 1, 2, 1, 3};
    IS(fikzarn_check(square, sizeof square, FOUR_BUILD, sizeof FOUR_BUILD), word(FIKZARN_CERTIFICATE_FAULT, 29, 0));
    IS(fikzarn_check(square, sizeof square, SQUARE_EARS, sizeof SQUARE_EARS), word(FIKZARN_GRADE, 2, 0));
}

static void written(const uint8_t *plan, size_t length) {
    uint8_t out[64];
    memset(out, 170, sizeof out);
    IS(fikzarn_plan(plan, length, out, length - 1), word(FIKZARN_ACCEPTED, 0, 0));
    IS(kept(out, 0, sizeof out, 170), sizeof out);
    IS(fikzarn_plan(plan, length, out, sizeof out), word(FIKZARN_ACCEPTED, 0, 0));
    IS((uint64_t)memcmp(out, plan, length), 0);
    IS(kept(out, length, sizeof out, 170), sizeof out - length);
}

static void plans(void) {
    written(FOUR, sizeof FOUR);
    written(TWICE, sizeof TWICE);
    written(FIVE_DOUBLED, sizeof FIVE_DOUBLED);
    uint8_t out[32];
    memset(out, 170, sizeof out);
    IS(fikzarn_plan(UNSORTED, sizeof UNSORTED, out, sizeof out), word(FIKZARN_PLAN_FAULT, 6, 4));
    IS(kept(out, 0, sizeof out, 170), sizeof out);
}

/* The certificate that was made stands in a buffer of just its length, and in none that is shorter. */
static void lent(const uint8_t *plan, size_t length, uint64_t made, const uint8_t *certificate, size_t size) {
    uint8_t out[FIKZARN_CERTIFICATE_ROOM];
    memset(out, 170, sizeof out);
    const size_t shorter[] = {0, 1, size / 2, size - 1};
    for (size_t i = 0; i < sizeof shorter / sizeof *shorter; i++)
        IS(fikzarn_certify(plan, length, out, shorter[i]), word(FIKZARN_PLAN_FAULT, 30, 0));
    IS(kept(out, 0, sizeof out, 170), sizeof out);
    IS(fikzarn_certify(plan, length, out, size), made);
    IS((uint64_t)memcmp(out, certificate, size), 0);
    IS(kept(out, size, sizeof out, 170), sizeof out - size);
}

static void certified(const uint8_t *plan, size_t length, unsigned grade) {
    uint8_t out[FIKZARN_CERTIFICATE_ROOM + 8];
    memset(out, 170, sizeof out);
    uint64_t made = fikzarn_certify(plan, length, out, sizeof out - 8);
    uint64_t size = fikzarn_place(made);
    IS(made, word(FIKZARN_GRADE, grade, size));
    IS(size <= FIKZARN_CERTIFICATE_ROOM, 1);
    if (size > FIKZARN_CERTIFICATE_ROOM)
        return;
    IS(fikzarn_check(plan, length, out, (size_t)size), word(FIKZARN_GRADE, grade, 0));
    IS(kept(out, (size_t)size, sizeof out, 170), sizeof out - size);
    IS(fikzarn_certificate_length(plan, length), made);
    lent(plan, length, made, out, (size_t)size);
}

/* The ring of 128 boxes. Its one ear goes through all of them, so that the ear's length is a number of two bytes. */
static void ring(void) {
    uint8_t plan[8 + 2 * 126] = {128, 1, 128, 1, 0, 1, 0, 127}, out[FIKZARN_CERTIFICATE_ROOM];
    for (uint8_t box = 1; box < 127; box++) {
        plan[6 + 2 * box] = box;
        plan[7 + 2 * box] = (uint8_t)(box + 1);
    }
    certified(plan, sizeof plan, 2);
    uint64_t made = fikzarn_certify(plan, sizeof plan, out, sizeof out);
    IS(out[3] == 1 && out[4] == 128 && out[5] == 1, 1);
    IS(fikzarn_place(made), 4 + 2 + 128 + 1 + (uint64_t)out[134]);
}

static void certificates(void) {
    certified(FOUR, sizeof FOUR, 3);
    certified(FIVE, sizeof FIVE, 3);
    certified(SQUARE, sizeof SQUARE, 2);
    certified(ROW, sizeof ROW, 1);
    certified(APART, sizeof APART, 0);
    certified(FOUR_DOUBLED, sizeof FOUR_DOUBLED, 3);
    certified(FIVE_DOUBLED, sizeof FIVE_DOUBLED, 3);
    certified(TWICE, sizeof TWICE, 0);
    ring();
    uint8_t out[FIKZARN_CERTIFICATE_ROOM];
    memset(out, 170, sizeof out);
    IS(fikzarn_certificate_length(UNSORTED, sizeof UNSORTED), word(FIKZARN_PLAN_FAULT, 6, 4));
    IS(fikzarn_certificate_length(FOUR, 0), word(FIKZARN_PLAN_FAULT, 1, 0));
    IS(fikzarn_certify(UNSORTED, sizeof UNSORTED, out, 0), word(FIKZARN_PLAN_FAULT, 6, 4));
    IS(fikzarn_certify(UNSORTED, sizeof UNSORTED, out, sizeof out), word(FIKZARN_PLAN_FAULT, 6, 4));
    IS(kept(out, 0, sizeof out, 170), sizeof out);
}

typedef struct {
    const uint8_t *bytes;
    size_t length;
} Record;

#define RECORD(bytes) ((Record){bytes, sizeof bytes})

/* What fikzarn_mend is lent: a buffer each for the list, the mended plan and its certificate. */
enum { LENT = FIKZARN_CERTIFICATE_ROOM + 8 };
static uint8_t buffers[3][LENT];
static const size_t NONE[3], ROOM[] = {FIKZARN_PLAN_ROOM, FIKZARN_PLAN_ROOM, FIKZARN_CERTIFICATE_ROOM};

/* Fills the buffers, and lends so many bytes of each. */
static uint64_t mend(Record plan, const size_t lent[3]) {
    for (int i = 0; i < 3; i++)
        memset(buffers[i], 170 + i, LENT);
    return fikzarn_mend(plan.bytes, plan.length, buffers[0], lent[0], buffers[1], lent[1], buffers[2], lent[2]);
}

/* Each buffer begins with its record, and is as it was filled behind it. */
static void holds(const Record records[3]) {
    for (int i = 0; i < 3; i++) {
        IS((uint64_t)memcmp(buffers[i], records[i].bytes, records[i].length), 0);
        IS(kept(buffers[i], records[i].length, LENT, (uint8_t)(170 + i)), LENT - records[i].length);
    }
}

static void not_mended(Record plan, const size_t lent[3], uint64_t refusal) {
    const Record nothing = {plan.bytes, 0};
    IS(mend(plan, lent), refusal);
    holds((const Record[]){nothing, nothing, nothing});
}

/* A plan fault or 32, which comes before 30. */
static void refused(Record plan, unsigned number, size_t place) {
    not_mended(plan, ROOM, word(FIKZARN_PLAN_FAULT, number, place));
    not_mended(plan, NONE, word(FIKZARN_PLAN_FAULT, number, place));
}

/* A plan, with the list and the mended plan that are due. The certificate is the one that fikzarn_certify makes of the mended plan. */
static void mends(Record plan, Record list, Record mended) {
    uint8_t certificate[FIKZARN_CERTIFICATE_ROOM];
    uint64_t made = fikzarn_certify(mended.bytes, mended.length, certificate, sizeof certificate);
    const Record due[] = {list, mended, {certificate, (size_t)fikzarn_place(made)}};
    const size_t exact[] = {list.length, mended.length, due[2].length};
    uint64_t answer = mend(plan, ROOM);
    holds(due);
    IS(fikzarn_case(answer), FIKZARN_GRADE);
    IS(fikzarn_number(answer), 3);
    for (unsigned i = 0; i < 3; i++)
        IS(fikzarn_length(answer, i), exact[i]);
    IS(answer, word(FIKZARN_GRADE, 3, exact[0] + 65536 * (exact[1] + 65536 * (uint64_t)exact[2])));
    IS(mend(plan, exact), answer);
    holds(due);
    IS(fikzarn_check(buffers[1], exact[1], buffers[2], exact[2]), word(FIKZARN_GRADE, 3, 0));
    /* One buffer is a byte too short, or has none; the others have room. */
    for (int i = 0; i < 6; i++) {
        size_t lent[] = {LENT, LENT, LENT};
        lent[i % 3] = i < 3 ? exact[i] - 1 : 0;
        not_mended(plan, lent, word(FIKZARN_PLAN_FAULT, 30, 0));
    }
}

/* Four boxes with the cable 0 1 so many times, and behind it `more`, which has `count` bytes. There are 128 cables or more, so their
 * number has two bytes. */
static Record repeated(uint8_t *bytes, size_t times, const uint8_t *more, size_t count) {
    const size_t cables = times + count / 2;
    const uint8_t head[] = {4, (uint8_t)(128 + cables % 128), (uint8_t)(cables / 128)};
    memcpy(bytes, head, 3);
    for (size_t i = 0; i < times; i++)
        memcpy(bytes + 3 + 2 * i, FOUR + 2, 2);
    memcpy(bytes + 3 + 2 * times, more, count);
    return (Record){bytes, 3 + 2 * cables};
}

/* 512 cables with the list, and one more, by doubles. */
static void as_many_as_may_be(Record list) {
    uint8_t plan[FIKZARN_PLAN_ROOM], mended[FIKZARN_PLAN_ROOM];
    mends(repeated(plan, 507, ROW + 4, 4), list, repeated(mended, 507, FOUR + 4, 10));
    Record over = repeated(plan, 508, ROW + 4, 4);
    refused(over, 32, 0);
    /* With a byte behind it, the plan's own fault. */
    plan[over.length] = 0;
    refused((Record){plan, over.length + 1}, 7, over.length);
}

/* 128 boxes, each cabled to the next four: 512 cables, the longest record that there is, and grade 3. */
static void longest(void) {
    uint8_t plan[FIKZARN_PLAN_ROOM] = {128, 1, 128, 4};
    const uint8_t none[] = {128, 1, 0};
    size_t at = 4;
    for (int lower = 0; lower < 128; lower++)
        for (int higher = lower + 1; higher < 128; higher++)
            if (higher - lower <= 4 || higher - lower >= 124) {
                plan[at++] = (uint8_t)lower;
                plan[at++] = (uint8_t)higher;
            }
    IS(at, FIKZARN_PLAN_ROOM);
    mends(RECORD(plan), RECORD(none), RECORD(plan));
}

static void mending(void) {
    const uint8_t none[] = {4, 0}, last[] = {4, 1, 2, 3}, three[] = {4, 3, 0, 2, 0, 3, 1, 3};
    mends(RECORD(FOUR), RECORD(none), RECORD(FOUR));
    mends(RECORD(SQUARE), RECORD(last), RECORD(FOUR));
    mends(RECORD(ROW), RECORD(three), RECORD(FOUR));
    mends(RECORD(APART), RECORD(FOUR), RECORD(FOUR));
    /* Doubles stay, and come in no list. */
    const uint8_t five[] = {4, 5, 0, 2, 0, 3, 1, 2, 1, 3, 2, 3}, seven[] = {4, 7, 0, 1, 0, 1, 0, 2, 0, 3, 1, 2, 1, 3, 2, 3};
    mends(RECORD(TWICE), RECORD(five), RECORD(seven));
    mends(RECORD(FOUR_DOUBLED), RECORD(none), RECORD(FOUR_DOUBLED));
    longest();
    as_many_as_may_be(RECORD(three));
    refused(RECORD(UNSORTED), 6, 4);
    refused((Record){FOUR, 0}, 1, 0);
}

static size_t part(uint8_t *script, size_t at, const uint8_t *bytes, size_t length) {
    script[at] = (uint8_t)length;
    script[at + 1] = (uint8_t)(length >> 8);
    memcpy(script + at + 2, bytes, length);
    return at + 2 + length;
}

/* Barn G, or with doubles, as a script: opened, started, closed too early, three paths, closed. */
static size_t five_script(uint8_t *script, const uint8_t *plan, size_t length) {
    size_t at = part(script, 0, plan, length);
    script[at] = 's';
    at = part(script, at + 1, FIVE_BUILD + 1, 23);
    script[at++] = 'c';
    for (size_t from = 24; from < sizeof FIVE_BUILD; from += 3) {
        script[at] = 'p';
        at = part(script, at + 1, FIVE_BUILD + from, 3);
    }
    script[at++] = 'c';
    return at;
}

static void replayed(const uint8_t *script, size_t length) {
    uint8_t out[64];
    const uint64_t early = word(FIKZARN_CERTIFICATE_FAULT, 31, 0);
    const uint64_t answers[] = {0, 0, early, 0, 0, 0, word(FIKZARN_GRADE, 3, 0)};
    memset(out, 170, sizeof out);
    IS(fikzarn_session(script, length, out, sizeof out), FIKZARN_REPLAYED + 65536 * 7);
    for (size_t i = 0; i < 7; i++)
        IS(fikzarn_answer(out, i), answers[i]);
    IS(kept(out, 56, sizeof out, 170), 8);
}

/* Barn G's script with paths taken back: refused before the start and before a path, one taken back and taken again, closed, all three
 * taken back and once more, then another path first, which is refused while box 4 is inside its link. */
static void taken_back(void) {
    uint8_t script[160], out[160];
    const uint64_t none = word(FIKZARN_CERTIFICATE_FAULT, 31, 0), held = word(FIKZARN_CERTIFICATE_FAULT, 27, 0);
    const uint64_t answers[] = {0, none, 0, none, 0, 0, 0, 0, 0, word(FIKZARN_GRADE, 3, 0), 0, none, 0, 0, none, held, 0, 0};
    const char calls[] = "bsbPbPQRcbcbbbRPR";
    size_t at = part(script, 0, FIVE, sizeof FIVE), count = sizeof answers / sizeof *answers;
    for (const char *call = calls; *call; call++) {
        /* P, Q and R are the three paths. */
        const int path = *call >= 'P' && *call <= 'R';
        script[at++] = path ? 'p' : (uint8_t)*call;
        if (*call == 's')
            at = part(script, at, FIVE_BUILD + 1, 23);
        if (path)
            at = part(script, at, FIVE_BUILD + 24 + 3 * (*call - 'P'), 3);
    }
    memset(out, 170, sizeof out);
    IS(fikzarn_session(script, at, out, sizeof out), FIKZARN_REPLAYED + 65536 * count);
    for (size_t i = 0; i < count; i++)
        IS(fikzarn_answer(out, i), answers[i]);
    IS(kept(out, 8 * count, sizeof out, 170), sizeof out - 8 * count);
    IS(fikzarn_session(script, at, out, 8 * 8 + 7), FIKZARN_NO_ROOM + 65536 * 8);
}

static void sessions(void) {
    uint8_t script[128], out[64];
    replayed(script, five_script(script, FIVE_DOUBLED, sizeof FIVE_DOUBLED));
    size_t length = five_script(script, FIVE, sizeof FIVE);
    replayed(script, length);
    const uint64_t early = word(FIKZARN_CERTIFICATE_FAULT, 31, 0);
    memset(out, 170, sizeof out);
    IS(fikzarn_session(script, length, out, 31), FIKZARN_NO_ROOM + 65536 * 3);
    IS(fikzarn_answer(out, 2), early);
    IS(kept(out, 24, sizeof out, 170), sizeof out - 24);
    IS(fikzarn_session(script, length, out, 0), FIKZARN_NO_ROOM);
    IS(fikzarn_session(script, length, out, 56), FIKZARN_REPLAYED + 65536 * 7);
    script[length] = 'x';
    IS(fikzarn_session(script, length + 1, out, sizeof out), FIKZARN_UNKNOWN_CALL + 65536 * 7);
    IS(fikzarn_session(script, length + 1, out, 56), FIKZARN_UNKNOWN_CALL + 65536 * 7);
    script[length] = 'p';
    IS(fikzarn_session(script, length + 1, out, sizeof out), FIKZARN_CUT + 65536 * 7);
    IS(fikzarn_session(script, length + 1, out, 56), FIKZARN_CUT + 65536 * 7);
    IS(fikzarn_session(script, 1, out, 0), FIKZARN_CUT);
}

/* A plan with a number out of its form, by every call that reads a plan: none writes a byte. */
static void no_plan(Record plan, unsigned number, size_t place) {
    const uint64_t fault = word(FIKZARN_PLAN_FAULT, number, place);
    uint8_t script[64], out[FIKZARN_CERTIFICATE_ROOM];
    memset(out, 170, sizeof out);
    IS(fikzarn_plan(plan.bytes, plan.length, out, sizeof out), fault);
    IS(fikzarn_certify(plan.bytes, plan.length, out, sizeof out), fault);
    IS(fikzarn_certify(plan.bytes, plan.length, out, 0), fault);
    IS(kept(out, 0, sizeof out, 170), sizeof out);
    IS(fikzarn_certificate_length(plan.bytes, plan.length), fault);
    IS(fikzarn_check(plan.bytes, plan.length, APART_SIDE, sizeof APART_SIDE), fault);
    refused(plan, number, place);
    /* A session that is opened on it, and closed. */
    size_t at = part(script, 0, plan.bytes, plan.length);
    script[at] = 'c';
    IS(fikzarn_session(script, at + 1, out, sizeof out), FIKZARN_REPLAYED + 65536 * 2);
    IS(fikzarn_answer(out, 0), fault);
    IS(fikzarn_answer(out, 1), word(FIKZARN_CERTIFICATE_FAULT, 31, 0));
    IS(kept(out, 16, sizeof out, 170), sizeof out - 16);
}

static void no_certificate(Record plan, Record certificate, unsigned number, size_t place) {
    IS(fikzarn_check(plan.bytes, plan.length, certificate.bytes, certificate.length), word(FIKZARN_CERTIFICATE_FAULT, number, place));
}

#define BYTES(...) RECORD(((const uint8_t[]){__VA_ARGS__}))

/* Barn G's session, with parts that have a number out of its form before the start and before the first path. */
static void no_parts(void) {
    const struct {
        char call;
        Record part;
        uint64_t answer;
    } calls[] = {
        {'s', BYTES(0, 1, 2, 131, 0), word(FIKZARN_CERTIFICATE_FAULT, 2, 3)},
        {'s', BYTES(0, 1, 2, 131, 128), word(FIKZARN_CERTIFICATE_FAULT, 33, 3)},
        {'s', BYTES(0, 1, 2, 3, 131, 255, 0, 4, 1), word(FIKZARN_CERTIFICATE_FAULT, 33, 4)},
        {'s', {FIVE_BUILD + 1, 23}, FIKZARN_ACCEPTED},
        {'p', BYTES(130, 0, 4, 2), word(FIKZARN_CERTIFICATE_FAULT, 2, 0)},
        {'p', BYTES(130, 128), word(FIKZARN_CERTIFICATE_FAULT, 33, 0)},
        {'p', BYTES(2, 4, 130, 128, 0), word(FIKZARN_CERTIFICATE_FAULT, 33, 2)},
        {'p', {FIVE_BUILD + 24, 3}, FIKZARN_ACCEPTED},
    };
    enum { CALLS = sizeof calls / sizeof *calls };
    uint8_t script[128], out[8 * CALLS + 16];
    size_t at = part(script, 0, FIVE, sizeof FIVE);
    for (size_t i = 0; i < CALLS; i++) {
        script[at] = (uint8_t)calls[i].call;
        at = part(script, at + 1, calls[i].part.bytes, calls[i].part.length);
    }
    memset(out, 170, sizeof out);
    IS(fikzarn_session(script, at, out, sizeof out), FIKZARN_REPLAYED + 65536 * (CALLS + 1));
    for (size_t i = 0; i < CALLS; i++)
        IS(fikzarn_answer(out, i + 1), calls[i].answer);
    IS(kept(out, 8 * CALLS + 8, sizeof out, 170), 8);
}

/* A number's second byte is 0 (2), or is 128 or more (33), at the record's end too; where there is none it is 1. */
static void numbers(void) {
    no_plan(BYTES(132), 1, 1);
    no_plan(BYTES(132, 0), 2, 0);
    no_plan(BYTES(132, 0, 128, 128), 2, 0);
    no_plan(BYTES(132, 128), 33, 0);
    no_plan(BYTES(132, 128, 0, 0), 33, 0);
    no_plan(BYTES(4, 131, 0, 0, 1), 2, 1);
    no_plan(BYTES(4, 131, 128, 0, 1), 33, 1);
    no_plan(BYTES(4, 1, 0, 129, 0), 2, 3);
    no_plan(BYTES(4, 1, 0, 129, 255), 33, 3);
    no_certificate(RECORD(APART), BYTES(128, 0, 1, 0), 2, 0);
    no_certificate(RECORD(APART), BYTES(128, 128), 33, 0);
    no_certificate(RECORD(APART), BYTES(0, 1, 128, 0), 2, 2);
    no_certificate(RECORD(APART), BYTES(0, 1, 128, 128), 33, 2);
    no_certificate(RECORD(ROW), BYTES(1, 1, 0, 1, 128, 255), 33, 4);
    no_certificate(RECORD(SQUARE), BYTES(2, 0, 1, 130, 128), 33, 3);
    no_certificate(RECORD(FOUR), BYTES(3, 0, 1, 2, 3, 130, 0, 0, 1), 2, 5);
    no_certificate(RECORD(FOUR), BYTES(3, 0, 1, 2, 3, 130, 128, 0, 1), 33, 5);
    no_parts();
}

/* Document 02's counts of four and five boxes; six boxes have 15 pairs. */
static void counts(void) {
    const uint64_t four[] = {26, 28, 9, 1}, five[] = {296, 490, 212, 26};
    uint64_t six = 0;
    for (uint64_t grade = 0; grade < 4; grade++) {
        IS(fikzarn_count(4, grade), four[grade]);
        IS(fikzarn_count(5, grade), five[grade]);
        six += fikzarn_count(6, grade);
    }
    IS(six, 1 << 15);
    /* Some of these have a size, or a grade, in their lowest bits. */
    const uint64_t sizes[] = {0, 3, 7, 128, 256 + 4, 65536 + 5, (1ull << 32) + 6, UINT64_MAX};
    const uint64_t grades[] = {4, 5, 256, 65536 + 1, 1ull << 32, (1ull << 63) + 3, UINT64_MAX};
    for (size_t i = 0; i < sizeof sizes / sizeof *sizes; i++)
        for (uint64_t grade = 0; grade < 5; grade++)
            IS(fikzarn_count(sizes[i], grade), 0);
    for (size_t i = 0; i < sizeof grades / sizeof *grades; i++)
        for (uint64_t size = 3; size < 8; size++)
            IS(fikzarn_count(size, grades[i]), 0);
}

int main(void) {
    limits();
    checks();
    doubles();
    plans();
    certificates();
    mending();
    sessions();
    taken_back();
    numbers();
    counts();
    printf("C: %u compared, %u differ\n", tested, failed);
    return failed != 0;
}
