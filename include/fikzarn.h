/* Fikzarn: grades of plans of cabled boxes. Records are bytes, as docs/USERS.md lays them out; answers are words.
 *
 * Link target/staticlib/libfikzarn.a, which `scripts/library` writes (x86-64 Linux). It calls nothing but memcpy, memset and
 * the like, which C compilers call by themselves.
 *
 * For all bytes and all lengths each call ends, and does exactly what is said at it; that is proved. In turn the caller sees to this:
 *  - A pointer is not null, beside a length of 0 either, and as many bytes as its length says may be read there (in a buffer, where the
 *    pointer is not to const, also written) until the call returns. No length is above PTRDIFF_MAX.
 *  - The bytes of a buffer are none of the bytes of another argument. Arguments that are only read may overlap.
 *
 * The library has no state. A call keeps no pointer, takes no memory but stack (docs/LIMITS.md says how much) and writes nothing but
 * the bytes of its buffers. Any number of threads may call at once, as long as the bytes of a buffer are used by one of them alone.
 */
#ifndef FIKZARN_H
#define FIKZARN_H

#include <stddef.h>
#include <stdint.h>

#ifdef __cplusplus
extern "C" {
#endif

/* An answer is one word: case + 256 * number + 65536 * place. */
enum {
    FIKZARN_ACCEPTED = 0,          /* accepted, without a grade; number and place are 0 */
    FIKZARN_GRADE = 1,             /* accepted; the number is the grade, 0 to 3, and the place 0 unless said below */
    FIKZARN_PLAN_FAULT = 2,        /* the plan is refused: which refusal, and the offset in its bytes */
    FIKZARN_CERTIFICATE_FAULT = 3  /* the same of the certificate, start or path; of the session's other calls, at 0 */
};

static inline unsigned fikzarn_case(uint64_t word) {
    return (unsigned)(word & 255);
}

static inline unsigned fikzarn_number(uint64_t word) {
    return (unsigned)(word >> 8 & 255);
}

static inline uint64_t fikzarn_place(uint64_t word) {
    return word >> 16;
}

/* Reads a whole plan record: accepted, or a plan fault. Where it is accepted and `out` has room for it, `out` begins with the
 * record, written again from the plan that was read, doubled cables as often as they were there. Every other byte of `out`, or else
 * every byte, keeps its value. */
uint64_t fikzarn_plan(const uint8_t *plan, size_t plan_len, uint8_t *out, size_t out_len);

/* Checks a certificate record beside a plan record: a grade, a plan fault, or else a certificate fault. */
uint64_t fikzarn_check(const uint8_t *plan, size_t plan_len, const uint8_t *certificate, size_t certificate_len);

/* No certificate that fikzarn_certify makes is longer: a buffer of this many bytes has room for that of any plan. */
#define FIKZARN_CERTIFICATE_ROOM 1536

/* Makes a certificate of a plan that fikzarn_check accepts with the grade in the answer. Beside a grade the place is the
 * certificate's length; `out` begins with the certificate, and every byte from the length on keeps its value. Else the answer is a
 * plan fault, 30 at 0 for an accepted plan where `out` is shorter than its certificate, and no byte of `out` changes. The same plan
 * gets the same certificate in every `out` that is as long as it or longer. */
uint64_t fikzarn_certify(const uint8_t *plan, size_t plan_len, uint8_t *out, size_t out_len);

/* What fikzarn_certify answers where `out` is long enough: a grade with the certificate's length as the place, or a plan fault, which
 * is never 30. Writes nothing. */
uint64_t fikzarn_certificate_length(const uint8_t *plan, size_t plan_len);

/* No plan record is longer: a buffer of this many bytes has room for any plan, and for any list of fikzarn_mend. */
#define FIKZARN_PLAN_ROOM 1028

/* Which cables to lay so that a plan gets grade 3. Every two boxes with no cable between them are proposed; from the last of these
 * pairs to the first, one is struck out where the grade is still 3 without it and those struck out before; what remains is the list.
 * So with all of it the grade is 3, and with any one left out below 3. The list of a plan of grade 3 is empty.
 * Three buffers are lent. `list` begins with the list, written like a plan record; `mended` with the record of the plan with its own
 * cables, doubles too, and those of the list; `certificate` with the certificate that fikzarn_certify makes of that record. Every byte
 * behind them keeps its value. The answer is grade 3, with the three lengths in the place: fikzarn_length reads them.
 * Else the answer is a plan fault, and no byte changes: the plan's own; for an accepted plan 32 at 0 where plan and list together have
 * more than 512 cables, each cable of a double counted; else 30 at 0 where a buffer is shorter than what would be written there. The
 * same plan gets the same three records in all buffers that are as long as they or longer. */
uint64_t fikzarn_mend(const uint8_t *plan, size_t plan_len, uint8_t *list, size_t list_len, uint8_t *mended, size_t mended_len,
                      uint8_t *certificate, size_t certificate_len);

/* Length number i, 0 to 2, in the answer of fikzarn_mend beside a grade: of the list, the mended plan, its certificate. */
static inline size_t fikzarn_length(uint64_t word, unsigned i) {
    return (size_t)(word >> (16 * (i + 1)) & 65535);
}

/* How the replay of a script ended. */
enum {
    FIKZARN_REPLAYED = 0,      /* every call was made */
    FIKZARN_CUT = 1,           /* the script ends inside the next call */
    FIKZARN_UNKNOWN_CALL = 2,  /* the next call is none of 's', 'p', 'b', 'c' */
    FIKZARN_NO_ROOM = 3        /* the next call is whole, but `out` has no room for its answer */
};

/* Replays a session script. A script is a plan record, on which the session is opened, and then calls: 's' (start) or 'p' (path) with
 * a part, 'b' (back) or 'c' (close). The record and each part have their length before them, two bytes, the lower first.
 * 'b' takes the last path back: the session is then as it was before that path, so that others may follow, after a closing too. Its
 * answer is that of an accepted path, or 31 at 0 where no path is in; the start can't be taken back.
 * `out` begins with one answer for each call that was made, the opening first, eight bytes each, lowest byte first; every byte
 * behind them keeps its value. 8 * script_len bytes always have room.
 * Returns how it ended + 65536 * the number of answers, so that fikzarn_case and fikzarn_place read it. */
uint64_t fikzarn_session(const uint8_t *script, size_t script_len, uint8_t *out, size_t out_len);

/* Answer number i, counted from 0, of those that fikzarn_session wrote. */
static inline uint64_t fikzarn_answer(const uint8_t *out, size_t i) {
    uint64_t word = 0;
    for (size_t k = 8; k > 0; k--)
        word = word << 8 | out[8 * i + k - 1];
    return word;
}

/* How many ways of cabling `size` numbered boxes, with one cable or none between each two, give that grade: the count itself, not an
 * answer's word. It is 0 for any size but 4, 5 and 6 and for any grade above 3. The four counts of a size add up to all its plans, 2 to
 * the number of its pairs of boxes. Each call counts anew, for 6 boxes in some hundredths of a second. */
uint64_t fikzarn_count(uint64_t size, uint64_t grade);

/* Which edition of the records this library reads, and its limits. Since edition 1 a cable of a plan may equal the one before it;
 * since edition 2 fikzarn_certify refuses a buffer, by 30, only where it is shorter than the certificate. Edition 3 reads and answers as
 * edition 2 does. Since edition 4 a script may have the call 'b', which was an unknown call before. Edition 5 reads and answers as
 * edition 4 does, and has fikzarn_count; edition 6 the same, and has fikzarn_mend. Since edition 7 a number whose second byte is 128 or
 * more is refused by 33, which was 2 before; 2 stays with a second byte of 0. */
uint64_t fikzarn_edition(void);          /* 7 */
uint64_t fikzarn_min_boxes(void);        /* 4 */
uint64_t fikzarn_max_boxes(void);        /* 128 */
uint64_t fikzarn_max_cables(void);       /* 512, each cable of a double counted */
uint64_t fikzarn_certificate_room(void); /* FIKZARN_CERTIFICATE_ROOM */

#ifdef __cplusplus
}
#endif

#endif
