/* Wizogbare for callers in C and C++: the eight calls, their constants, and functions that take an answer apart.
 *
 * `tests/build embed` writes target/staticlib/libembed.a, for x86-64. What each call answers and leaves is proved:
 * crates/embed/src/lib.rt has the calls, crates/embed/specs/paper/Codes the codes.
 *
 * A list of sets is a run of 64-bit numbers, one for each set; abducible j is the number 2^j. A book's image is a run of
 * bytes, and so is a text with rules as one types them. Of each run a pointer and a length is passed; the length is counted in entries, not in bytes.
 *
 * What a call answers is one number, its code. No two answers of a call have one code.
 *
 *     call      answer                                     code
 *     read      accepted                                   0
 *               refused with number n at place p           2^32 * n + p
 *     judge     explains                                   0
 *               goal literal at place p is false           2^56 + p
 *               constraint at place p does not hold        2 * 2^56 + p
 *               refused with number n                      3 * 2^56 + n
 *               image refused, number n at place p         4 * 2^56 + 2^32 * n + p
 *     list      listed k sets, after n nodes               2^32 * k + n
 *               refused with number m, after n nodes       2^56 + 2^32 * m + n
 *               image refused, number n at place p         2 * 2^56 + 2^32 * n + p
 *     verdict   unexplained, after n nodes                 n
 *               needed, after n nodes                      2^56 + n
 *               possible, after n nodes                    2 * 2^56 + n
 *               ruled out, after n nodes                   3 * 2^56 + n
 *               refused with number m, after n nodes       4 * 2^56 + 2^32 * m + n
 *               image refused, number n at place p         5 * 2^56 + 2^32 * n + p
 *     admits    admitted, after n nodes                    n
 *               excluded, after n nodes                    2^56 + n
 *               refused with number m, after n nodes       2 * 2^56 + 2^32 * m + n
 *               image refused, number n at place p         3 * 2^56 + 2^32 * n + p
 *     join      joined, k sets                             k
 *               refused with number n                      2^32 * n
 *     text,     written, n bytes                           n
 *     names     refused with number n                      2^32 * n
 *
 * A refusal of the image itself, 1 to 9, has a place: the number of a byte of the image, from 0, at most WIZOGBARE_LONGEST_IMAGE.
 * It is the first byte of the field at fault (docs/REFUSALS.md), and every field before it is sound.
 *
 * Aliasing: What a call writes, `sets`, `work`, `out`, and the `image` or `room` of a text, must overlap nothing else that
 * the same call is lent. What it only reads may overlap: `left` and `right` may be one list. So a list is not joined into
 * itself, and an image is not written over its text; lend a third list, and a room beside the text. An overlap is not
 * noticed, and then nothing is promised.
 *
 * Alignment: An image, a text and a room may stand at any address. A list must stand at a multiple of 8 and a work area at a multiple of 4,
 * as C's own objects of these types do. Memory from malloc is aligned for both, a part of a byte buffer need not be. A
 * wrong alignment is not noticed, and then nothing is promised.
 *
 * NULL: A run of length 0 is never looked at, so its pointer may be NULL, or any other. An image of length 0 is refused
 * with 1, a work area of length 0 with 21. A list of length 0 has no room: a listing or a join whose result is empty
 * still ends well in it, and any other is refused with 31. A text of length 0 is refused with 50, and one that says a book,
 * in an image or a room of length 0, with 52. With a length above 0, NULL is not noticed, and ends the process
 * where it is looked at.
 *
 * Threads: No call keeps anything or has memory of its own beside the stack, so calls in several threads need no lock.
 * Threads may share an image, a text, and lists to be joined, as long as none writes to them. What a call writes is its own until
 * it returns: no other thread may read or write it meanwhile. A call neither waits nor allocates nor calls back, and may
 * be made in a signal handler whose stack is large enough.
 *
 * Needed: memcpy and memset, from the C library or from the caller, which with length 0 must take any pointer, and the stack
 * that is stated for each call below. */
#ifndef WIZOGBARE_H
#define WIZOGBARE_H

#include <stddef.h>
#include <stdint.h>

#ifdef __cplusplus
extern "C" {
#endif

/* ---- Constants ---- */

enum {
    WIZOGBARE_LONGEST_LIST = 1024,      /* entries of a list; a longer one is refused with 20 */
    WIZOGBARE_WORK_NUMBERS = 16384,     /* numbers of a work area; a shorter one is refused with 21 */
    WIZOGBARE_LARGEST_BUDGET = 1000000, /* nodes; a larger one is refused with 22 */
    WIZOGBARE_LONGEST_IMAGE = 8751,     /* bytes; every longer image is refused, by what it says */
    WIZOGBARE_MOST_ABDUCIBLES = 64,
    WIZOGBARE_LONGEST_TEXT = 32768,     /* bytes; a longer one is refused with 50 */
    WIZOGBARE_LONGEST_LINES = 8192      /* bytes of the names of an accepted text */
};

/* Bytes of stack that are enough for each call, with what memcpy and memset take; tests/drivers/stack measures them. Where these
 * two are bound at their first call, the dynamic linker takes stack of its own then: bind them at the start (-z now). */
enum {
    WIZOGBARE_STACK_READ = 1024,
    WIZOGBARE_STACK_JUDGE = 34816,
    WIZOGBARE_STACK_LIST = 5120,
    WIZOGBARE_STACK_VERDICT = 5120,
    WIZOGBARE_STACK_ADMITS = 1024,
    WIZOGBARE_STACK_JOIN = 5120,
    WIZOGBARE_STACK_TEXT = 290816,
    WIZOGBARE_STACK_NAMES = 290816
};

/* The numbers of refusals. Those up to 9 are of the image, and every call that takes one may give them; of the image that a text
 * says, 5, 7 and 9. */
enum wizogbare_refusal {
    WIZOGBARE_IMAGE_SHORT = 1,           /* image shorter than 5 bytes */
    WIZOGBARE_VERSION_UNKNOWN = 2,       /* version byte not 1 */
    WIZOGBARE_LENGTH_WRONG = 3,          /* length field differs from the bytes after it */
    WIZOGBARE_DOES_NOT_FIT = 4,          /* a field or record does not fit, a record length is odd or below 2, bytes are left */
    WIZOGBARE_LIMIT_BROKEN = 5,          /* a limit is broken */
    WIZOGBARE_ATOM_UNKNOWN = 6,          /* a literal or head names an atom that the book has not */
    WIZOGBARE_HEAD_ABDUCIBLE = 7,        /* a head is abducible */
    WIZOGBARE_ALTERNATIVE_EMPTY = 8,     /* an alternative has no literal */
    WIZOGBARE_LOOP = 9,                  /* an atom depends on itself */
    WIZOGBARE_LIST_LONG = 20,            /* a list is longer than WIZOGBARE_LONGEST_LIST: list, verdict, join */
    WIZOGBARE_WORK_SHORT = 21,           /* the work area is shorter than WIZOGBARE_WORK_NUMBERS: list, verdict, admits */
    WIZOGBARE_BUDGET_LARGE = 22,         /* the budget is above WIZOGBARE_LARGEST_BUDGET: list, verdict, admits */
    WIZOGBARE_ABDUCIBLE_UNKNOWN = 23,    /* the set or hypothesis names an abducible that the book has not: judge, verdict, admits */
    WIZOGBARE_BUDGET_USED = 30,          /* the budget is used up: list, verdict, admits */
    WIZOGBARE_NO_ROOM = 31,              /* there is no room in the list: list, verdict, join */
    WIZOGBARE_TEXT_MALFORMED = 50,       /* the text is malformed, or longer than WIZOGBARE_LONGEST_TEXT: text, names */
    WIZOGBARE_NAME_CLASH = 51,           /* a name stands both with and without `abd`: text, names */
    WIZOGBARE_ROOM_SHORT = 52            /* the room is shorter than what is to be written: text, names */
};

/* ---- The calls ---- */

/* Tests whether an image is a book: accepted, or refused with 1 to 9 and the place. It writes nothing. */
uint64_t wizogbare_read(const uint8_t *image, size_t image_length);

/* Tests whether a set explains the book: it does, or the place of the first false goal literal, or failing that of the first
 * constraint that does not hold, from 0; or refused with 1 to 9 and the place, or with 23. It writes nothing. */
uint64_t wizogbare_judge(const uint8_t *image, size_t image_length, uint64_t set);

/* Lists the smallest explaining sets, fewest members first: their number and the nodes visited; or refused with 1 to 9 and the place, or with 20,
 * 21, 22, 30 or 31. Listed, `sets` has the sets in front and 0 in every later entry; refused with 30 or 31, it is all 0. After each
 * of these three the first WIZOGBARE_WORK_NUMBERS of `work` are 0 and later ones unchanged. Every other refusal leaves both
 * untouched, with 0 nodes. Neither need be cleared before. */
uint64_t wizogbare_list(const uint8_t *image, size_t image_length, uint32_t budget, uint64_t *sets, size_t sets_length,
                        uint32_t *work, size_t work_length);

/* Lists, and says of an abducible by its number whether it is in every explaining set, of any size, in some or in none, or that
 * there is no such set; or refused as the listing is, or with 23. The list does not settle it where it has sets and none of them has the
 * abducible. Then there is a second search, that of wizogbare_admits, with a budget of its own of the same number; it needs no
 * room, and the nodes of the two are added up. It may be refused with 30 too, with the nodes of the listing and the budget. The
 * call leaves `sets` and `work` as the listing does, but after a 30 of the second search `sets` is all 0. */
uint64_t wizogbare_verdict(const uint8_t *image, size_t image_length, uint32_t hypothesis, uint32_t budget, uint64_t *sets,
                           size_t sets_length, uint32_t *work, size_t work_length);

/* Says of an abducible by its number whether some explaining set, of any size, has it: admitted if one has, excluded if none
 * has, with the nodes visited; or refused with 1 to 9 and the place, or with 21, 22, 23 or 30. Where nothing explains, it is
 * excluded. There is no list. After each answer, and after 30, the first WIZOGBARE_WORK_NUMBERS of `work` are 0 and later ones
 * unchanged. Every other refusal leaves it untouched, with 0 nodes. It need not be cleared before. */
uint64_t wizogbare_admits(const uint8_t *image, size_t image_length, uint32_t hypothesis, uint32_t budget, uint32_t *work,
                          size_t work_length);

/* Joins two lists: the sets of either with no proper subset among them, once each, fewest members first; or refused with 20 or
 * 31. Every entry lent is a set, and 0 is the empty one: of a listing lend only the sets it counted. Joined, `out` has the sets
 * in front and 0 in every later entry; refused with 31, it is all 0; with 20, it is untouched. */
uint64_t wizogbare_join(const uint64_t *left, size_t left_length, const uint64_t *right, size_t right_length, uint64_t *out,
                        size_t out_length);

/* Reads a text with rules, and writes the image of the book that it says: the bytes of the image, which the other calls accept; or
 * refused with 50, 51, 5, 7, 9 or 52. Written, `image` has the image in front, and its later bytes are unchanged; refused, it is
 * untouched. WIZOGBARE_LONGEST_IMAGE bytes are always enough. */
uint64_t wizogbare_text(const uint8_t *text, size_t text_length, uint8_t *image, size_t image_length);

/* Reads a text as wizogbare_text does, and writes the names of its atoms in the order of their numbers, each with an LF behind it:
 * the bytes of these lines; or refused as there, with 52 where `room` is too short for the lines. It leaves `room` as
 * wizogbare_text leaves `image`. WIZOGBARE_LONGEST_LINES bytes are always enough. */
uint64_t wizogbare_names(const uint8_t *text, size_t text_length, uint8_t *room, size_t room_length);

/* ---- The answers, taken apart ----
 *
 * `..._kind_of` says which answer a code is. The other functions are for the kinds that have such a number, and answer 0 for the
 * rest; a refusal's number is one of enum wizogbare_refusal. */

enum { WIZOGBARE_NODE_BITS = 32, WIZOGBARE_KIND_BITS = 56 };

/* How far a code is into its kind, and what stands there above the nodes, or in their place. */
static inline uint32_t wizogbare_kind_bits(uint64_t code) { return (uint32_t)(code >> WIZOGBARE_KIND_BITS); }

static inline uint32_t wizogbare_upper_bits(uint64_t code)
{
    return (uint32_t)(code >> WIZOGBARE_NODE_BITS) & (((uint32_t)1 << (WIZOGBARE_KIND_BITS - WIZOGBARE_NODE_BITS)) - 1);
}

static inline uint32_t wizogbare_lower_bits(uint64_t code) { return (uint32_t)(code & UINT32_MAX); }

/* read */

enum wizogbare_read_kind { WIZOGBARE_ACCEPTED, WIZOGBARE_READ_REFUSED };

static inline enum wizogbare_read_kind wizogbare_read_kind_of(uint64_t code)
{
    return code == 0 ? WIZOGBARE_ACCEPTED : WIZOGBARE_READ_REFUSED;
}

static inline uint32_t wizogbare_read_refusal(uint64_t code) { return wizogbare_upper_bits(code); }

/* the byte of the image where it is at fault */
static inline uint32_t wizogbare_read_byte(uint64_t code) { return wizogbare_lower_bits(code); }

/* judge */

enum wizogbare_judge_kind {
    WIZOGBARE_EXPLAINS,
    WIZOGBARE_FALSE_GOAL,
    WIZOGBARE_BROKEN_CONSTRAINT,
    WIZOGBARE_JUDGE_REFUSED,
    WIZOGBARE_JUDGE_BROKEN /* the image itself is refused */
};

static inline enum wizogbare_judge_kind wizogbare_judge_kind_of(uint64_t code)
{
    return (enum wizogbare_judge_kind)wizogbare_kind_bits(code);
}

/* of WIZOGBARE_FALSE_GOAL and WIZOGBARE_BROKEN_CONSTRAINT */
static inline uint32_t wizogbare_judge_place(uint64_t code)
{
    return wizogbare_judge_kind_of(code) >= WIZOGBARE_JUDGE_REFUSED ? 0 : wizogbare_lower_bits(code);
}

static inline uint32_t wizogbare_judge_refusal(uint64_t code)
{
    return wizogbare_judge_kind_of(code) == WIZOGBARE_JUDGE_REFUSED ? wizogbare_lower_bits(code) : wizogbare_upper_bits(code);
}

/* of WIZOGBARE_JUDGE_BROKEN: the byte of the image where it is at fault */
static inline uint32_t wizogbare_judge_byte(uint64_t code)
{
    return wizogbare_judge_kind_of(code) == WIZOGBARE_JUDGE_BROKEN ? wizogbare_lower_bits(code) : 0;
}

/* list */

enum wizogbare_list_kind { WIZOGBARE_LISTED, WIZOGBARE_LIST_REFUSED, WIZOGBARE_LIST_BROKEN /* the image itself is refused */ };

static inline enum wizogbare_list_kind wizogbare_list_kind_of(uint64_t code)
{
    return (enum wizogbare_list_kind)wizogbare_kind_bits(code);
}

static inline uint32_t wizogbare_list_count(uint64_t code)
{
    return wizogbare_list_kind_of(code) == WIZOGBARE_LISTED ? wizogbare_upper_bits(code) : 0;
}

static inline uint32_t wizogbare_list_refusal(uint64_t code)
{
    return wizogbare_list_kind_of(code) == WIZOGBARE_LISTED ? 0 : wizogbare_upper_bits(code);
}

static inline uint32_t wizogbare_list_nodes(uint64_t code)
{
    return wizogbare_list_kind_of(code) == WIZOGBARE_LIST_BROKEN ? 0 : wizogbare_lower_bits(code);
}

/* of WIZOGBARE_LIST_BROKEN: the byte of the image where it is at fault */
static inline uint32_t wizogbare_list_byte(uint64_t code)
{
    return wizogbare_list_kind_of(code) == WIZOGBARE_LIST_BROKEN ? wizogbare_lower_bits(code) : 0;
}

/* verdict */

enum wizogbare_verdict_kind {
    WIZOGBARE_UNEXPLAINED,
    WIZOGBARE_NEEDED,
    WIZOGBARE_POSSIBLE,
    WIZOGBARE_RULED_OUT,
    WIZOGBARE_VERDICT_REFUSED,
    WIZOGBARE_VERDICT_BROKEN /* the image itself is refused */
};

static inline enum wizogbare_verdict_kind wizogbare_verdict_kind_of(uint64_t code)
{
    return (enum wizogbare_verdict_kind)wizogbare_kind_bits(code);
}

/* 0 for every kind but the last two: nothing else stands there */
static inline uint32_t wizogbare_verdict_refusal(uint64_t code) { return wizogbare_upper_bits(code); }

static inline uint32_t wizogbare_verdict_nodes(uint64_t code)
{
    return wizogbare_verdict_kind_of(code) == WIZOGBARE_VERDICT_BROKEN ? 0 : wizogbare_lower_bits(code);
}

/* of WIZOGBARE_VERDICT_BROKEN: the byte of the image where it is at fault */
static inline uint32_t wizogbare_verdict_byte(uint64_t code)
{
    return wizogbare_verdict_kind_of(code) == WIZOGBARE_VERDICT_BROKEN ? wizogbare_lower_bits(code) : 0;
}

/* admits */

enum wizogbare_admits_kind {
    WIZOGBARE_ADMITTED,
    WIZOGBARE_EXCLUDED,
    WIZOGBARE_ADMITS_REFUSED,
    WIZOGBARE_ADMITS_BROKEN /* the image itself is refused */
};

static inline enum wizogbare_admits_kind wizogbare_admits_kind_of(uint64_t code)
{
    return (enum wizogbare_admits_kind)wizogbare_kind_bits(code);
}

/* 0 for every kind but the last two: nothing else stands there */
static inline uint32_t wizogbare_admits_refusal(uint64_t code) { return wizogbare_upper_bits(code); }

static inline uint32_t wizogbare_admits_nodes(uint64_t code)
{
    return wizogbare_admits_kind_of(code) == WIZOGBARE_ADMITS_BROKEN ? 0 : wizogbare_lower_bits(code);
}

/* of WIZOGBARE_ADMITS_BROKEN: the byte of the image where it is at fault */
static inline uint32_t wizogbare_admits_byte(uint64_t code)
{
    return wizogbare_admits_kind_of(code) == WIZOGBARE_ADMITS_BROKEN ? wizogbare_lower_bits(code) : 0;
}

/* join */

enum wizogbare_join_kind { WIZOGBARE_JOINED, WIZOGBARE_JOIN_REFUSED };

static inline enum wizogbare_join_kind wizogbare_join_kind_of(uint64_t code)
{
    return wizogbare_upper_bits(code) == 0 ? WIZOGBARE_JOINED : WIZOGBARE_JOIN_REFUSED;
}

static inline uint32_t wizogbare_join_count(uint64_t code) { return wizogbare_lower_bits(code); }

static inline uint32_t wizogbare_join_refusal(uint64_t code) { return wizogbare_upper_bits(code); }

/* text and names */

enum wizogbare_text_kind { WIZOGBARE_WRITTEN, WIZOGBARE_TEXT_REFUSED };

static inline enum wizogbare_text_kind wizogbare_text_kind_of(uint64_t code)
{
    return wizogbare_upper_bits(code) == 0 ? WIZOGBARE_WRITTEN : WIZOGBARE_TEXT_REFUSED;
}

/* the bytes written */
static inline uint32_t wizogbare_text_bytes(uint64_t code) { return wizogbare_lower_bits(code); }

static inline uint32_t wizogbare_text_refusal(uint64_t code) { return wizogbare_upper_bits(code); }

#ifdef __cplusplus
}
#endif

#endif
