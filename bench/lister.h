/* A plain C lister of the specification's search rules: what the engine's lister is measured against. */
#ifndef LISTER_H
#define LISTER_H

#include <stddef.h>
#include <stdint.h>

/* How many numbers of the lent work area a search may use; it leaves them 0. */
enum { WORK_NUMBERS = 16384 };

/* The specification's limits. */
enum {
    ATOMS = 256,
    ABDUCIBLES = 64,
    GOAL_LITERALS = 16,
    CLAUSES = 512,
    BODY_LITERALS = 1024,
    CONSTRAINTS = 128,
    CONSTRAINT_LITERALS = 1024,
    SETS = 1024,
    MOST_BUDGET = 1000000,
};

static inline uint32_t field_at(const uint8_t *image, size_t at)
{
    return (uint32_t)image[at] << 8 | image[at + 1];
}

/* Where an image has its numbers of atoms and of abducibles, and the number of goal literals, which stand behind it. */
enum { ATOMS_AT = 5, ABDUCIBLES_AT = 7, GOAL_AT = 9 };

/* The kinds of answer, and the refusals by what is lent or met. */
enum { LISTED = 0, REFUSED = 1, ADMITTED = 2, EXCLUDED = 3 };
enum { LONG_LIST = 20, SHORT_WORK = 21, LARGE_BUDGET = 22, NOT_ABDUCIBLE = 23, BUDGET_USED_UP = 30, NO_ROOM = 31 };

/* The number, 1 to 9, under which the image is refused, or 0. */
uint32_t c_read(const uint8_t *image, size_t length);

/* Lists all smallest explanations of the image's book. The answer is kind << 56 | number << 32 | nodes, where the
 * number is the count of sets listed or the refusal. List and work area are left as the specification says. */
uint64_t c_list(const uint8_t *image, size_t length, uint32_t budget, uint64_t *sets, size_t room, uint32_t *work,
                size_t work_length);

/* Whether some explaining set, of any size, has the hypothesis: ADMITTED or EXCLUDED, or a refusal, as kind << 56 |
 * refusal << 32 | nodes. */
uint64_t c_admits(const uint8_t *image, size_t length, uint32_t hypothesis, uint32_t budget, uint32_t *work,
                  size_t work_length);

#endif
