/* A plain C reader of a book's image: the number under which the specification refuses it, or 0. Written for speed: one
 * walk over the image, and a loop check that looks at each body literal twice. */

#include "lister.h"

enum { HEADER = 5 };

struct walk {
    const uint8_t *image;
    size_t at, length;
    uint32_t atoms, abducibles;
    size_t clauses_at; /* the first clause's record */
    uint32_t clauses;
};

static inline uint32_t next_field(struct walk *w)
{
    w->at += 2;
    return field_at(w->image, w->at - 2);
}

static inline int is_missing(const struct walk *w)
{
    return w->at + 2 > w->length;
}

/* The next literals, all there: 6 if one names no atom of the book. */
static inline uint32_t literals(struct walk *w, uint32_t count)
{
    for (uint32_t i = 0; i < count; i++)
        if (next_field(w) >> 1 >= w->atoms)
            return 6;
    return 0;
}

static uint32_t front(struct walk *w)
{
    if (is_missing(w))
        return 4;
    w->atoms = next_field(w);
    if (w->atoms < 1 || w->atoms > ATOMS)
        return 5;
    if (is_missing(w))
        return 4;
    w->abducibles = next_field(w);
    if (w->abducibles > ABDUCIBLES || w->abducibles > w->atoms)
        return 5;
    if (is_missing(w))
        return 4;
    uint32_t count = next_field(w);
    if (count > GOAL_LITERALS)
        return 5;
    for (uint32_t i = 0; i < count; i++) {
        if (is_missing(w))
            return 4;
        if (next_field(w) >> 1 >= w->atoms)
            return 6;
    }
    return 0;
}

/* A record length: there, even, 2 or more, and within the image. */
static inline int is_bad_size(const struct walk *w, uint32_t size)
{
    return size % 2 != 0 || size < 2 || size > w->length - w->at;
}

static uint32_t clauses(struct walk *w)
{
    if (is_missing(w))
        return 4;
    w->clauses = next_field(w);
    if (w->clauses > CLAUSES)
        return 5;
    w->clauses_at = w->at;
    uint32_t total = 0;
    for (uint32_t c = 0; c < w->clauses; c++) {
        if (is_missing(w))
            return 4;
        uint32_t size = next_field(w);
        if (is_bad_size(w, size))
            return 4;
        uint32_t count = size / 2 - 1;
        total += count;
        if (total > BODY_LITERALS)
            return 5;
        uint32_t head = next_field(w);
        if (head >= w->atoms)
            return 6;
        if (head < w->abducibles)
            return 7;
        if (literals(w, count) != 0)
            return 6;
    }
    return 0;
}

static uint32_t constraint(struct walk *w, uint32_t *total)
{
    if (is_missing(w))
        return 4;
    uint32_t size = next_field(w);
    if (is_bad_size(w, size))
        return 4;
    size_t end = w->at + size;
    for (int alternative = 0; alternative == 0 || w->at < end; alternative = 1) {
        uint32_t count = next_field(w);
        if (alternative && count == 0)
            return 8;
        if (2 * count > end - w->at)
            return 4;
        *total += count;
        if (*total > CONSTRAINT_LITERALS)
            return 5;
        if (literals(w, count) != 0)
            return 6;
    }
    return 0;
}

static uint32_t constraints(struct walk *w)
{
    if (is_missing(w))
        return 4;
    uint32_t count = next_field(w);
    if (count > CONSTRAINTS)
        return 5;
    uint32_t total = 0;
    for (uint32_t k = 0; k < count; k++) {
        uint32_t refusal = constraint(w, &total);
        if (refusal != 0)
            return refusal;
    }
    return w->at == w->length ? 0 : 4;
}

/* An atom settles once all atoms in the bodies of its clauses have. Mentions of atoms in bodies are numbered from 1. */
static int has_loop(const struct walk *w)
{
    uint8_t head_of[BODY_LITERALS + 1], settled[ATOMS];
    uint16_t earlier[BODY_LITERALS + 1], latest[ATOMS], waits[ATOMS];
    uint32_t mentions = 0, known = 0;
    for (uint32_t p = 0; p < w->atoms; p++)
        latest[p] = waits[p] = 0;
    size_t at = w->clauses_at;
    for (uint32_t c = 0; c < w->clauses; c++) {
        size_t end = at + 2 + field_at(w->image, at);
        uint32_t head = field_at(w->image, at + 2);
        waits[head] += (end - at - 4) / 2;
        for (at += 4; at < end; at += 2) {
            uint32_t atom = field_at(w->image, at) >> 1;
            head_of[++mentions] = head;
            earlier[mentions] = latest[atom];
            latest[atom] = mentions;
        }
    }
    for (uint32_t p = 0; p < w->atoms; p++)
        if (waits[p] == 0)
            settled[known++] = p;
    for (uint32_t i = 0; i < known; i++)
        for (uint32_t m = latest[settled[i]]; m != 0; m = earlier[m])
            if (--waits[head_of[m]] == 0)
                settled[known++] = head_of[m];
    return known < w->atoms;
}

uint32_t c_read(const uint8_t *image, size_t length)
{
    if (length < HEADER)
        return 1;
    if (image[0] != 1)
        return 2;
    if (((size_t)field_at(image, 1) << 16 | field_at(image, 3)) != length - HEADER)
        return 3;
    struct walk w = {.image = image, .at = HEADER, .length = length};
    uint32_t refusal = front(&w);
    if (refusal == 0)
        refusal = clauses(&w);
    if (refusal == 0)
        refusal = constraints(&w);
    if (refusal == 0 && has_loop(&w))
        refusal = 9;
    return refusal;
}
