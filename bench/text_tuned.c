/* A C reader of texts, tuned by hand beyond plain C: names are hashed and compared eight bytes at a time, words are scanned four
 * bytes a turn, and fixed words are compared as one number. One pass over the bytes cuts words by a table of byte kinds, reads by
 * recursive descent and numbers names by a hash table, and leaves the records of clauses and constraints as the image will have
 * them but for the atoms' numbers. These are known at the end: then the limits are tested, the image is made and read by
 * reader.c, and copied to the room. */

#include "text.h"

#include <string.h>

enum { LONGEST_TEXT = 32768, LONGEST_NAME = 31, LONGEST_IMAGE = 8751 };
enum { HEADER = 5 };

/* Room behind the text for looking ahead; it is 0, which is no byte of a word or blank. */
enum { AHEAD = 8 };

/* A name has a sign behind it. Two fields, as a count and a literal or a length and a head, take two bytes of text or more. */
enum { MOST_NAMES = LONGEST_TEXT / 2, MOST_SLOTS = 16384, MOST_FIELDS = LONGEST_TEXT + 16 };

/* ---- Bytes ---- */

enum { BLANK = 1, MORE = 2, SMALL = 4 };

static const uint8_t kind[256] = {
    [' '] = BLANK,
    ['\t'] = BLANK,
    ['\n'] = BLANK,
    ['\r'] = BLANK,
    ['0' ... '9'] = MORE,
    ['A' ... 'Z'] = MORE,
    ['_'] = MORE,
    ['a' ... 'z'] = MORE | SMALL,
};

/* Four bytes as they are loaded, lowest first. */
#define FOUR(a, b, c, d) ((uint32_t)(a) | (uint32_t)(b) << 8 | (uint32_t)(c) << 16 | (uint32_t)(d) << 24)

static const uint32_t ABD = FOUR('a', 'b', 'd', '('), NAF = FOUR('n', 'a', 'f', '('), ARROW = FOUR('-', '-', '-', '>'),
                      TRUE = FOUR('t', 'r', 'u', 'e'), FALS = FOUR('f', 'a', 'l', 's');

static inline uint32_t load4(const uint8_t *p)
{
    uint32_t x;
    memcpy(&x, p, sizeof x);
    return x;
}

static inline uint64_t load8(const uint8_t *p)
{
    uint64_t x;
    memcpy(&x, p, sizeof x);
    return x;
}

static inline const uint8_t *skip(const uint8_t *p)
{
    while (kind[*p] & BLANK)
        p++;
    return p;
}

static inline int is_true(const uint8_t *p)
{
    return load4(p) == TRUE && !(kind[p[4]] & MORE);
}

static inline int is_false(const uint8_t *p)
{
    return load4(p) == FALS && p[4] == 'e' && !(kind[p[5]] & MORE);
}

/* The end of the word that begins here. */
static inline const uint8_t *word_end(const uint8_t *p)
{
    for (;; p += 4) {
        if (!(kind[p[0]] & MORE))
            return p;
        if (!(kind[p[1]] & MORE))
            return p + 1;
        if (!(kind[p[2]] & MORE))
            return p + 2;
        if (!(kind[p[3]] & MORE))
            return p + 3;
    }
}

/* ---- Names ---- */

/* A literal's field until the numbers are known: twice the place of its atom among those of its sort, 1 more if negated, and OTHER if it
 * is not abducible. */
enum { NEGATED = 1, OTHER = 0x8000 };

struct name {
    uint32_t tag; /* of its hash, and its length */
    uint16_t at;
    uint16_t literal;
};

struct names {
    const uint8_t *text;
    uint32_t abducibles, others;
    int both_ways;
    uint32_t shift, mask; /* of a hash to a slot */
    uint16_t slot[MOST_SLOTS]; /* the place of a name and 1, or 0 */
    struct name name[MOST_NAMES];
};

/* The table has a slot for every two bytes of text, so that it is never full; names of three letters fill half of it. */
static void start_names(struct names *t, const uint8_t *text, size_t length)
{
    uint32_t bits = 6;
    while (bits < 14 && (size_t)1 << bits < length / 2)
        bits++;
    t->text = text;
    t->abducibles = t->others = 0;
    t->both_ways = 0;
    t->shift = 64 - bits;
    t->mask = (1u << bits) - 1;
    memset(t->slot, 0, sizeof *t->slot << bits);
}

/* All bytes of a name of 1 to 3, and of 4 to 7. */
static inline uint64_t upto3(const uint8_t *p, size_t n)
{
    return p[0] | (uint32_t)p[n / 2] << 8 | (uint32_t)p[n - 1] << 16;
}

static inline uint64_t upto7(const uint8_t *p, size_t n)
{
    return load4(p) | (uint64_t)load4(p + n - 4) << 32;
}

static inline uint64_t hash_of(const uint8_t *p, size_t n)
{
    if (n < 4)
        return (upto3(p, n) + n) * 0x9e3779b97f4a7c15u;
    if (n < 8)
        return (upto7(p, n) + n) * 0x9e3779b97f4a7c15u;
    uint64_t ends = (load8(p) + n) * 0x9e3779b97f4a7c15u + load8(p + n - 8) * 0xd6e8feb86659fd93u;
    return n <= 16 ? ends : ends + load8(p + 8) * 0xc2b2ae3d27d4eb4fu + load8(p + n - 16) * 0x165667b19e3779f9u;
}

/* Whether two names of one length are the same. */
static inline int is_same(const uint8_t *p, const uint8_t *q, size_t n)
{
    if (n < 4)
        return upto3(p, n) == upto3(q, n);
    if (n < 8)
        return upto7(p, n) == upto7(q, n);
    uint64_t differs = (load8(p) ^ load8(q)) | (load8(p + n - 8) ^ load8(q + n - 8));
    if (n > 16)
        differs |= (load8(p + 8) ^ load8(q + 8)) | (load8(p + n - 16) ^ load8(q + n - 16));
    return differs == 0;
}

/* The literal of the atom of this name, which is new or not. */
static inline uint32_t numbered(struct names *t, const uint8_t *p, size_t n, int marked)
{
    uint64_t hash = hash_of(p, n);
    uint32_t tag = ((uint32_t)(hash >> 24) & ~(uint32_t)31) | (uint32_t)n;
    for (uint32_t i = (uint32_t)(hash >> t->shift);; i = (i + 1) & t->mask) {
        uint32_t place = t->slot[i];
        if (place == 0) {
            place = t->abducibles + t->others;
            t->slot[i] = (uint16_t)(place + 1);
            uint32_t literal = marked ? 2 * t->abducibles++ : OTHER | 2 * t->others++;
            t->name[place] = (struct name){tag, (uint16_t)(p - t->text), (uint16_t)literal};
            return literal;
        }
        struct name *found = &t->name[place - 1];
        if (found->tag == tag && is_same(p, t->text + found->at, n)) {
            t->both_ways |= marked == (found->literal >> 15);
            return found->literal;
        }
    }
}

/* ---- Grammar: each function answers the place behind what it reads and the blanks there, or NULL ---- */

/* Whether a word of 3 to 5 bytes is a fixed one. */
static inline int is_fixed(const uint8_t *p, size_t n)
{
    uint32_t four = load4(p), three = four & 0xffffff;
    if (n == 3)
        return three == (ABD & 0xffffff) || three == (NAF & 0xffffff);
    return n == 4 ? four == TRUE : four == FALS && p[4] == 'e';
}

static inline const uint8_t *name(struct names *t, const uint8_t *p, int marked, uint32_t *literal)
{
    if (!(kind[*p] & SMALL))
        return NULL;
    const uint8_t *end = word_end(p + 1);
    size_t n = (size_t)(end - p);
    if (n > LONGEST_NAME || (n - 3 < 3 && is_fixed(p, n)))
        return NULL;
    *literal = numbered(t, p, n, marked);
    return skip(end);
}

static inline const uint8_t *closed(const uint8_t *p)
{
    return p != NULL && *p == ')' ? skip(p + 1) : NULL;
}

static inline __attribute__((always_inline)) const uint8_t *literal(struct names *t, const uint8_t *p, uint32_t *found)
{
    uint32_t four = load4(p);
    int negated = four == NAF;
    if (negated) {
        p = skip(p + 4);
        four = load4(p);
    }
    int marked = four == ABD;
    if (marked)
        p = skip(p + 4);
    p = name(t, p, marked, found);
    if (marked)
        p = closed(p);
    if (negated) {
        p = closed(p);
        *found |= NEGATED;
    }
    return p;
}

/* Literals with commas between them; `fields` goes behind the last. */
static __attribute__((noinline)) const uint8_t *literals(struct names *t, const uint8_t *p, uint16_t **fields)
{
    for (;;) {
        uint32_t found = 0;
        p = literal(t, p, &found);
        if (p == NULL)
            return NULL;
        *(*fields)++ = (uint16_t)found;
        if (*p != ',')
            return p;
        p = skip(p + 1);
    }
}

static inline const uint8_t *stopped(const uint8_t *p)
{
    return p != NULL && *p == '.' ? skip(p + 1) : NULL;
}

/* What a text says: names, the goal, and the records of clauses and constraints. */
struct document {
    struct names names;
    uint32_t clauses, constraints, constraint_literals;
    uint16_t *goal_end, *clauses_end, *constraints_end;
    uint16_t goal[MOST_FIELDS], clause[MOST_FIELDS], constraint[MOST_FIELDS];
};

/* A clause behind its head. */
static inline const uint8_t *clause(struct document *d, const uint8_t *p, uint32_t head)
{
    uint16_t *record = d->clauses_end, *end = record + 2;
    if (head & NEGATED)
        return NULL;
    if (*p == ':') {
        if (p[1] != '-')
            return NULL;
        p = literals(&d->names, skip(p + 2), &end);
    }
    record[0] = (uint16_t)(2 * (end - record) - 2);
    record[1] = (uint16_t)head;
    d->clauses_end = end;
    d->clauses++;
    return stopped(p);
}

/* A constraint from its arrow on; its conditions stand in the record. */
static inline const uint8_t *conclusion(struct document *d, const uint8_t *p, uint16_t *end)
{
    uint16_t *record = d->constraints_end;
    if (load4(p) != ARROW)
        return NULL;
    p = skip(p + 4);
    record[1] = (uint16_t)(end - record - 2);
    d->constraint_literals += record[1];
    if (is_false(p)) {
        p = skip(p + 5);
    } else {
        for (;; p = skip(p + 1)) {
            uint16_t *count = end++;
            p = literals(&d->names, p, &end);
            if (p == NULL)
                return NULL;
            *count = (uint16_t)(end - count - 1);
            d->constraint_literals += *count;
            if (*p != ';')
                break;
        }
    }
    record[0] = (uint16_t)(2 * (end - record - 1));
    d->constraints_end = end;
    d->constraints++;
    return stopped(p);
}

static inline const uint8_t *statement(struct document *d, const uint8_t *p)
{
    uint16_t *end = d->constraints_end + 2;
    if (is_true(p))
        return conclusion(d, skip(p + 4), end);
    uint32_t first = 0;
    p = literal(&d->names, p, &first);
    if (p == NULL)
        return NULL;
    if (*p == '.' || *p == ':')
        return clause(d, p, first);
    *end++ = (uint16_t)first;
    if (*p == ',') {
        p = literals(&d->names, skip(p + 1), &end);
        if (p == NULL)
            return NULL;
    }
    return conclusion(d, p, end);
}

static const uint8_t *document(struct document *d, const uint8_t *p)
{
    d->clauses = d->constraints = d->constraint_literals = 0;
    d->goal_end = d->goal;
    d->clauses_end = d->clause;
    d->constraints_end = d->constraint;
    for (p = skip(p); *p != '?';) {
        p = statement(d, p);
        if (p == NULL)
            return NULL;
    }
    if (p[1] != '-')
        return NULL;
    p = skip(p + 2);
    return stopped(is_true(p) ? skip(p + 4) : literals(&d->names, p, &d->goal_end));
}

/* ---- The image ---- */

/* The first of 5 and 7 among the clauses, or 0. */
static uint32_t clause_fault(const struct document *d)
{
    uint32_t total = 0;
    for (const uint16_t *record = d->clause; record < d->clauses_end; record += 1 + record[0] / 2) {
        total += record[0] / 2 - 1;
        if (total > BODY_LITERALS)
            return 5;
        if (!(record[1] & OTHER))
            return 7;
    }
    return 0;
}

/* The first of 5 and 7 that a walk over the image would meet, or 0. */
static uint32_t limit_or_head(const struct document *d)
{
    uint32_t abducibles = d->names.abducibles, atoms = abducibles + d->names.others;
    if (atoms < 1 || atoms > ATOMS || abducibles > ABDUCIBLES || d->goal_end - d->goal > GOAL_LITERALS || d->clauses > CLAUSES)
        return 5;
    uint32_t fault = clause_fault(d);
    if (fault != 0)
        return fault;
    return d->constraints > CONSTRAINTS || d->constraint_literals > CONSTRAINT_LITERALS ? 5 : 0;
}

static inline uint16_t swapped(uint32_t field)
{
    return (uint16_t)(field >> 8 | field << 8);
}

/* Copies fields with the numbers of atoms; lengths and counts are below OTHER, and stay. */
static inline uint16_t *copy_fields(uint16_t *restrict out, const uint16_t *restrict from, const uint16_t *end, uint32_t abducibles)
{
    size_t count = (size_t)(end - from);
    uint16_t more = (uint16_t)(2 * abducibles);
    for (size_t i = 0; i < count; i++)
        out[i] = swapped((uint16_t)((from[i] & (OTHER - 1)) + ((uint16_t)((int16_t)from[i] >> 15) & more)));
    return out + count;
}

/* A head is its atom's number, and not twice that. */
static void write_heads(const struct document *d, uint16_t *out)
{
    for (const uint16_t *record = d->clause; record < d->clauses_end; record += 1 + record[0] / 2)
        out[record - d->clause + 1] = swapped((record[1] & (OTHER - 1)) / 2 + d->names.abducibles);
}

/* Writes the image of a book within the limits, whose heads are all defined, and answers its length. */
static size_t write_image(const struct document *d, uint8_t *image, uint16_t *fields)
{
    uint32_t abducibles = d->names.abducibles;
    uint16_t *out = fields;
    *out++ = swapped(abducibles + d->names.others);
    *out++ = swapped(abducibles);
    *out++ = swapped((uint32_t)(d->goal_end - d->goal));
    out = copy_fields(out, d->goal, d->goal_end, abducibles);
    *out++ = swapped(d->clauses);
    uint16_t *clauses = out;
    out = copy_fields(out, d->clause, d->clauses_end, abducibles);
    write_heads(d, clauses);
    *out++ = swapped(d->constraints);
    out = copy_fields(out, d->constraint, d->constraints_end, abducibles);
    uint32_t rest = (uint32_t)(2 * (out - fields));
    image[0] = 1;
    image[1] = (uint8_t)(rest >> 24);
    image[2] = (uint8_t)(rest >> 16);
    image[3] = (uint8_t)(rest >> 8);
    image[4] = (uint8_t)rest;
    return HEADER + rest;
}

uint32_t c_text_tuned(const uint8_t *text, size_t length, uint8_t *image, size_t room, size_t *written)
{
    uint8_t copy[LONGEST_TEXT + AHEAD];
    struct document d;
    if (length > LONGEST_TEXT)
        return MALFORMED;
    memcpy(copy, text, length);
    memset(copy + length, 0, AHEAD);
    start_names(&d.names, copy, length);
    if (document(&d, copy) != copy + length)
        return MALFORMED;
    if (d.names.both_ways)
        return BOTH_WAYS;
    uint32_t refusal = limit_or_head(&d);
    if (refusal != 0)
        return refusal;

    /* The fields stand behind the header at an even address. */
    _Alignas(16) uint8_t made[16 + LONGEST_IMAGE];
    uint8_t *front = made + 16 - HEADER;
    size_t size = write_image(&d, front, (uint16_t *)(made + 16));
    refusal = c_read(front, size);
    if (refusal != 0)
        return refusal;
    if (size > room)
        return SHORT_ROOM;
    memcpy(image, front, size);
    *written = size;
    return 0;
}
