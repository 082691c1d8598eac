/* A plain C reader of texts: byte by byte, without tricks. A table of byte kinds cuts words, whose bytes are hashed as they are
 * scanned; the grammar is read by recursive descent, one word ahead; names stand in a hash table with chains. What the text says is
 * kept in fields, with atoms by their places in the text. At its end the atoms' numbers are known: the image is written, read by reader.c,
 * and copied to the room. */

#include "text.h"

#include <string.h>

enum { LONGEST_TEXT = 32768, LONGEST_NAME = 31, HEADER = 5 };

/* A name has a sign behind it. Two fields, as a count and a literal or a length and a head, take two bytes of text or more, and
 * a few fields stand in every image. */
enum { MOST_NAMES = LONGEST_TEXT / 2, MOST_FIELDS = LONGEST_TEXT + 16, BUCKETS = 4096 };

/* ---- Words ---- */

enum { BLANK = 1, SMALL = 2, MORE = 4, WORD = SMALL | MORE };

static const uint8_t kind[256] = {
    [' '] = BLANK,
    ['\t'] = BLANK,
    ['\n'] = BLANK,
    ['\r'] = BLANK,
    ['0' ... '9'] = MORE,
    ['A' ... 'Z'] = MORE,
    ['_'] = MORE,
    ['a' ... 'z'] = SMALL,
};

/* BAD is what no grammar takes, and the end of the text is END. */
enum word { BAD, END, NAME, ABD, NAF, TRUE, FALSE, IF, THEN, ASK, AND, OR, CLOSE, STOP };

struct words {
    const uint8_t *at, *end; /* the text behind the next word */
    enum word next;
    const uint8_t *name; /* where the next word is a name: its bytes, their count and their hash */
    uint32_t length, hash;
};

/* The word that these bytes are, none of which is a blank or a sign. */
static enum word word_of(const uint8_t *bytes, size_t length)
{
    if (!(kind[bytes[0]] & SMALL) || length > LONGEST_NAME)
        return BAD;
    if (length == 3 && (memcmp(bytes, "abd", 3) == 0 || memcmp(bytes, "naf", 3) == 0))
        return bytes[0] == 'a' ? ABD : NAF;
    if (length == 4 && memcmp(bytes, "true", 4) == 0)
        return TRUE;
    if (length == 5 && memcmp(bytes, "false", 5) == 0)
        return FALSE;
    return NAME;
}

/* The hash is FNV-1a. */
static const uint32_t FNV_START = 2166136261u, FNV_FACTOR = 16777619u;

static void next_name(struct words *w, const uint8_t *start)
{
    const uint8_t *p = start;
    uint32_t hash = FNV_START;
    for (; p < w->end && kind[*p] & WORD; p++)
        hash = (hash ^ *p) * FNV_FACTOR;
    w->name = start;
    w->length = (uint32_t)(p - start);
    w->hash = hash;
    w->next = word_of(start, w->length);
    if (w->next == ABD || w->next == NAF) {
        if (p < w->end && *p == '(')
            p++;
        else
            w->next = BAD;
    }
    w->at = p;
}

/* The sign, if it stands here. */
static void next_sign(struct words *w, const uint8_t *start, const char *sign, size_t length, enum word word)
{
    int is_there = (size_t)(w->end - start) >= length && memcmp(start, sign, length) == 0;
    w->next = is_there ? word : BAD;
    w->at = is_there ? start + length : start;
}

/* Goes on to the next word. */
static void advance(struct words *w)
{
    const uint8_t *p = w->at;
    while (p < w->end && kind[*p] == BLANK)
        p++;
    if (p == w->end) {
        w->at = p;
        w->next = END;
        return;
    }
    if (kind[*p] & WORD) {
        next_name(w, p);
        return;
    }
    w->at = p + 1;
    switch (*p) {
    case ',': w->next = AND; break;
    case '.': w->next = STOP; break;
    case ')': w->next = CLOSE; break;
    case ';': w->next = OR; break;
    case ':': next_sign(w, p, ":-", 2, IF); break;
    case '-': next_sign(w, p, "--->", 4, THEN); break;
    case '?': next_sign(w, p, "?-", 2, ASK); break;
    default: w->next = BAD;
    }
}

/* Takes this word if it is the next one. */
static int takes(struct words *w, enum word word)
{
    if (w->next != word)
        return 0;
    advance(w);
    return 1;
}

/* ---- Names ---- */

struct name {
    const uint8_t *bytes;
    uint32_t length, hash;
    uint16_t earlier; /* the place and 1 of the next name in its chain, or 0 */
    uint16_t number;  /* among the names of its sort */
    int is_marked;
};

struct names {
    uint32_t count, abducibles;
    int both_ways;
    uint16_t latest[BUCKETS]; /* the place and 1 of each chain's first name, or 0 */
    struct name name[MOST_NAMES];
};

/* The place of the name that is the next word. */
static uint32_t place_of(struct names *t, const struct words *w, int is_marked)
{
    uint16_t *latest = &t->latest[w->hash % BUCKETS];
    for (uint32_t i = *latest; i != 0; i = t->name[i - 1].earlier) {
        const struct name *n = &t->name[i - 1];
        if (n->hash == w->hash && n->length == w->length && memcmp(n->bytes, w->name, w->length) == 0) {
            if (n->is_marked != is_marked)
                t->both_ways = 1;
            return i - 1;
        }
    }
    uint32_t number = is_marked ? t->abducibles++ : t->count - t->abducibles;
    t->name[t->count] = (struct name){w->name, w->length, w->hash, *latest, (uint16_t)number, is_marked};
    *latest = (uint16_t)++t->count;
    return t->count - 1;
}

/* ---- Grammar: each function answers whether what it reads stands there ---- */

struct fields {
    uint32_t count;
    uint16_t field[MOST_FIELDS];
};

/* A literal is twice the place of its name, and 1 more if it is negated. Lengths are in bytes, as in the image. */
struct document {
    struct words words;
    struct names names;
    uint32_t clauses, constraints;
    struct fields goal;       /* literals */
    struct fields clause;     /* of each its length, head and body */
    struct fields constraint; /* of each its length, and conditions and alternatives with their counts */
};

static void add(struct fields *f, uint32_t field)
{
    f->field[f->count++] = (uint16_t)field;
}

static int name(struct document *d, int is_marked, uint32_t *place)
{
    if (d->words.next != NAME)
        return 0;
    *place = place_of(&d->names, &d->words, is_marked);
    advance(&d->words);
    return 1;
}

static int atom(struct document *d, uint32_t *place)
{
    if (takes(&d->words, ABD))
        return name(d, 1, place) && takes(&d->words, CLOSE);
    return name(d, 0, place);
}

static int literal(struct document *d, uint32_t *found)
{
    uint32_t place;
    int is_negated = takes(&d->words, NAF);
    if (!atom(d, &place))
        return 0;
    *found = 2 * place + (uint32_t)is_negated;
    return !is_negated || takes(&d->words, CLOSE);
}

static int literals(struct document *d, struct fields *f)
{
    do {
        uint32_t found;
        if (!literal(d, &found))
            return 0;
        add(f, found);
    } while (takes(&d->words, AND));
    return 1;
}

/* A clause behind its head. */
static int clause(struct document *d, uint32_t head)
{
    struct fields *f = &d->clause;
    uint32_t start = f->count;
    if (head % 2 != 0)
        return 0;
    add(f, 0);
    add(f, head / 2);
    if (takes(&d->words, IF) && !literals(d, f))
        return 0;
    f->field[start] = (uint16_t)(2 * (f->count - start - 1));
    d->clauses++;
    return takes(&d->words, STOP);
}

/* Literals with their count in front. */
static int alternative(struct document *d, struct fields *f)
{
    uint32_t start = f->count;
    add(f, 0);
    if (!literals(d, f))
        return 0;
    f->field[start] = (uint16_t)(f->count - start - 1);
    return 1;
}

/* A constraint from its arrow on. Its record, which starts here, has the conditions. */
static int conclusion(struct document *d, uint32_t start)
{
    struct fields *f = &d->constraint;
    f->field[start + 1] = (uint16_t)(f->count - start - 2);
    if (!takes(&d->words, THEN))
        return 0;
    if (!takes(&d->words, FALSE)) {
        do {
            if (!alternative(d, f))
                return 0;
        } while (takes(&d->words, OR));
    }
    f->field[start] = (uint16_t)(2 * (f->count - start - 1));
    d->constraints++;
    return takes(&d->words, STOP);
}

/* A clause or a constraint: what stands behind the first literal shows which. */
static int statement(struct document *d)
{
    struct fields *f = &d->constraint;
    uint32_t start = f->count, first = 0;
    int is_true = takes(&d->words, TRUE);
    if (!is_true) {
        if (!literal(d, &first))
            return 0;
        if (d->words.next == IF || d->words.next == STOP)
            return clause(d, first);
    }
    add(f, 0);
    add(f, 0);
    if (!is_true) {
        add(f, first);
        if (takes(&d->words, AND) && !literals(d, f))
            return 0;
    }
    return conclusion(d, start);
}

static int document(struct document *d)
{
    while (!takes(&d->words, ASK))
        if (!statement(d))
            return 0;
    if (!takes(&d->words, TRUE) && !literals(d, &d->goal))
        return 0;
    return takes(&d->words, STOP) && d->words.next == END;
}

static void start(struct document *d, const uint8_t *text, size_t length)
{
    d->names.count = d->names.abducibles = 0;
    d->names.both_ways = 0;
    memset(d->names.latest, 0, sizeof d->names.latest);
    d->clauses = d->constraints = 0;
    d->goal.count = d->clause.count = d->constraint.count = 0;
    d->words.at = text;
    d->words.end = text + length;
    advance(&d->words);
}

/* ---- The image ---- */

static uint8_t *put(uint8_t *out, uint32_t field)
{
    out[0] = (uint8_t)(field >> 8);
    out[1] = (uint8_t)field;
    return out + 2;
}

static uint32_t number_of(const struct names *t, uint32_t place)
{
    const struct name *n = &t->name[place];
    return n->is_marked ? n->number : t->abducibles + n->number;
}

static uint8_t *put_literals(uint8_t *out, const struct names *t, const uint16_t *literal, uint32_t count)
{
    for (uint32_t i = 0; i < count; i++)
        out = put(out, 2 * number_of(t, literal[i] / 2) + literal[i] % 2);
    return out;
}

static uint8_t *put_clauses(uint8_t *out, const struct document *d)
{
    const uint16_t *f = d->clause.field, *end = f + d->clause.count;
    out = put(out, d->clauses);
    while (f < end) {
        uint32_t body = f[0] / 2 - 1u;
        out = put(out, f[0]);
        out = put(out, number_of(&d->names, f[1]));
        out = put_literals(out, &d->names, f + 2, body);
        f += 2 + body;
    }
    return out;
}

static uint8_t *put_constraints(uint8_t *out, const struct document *d)
{
    const uint16_t *f = d->constraint.field, *end = f + d->constraint.count;
    out = put(out, d->constraints);
    while (f < end) {
        const uint16_t *behind = f + 1 + f[0] / 2;
        out = put(out, *f++);
        while (f < behind) {
            uint32_t count = *f++;
            out = put(out, count);
            out = put_literals(out, &d->names, f, count);
            f += count;
        }
    }
    return out;
}

/* Writes the image and answers its length. */
static size_t put_image(uint8_t *image, const struct document *d)
{
    uint8_t *out = image + HEADER;
    out = put(out, d->names.count);
    out = put(out, d->names.abducibles);
    out = put(out, d->goal.count);
    out = put_literals(out, &d->names, d->goal.field, d->goal.count);
    out = put_clauses(out, d);
    out = put_constraints(out, d);
    size_t length = (size_t)(out - image), rest = length - HEADER;
    image[0] = 1;
    put(image + 1, (uint32_t)(rest >> 16));
    put(image + 3, (uint32_t)rest);
    return length;
}

uint32_t c_text(const uint8_t *text, size_t length, uint8_t *image, size_t room, size_t *written)
{
    struct document d;
    uint8_t made[HEADER + 2 * MOST_FIELDS];
    if (length > LONGEST_TEXT)
        return MALFORMED;
    start(&d, text, length);
    if (!document(&d))
        return MALFORMED;
    if (d.names.both_ways)
        return BOTH_WAYS;
    /* The first limit of all; so no image is made for thousands of names. */
    if (d.names.count > ATOMS)
        return 5;
    size_t size = put_image(made, &d);
    uint32_t refusal = c_read(made, size);
    if (refusal != 0)
        return refusal;
    if (size > room)
        return SHORT_ROOM;
    memcpy(image, made, size);
    *written = size;
    return 0;
}
