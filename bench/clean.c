/* The cleaner in plain C: what the engine's program is measured against.
 *
 *     clean BOOK GROUPS H [H ..]
 *
 * Takes what `desk clean` takes and prints the same lines: BOOK is an image, GROUPS a file of group records, each H a
 * hypothesis to keep safe. A group is answered as if it were the only one: the book is read, its image with the group's
 * facts is written and listed, and each hypothesis that the list leaves open has a second search, which reads that
 * image again, as the engine does. */

#include "lister.h"

#include <stdio.h>
#include <stdlib.h>
#include <string.h>

enum { LONGEST_IMAGE = 8751, MOST_BYTES = 262144, BUDGET = 100000, ROOM = 256, MOST_MEMBERS = 64 };

/* A group record: its version, then how many bytes follow, the group's number, and the atoms observed. */
enum { VERSION = 1, SIZE_AT = 1, NUMBER_AT = 3, OBSERVED_AT = 5, MOST_OBSERVED = 32, MOST_SIZE = 2 + 2 * MOST_OBSERVED };

/* A fact's record: its length, which is that of a head, and the head. */
enum { FACT_SIZE = 2, FACT_BYTES = 4 };

enum { NO_HYPOTHESIS = 40, MALFORMED = 41, NOT_DEFINED = 42, MANY_CLAUSES = 5 };

struct bytes {
    const uint8_t *start;
    size_t length;
};

/* For each verdict the set of the hypotheses that have it; or a refusal. */
struct cleaning {
    uint32_t refusal;
    uint64_t unexplained, needed, possible, ruled_out;
};

static uint64_t sets[ROOM];
static uint32_t work[WORK_NUMBERS];

/* ---- Before the search ---- */

static int is_well_formed(struct bytes group)
{
    if (group.length < NUMBER_AT || group.start[0] != VERSION)
        return 0;
    uint32_t size = field_at(group.start, SIZE_AT);
    return size == group.length - NUMBER_AT && size % 2 == 0 && size >= 2 && size <= MOST_SIZE;
}

static uint32_t observed_in(struct bytes group)
{
    return (group.length - OBSERVED_AT) / 2;
}

/* Where the clause count stands, behind the goal. */
static size_t clauses_at(struct bytes book)
{
    return GOAL_AT + 2 + 2 * field_at(book.start, GOAL_AT);
}

static int all_defined(struct bytes book, struct bytes group)
{
    uint32_t atoms = field_at(book.start, ATOMS_AT), abducibles = field_at(book.start, ABDUCIBLES_AT);
    for (size_t at = OBSERVED_AT; at < group.length; at += 2) {
        uint32_t atom = field_at(group.start, at);
        if (atom < abducibles || atom >= atoms)
            return 0;
    }
    return 1;
}

/* The refusal before any verdict, or 0. */
static uint32_t refusal_of(struct bytes book, struct bytes group, uint64_t hypotheses)
{
    uint32_t refusal = c_read(book.start, book.length);
    if (refusal != 0)
        return refusal;
    if (hypotheses == 0)
        return NO_HYPOTHESIS;
    if (!is_well_formed(group))
        return MALFORMED;
    if (!all_defined(book, group))
        return NOT_DEFINED;
    if (field_at(book.start, clauses_at(book)) + observed_in(group) > CLAUSES)
        return MANY_CLAUSES;
    uint32_t abducibles = field_at(book.start, ABDUCIBLES_AT);
    return abducibles < MOST_MEMBERS && hypotheses >> abducibles != 0 ? NOT_ABDUCIBLE : 0;
}

/* ---- The group's image ---- */

static void put_field(uint8_t *image, size_t at, uint32_t value)
{
    image[at] = value >> 8;
    image[at + 1] = value;
}

/* Behind the record of the last clause. */
static size_t clauses_end(struct bytes book)
{
    size_t at = clauses_at(book);
    uint32_t clauses = field_at(book.start, at);
    at += 2;
    for (uint32_t c = 0; c < clauses; c++)
        at += 2 + field_at(book.start, at);
    return at;
}

/* The book with a fact for each observed atom behind its clauses. */
static struct bytes write_image(struct bytes book, struct bytes group, uint8_t *image)
{
    uint32_t facts = observed_in(group);
    size_t length = book.length + FACT_BYTES * facts, end = clauses_end(book), at = end;
    memcpy(image, book.start, end);
    put_field(image, ATOMS_AT - 4, (length - ATOMS_AT) >> 16);
    put_field(image, ATOMS_AT - 2, length - ATOMS_AT);
    put_field(image, clauses_at(book), field_at(book.start, clauses_at(book)) + facts);
    for (uint32_t i = 0; i < facts; i++, at += FACT_BYTES) {
        put_field(image, at, FACT_SIZE);
        memcpy(image + at + 2, group.start + OBSERVED_AT + 2 * i, 2);
    }
    memcpy(image + at, book.start + end, book.length - end);
    return (struct bytes){image, length};
}

/* ---- The verdicts ---- */

/* The verdicts on the hypotheses that the list leaves open. A search that needs more than the budget ends them. */
static void seek(struct bytes image, uint64_t open, struct cleaning *c)
{
    for (; open != 0; open &= open - 1) {
        uint64_t answer = c_admits(image.start, image.length, __builtin_ctzll(open), BUDGET, work, WORK_NUMBERS);
        if (answer >> 56 == ADMITTED)
            c->possible |= open & -open;
        else if (answer >> 56 == EXCLUDED)
            c->ruled_out |= open & -open;
        else {
            c->refusal = answer >> 32 & 0xffffff;
            memset(sets, 0, sizeof sets);
            return;
        }
    }
}

static struct cleaning look(struct bytes image, uint64_t hypotheses)
{
    struct cleaning c = {0};
    uint64_t answer = c_list(image.start, image.length, BUDGET, sets, ROOM, work, WORK_NUMBERS);
    uint32_t number = answer >> 32 & 0xffffff;
    if (answer >> 56 == REFUSED) {
        c.refusal = number;
        return c;
    }
    if (number == 0) {
        c.unexplained = hypotheses;
        return c;
    }
    uint64_t every = hypotheses, some = 0;
    for (uint32_t i = 0; i < number; i++) {
        every &= sets[i];
        some |= sets[i];
    }
    c.needed = every;
    c.possible = hypotheses & some & ~every;
    seek(image, hypotheses & ~some, &c);
    return c;
}

static struct cleaning clean(struct bytes book, struct bytes group, uint64_t hypotheses)
{
    uint8_t image[LONGEST_IMAGE];
    struct cleaning c = {.refusal = refusal_of(book, group, hypotheses)};
    return c.refusal != 0 ? c : look(write_image(book, group, image), hypotheses);
}

/* ---- The lines ---- */

/* A line is put together by hand: printf would cost as much as a short search. */
enum { LONGEST_LINE = 32 + MOST_MEMBERS * 16 };

static char *put_word(char *end, const char *word, size_t length)
{
    memcpy(end, word, length);
    return end + length;
}

#define PUT(end, word) put_word(end, word, sizeof(word) - 1)

static char *put_number(char *end, uint32_t number)
{
    char digits[10];
    size_t count = 0;
    do
        digits[count++] = '0' + number % 10;
    while ((number /= 10) != 0);
    while (count > 0)
        *end++ = digits[--count];
    return end;
}

static char *put_verdicts(char *end, const struct cleaning *c, uint64_t hypotheses)
{
    for (uint64_t left = hypotheses; left != 0; left &= left - 1) {
        uint64_t h = left & -left;
        *end++ = ' ';
        end = put_number(end, __builtin_ctzll(left));
        if (c->unexplained & h)
            end = PUT(end, ":unexplained");
        else if (c->needed & h)
            end = PUT(end, ":needed");
        else if (c->possible & h)
            end = PUT(end, ":possible");
        else
            end = PUT(end, ":ruled-out");
    }
    return end;
}

static void print(struct bytes group, const struct cleaning *c, uint64_t hypotheses)
{
    char line[LONGEST_LINE];
    char *end = PUT(line, "group ");
    if (is_well_formed(group))
        end = put_number(end, field_at(group.start, NUMBER_AT));
    else
        *end++ = '?';
    if (c->refusal != 0)
        end = put_number(PUT(end, " held refused "), c->refusal);
    else if (c->ruled_out == hypotheses)
        end = PUT(end, " deleted");
    else
        end = put_verdicts(PUT(end, " held"), c, hypotheses);
    *end++ = '\n';
    fwrite(line, 1, end - line, stdout);
}

/* The length of the first record: by its own length field, or all bytes where they are too few for that. */
static size_t record_length(struct bytes groups)
{
    if (groups.length < NUMBER_AT)
        return groups.length;
    size_t length = NUMBER_AT + field_at(groups.start, SIZE_AT);
    return length < groups.length ? length : groups.length;
}

static void print_all(struct bytes book, struct bytes groups, uint64_t hypotheses)
{
    while (groups.length > 0) {
        struct bytes group = {groups.start, record_length(groups)};
        struct cleaning c = clean(book, group, hypotheses);
        print(group, &c, hypotheses);
        groups.start += group.length;
        groups.length -= group.length;
    }
}

/* ---- The program ---- */

static void stop(const char *word, const char *what)
{
    fprintf(stderr, "%s: %s\n", word, what);
    exit(1);
}

/* At most so many bytes of the file. */
static struct bytes load(const char *path, uint8_t *buffer, size_t most)
{
    FILE *file = fopen(path, "rb");
    if (file == NULL)
        stop(path, "cannot be opened");
    struct bytes bytes = {buffer, fread(buffer, 1, most, file)};
    fclose(file);
    return bytes;
}

static uint64_t hypotheses_of(int count, char **words)
{
    uint64_t hypotheses = 0;
    for (int i = 0; i < count; i++) {
        unsigned long h = strtoul(words[i], NULL, 10);
        if (h >= MOST_MEMBERS)
            stop(words[i], "is no hypothesis");
        hypotheses |= (uint64_t)1 << h;
    }
    return hypotheses;
}

int main(int count, char **words)
{
    /* One byte more than the longest, so that a longer one is told. */
    static uint8_t image[LONGEST_IMAGE + 1], records[MOST_BYTES + 1];
    if (count < 4) {
        fputs("usage: clean BOOK GROUPS H [H ..]\n", stderr);
        return 2;
    }
    struct bytes book = load(words[1], image, sizeof image);
    struct bytes groups = load(words[2], records, sizeof records);
    if (groups.length > MOST_BYTES)
        stop(words[2], "is too long");
    print_all(book, groups, hypotheses_of(count - 3, words + 3));
    return 0;
}
