/* Measures the stack of each call on the books, lists and texts that ask most of it, and fails where one needs more than
 * wizogbare.h states.
 *
 * A call runs on a stack of its own, which is painted before; what is no longer painted was used. */

#define _XOPEN_SOURCE 600

#include "../../include/wizogbare.h"

#include <stdio.h>
#include <stdlib.h>
#include <string.h>
#include <ucontext.h>

enum { STACK_BYTES = 1 << 19, PAINT = 0xa5 };

static void stop(const char *what)
{
    fprintf(stderr, "stack: %s\n", what);
    exit(1);
}

/* ---- Books ---- */

enum {
    FRONT_BYTES = 5,
    MOST_ATOMS = 256,
    MOST_GOALS = 16,
    MOST_CLAUSES = 512,
    MOST_CONSTRAINTS = 128,
    MOST_LITERALS = 1024, /* of all bodies, and again of all constraints */
    FIELD_BYTES = 2
};

struct book {
    uint8_t image[WIZOGBARE_LONGEST_IMAGE];
    size_t length;
};

static void field(struct book *book, unsigned number)
{
    if (book->length + FIELD_BYTES > sizeof book->image)
        stop("a book is longer than an image may be");
    book->image[book->length++] = (uint8_t)(number >> 8);
    book->image[book->length++] = (uint8_t)number;
}

static unsigned literal(unsigned atom) { return 2 * atom; }

static void begin(struct book *book, unsigned atoms, unsigned abducibles)
{
    book->length = FRONT_BYTES;
    field(book, atoms);
    field(book, abducibles);
}

static void end(struct book *book)
{
    size_t rest = book->length - FRONT_BYTES;
    book->image[0] = 1;
    for (int i = 0; i < 4; i++)
        book->image[1 + i] = (uint8_t)(rest >> 8 * (3 - i));
    if (wizogbare_read(book->image, book->length) != 0)
        stop("a book is refused");
}

/* The last of all atoms rests on the one before, and so on to the first behind so many abducibles, a fact. It is wanted as the
 * goal, or else as the alternative of a constraint. */
static void write_chain(struct book *book, unsigned abducibles, int as_goal)
{
    begin(book, MOST_ATOMS, abducibles);
    field(book, as_goal ? 1 : 0);
    if (as_goal)
        field(book, literal(MOST_ATOMS - 1));
    field(book, MOST_ATOMS - abducibles);
    field(book, FIELD_BYTES);
    field(book, abducibles);
    for (unsigned atom = abducibles + 1; atom < MOST_ATOMS; atom++) {
        field(book, 2 * FIELD_BYTES);
        field(book, atom);
        field(book, literal(atom - 1));
    }
    field(book, as_goal ? 0 : 1);
    if (!as_goal) {
        field(book, 3 * FIELD_BYTES);
        field(book, 0);
        field(book, 1);
        field(book, literal(MOST_ATOMS - 1));
    }
    end(book);
}

/* Ten atoms are wanted, each from one of two abducibles: 1,024 sets, the longest list. */
static void write_pairs(struct book *book)
{
    enum { WANTED = 10, ABDUCIBLES = 2 * WANTED };
    begin(book, ABDUCIBLES + WANTED, ABDUCIBLES);
    field(book, WANTED);
    for (unsigned i = 0; i < WANTED; i++)
        field(book, literal(ABDUCIBLES + i));
    field(book, ABDUCIBLES);
    for (unsigned i = 0; i < ABDUCIBLES; i++) {
        field(book, 2 * FIELD_BYTES);
        field(book, ABDUCIBLES + i / 2);
        field(book, literal(i));
    }
    field(book, 0);
    end(book);
}

/* The longest image: every limit is reached, and each literal of a constraint is an alternative. */
static void write_longest(struct book *book)
{
    enum {
        ABDUCIBLES = WIZOGBARE_MOST_ABDUCIBLES,
        IN_BODY = MOST_LITERALS / MOST_CLAUSES,
        IN_CONSTRAINT = MOST_LITERALS / MOST_CONSTRAINTS
    };
    begin(book, MOST_ATOMS, ABDUCIBLES);
    field(book, MOST_GOALS);
    for (unsigned i = 0; i < MOST_GOALS; i++)
        field(book, literal(ABDUCIBLES + i));
    field(book, MOST_CLAUSES);
    for (unsigned i = 0; i < MOST_CLAUSES; i++) {
        field(book, (1 + IN_BODY) * FIELD_BYTES);
        field(book, ABDUCIBLES + i % (MOST_ATOMS - ABDUCIBLES));
        for (unsigned j = 0; j < IN_BODY; j++)
            field(book, literal((i + j) % ABDUCIBLES));
    }
    field(book, MOST_CONSTRAINTS);
    for (unsigned i = 0; i < MOST_CONSTRAINTS; i++) {
        field(book, (1 + 2 * IN_CONSTRAINT) * FIELD_BYTES);
        field(book, 0);
        for (unsigned j = 0; j < IN_CONSTRAINT; j++) {
            field(book, 1);
            field(book, literal(ABDUCIBLES + (i + j) % (MOST_ATOMS - ABDUCIBLES)));
        }
    }
    end(book);
    if (book->length != WIZOGBARE_LONGEST_IMAGE)
        stop("the longest book is not the longest");
}

/* Beside the third chain stands an abducible that is in no smallest set: only a second search tells that it is possible. */
enum { CHAIN, CHAIN_IN_CONSTRAINT, CHAIN_BESIDE, PAIRS, LONGEST, BOOKS };
static struct book books[BOOKS];

static void write_books(void)
{
    write_chain(&books[CHAIN], 0, 1);
    write_chain(&books[CHAIN_IN_CONSTRAINT], 0, 0);
    write_chain(&books[CHAIN_BESIDE], 1, 1);
    write_pairs(&books[PAIRS]);
    write_longest(&books[LONGEST]);
}

/* ---- Lists ---- */

/* Sets of three members, of which none is inside another, from the last in the order to the first. */
static uint64_t apart[2 * WIZOGBARE_LONGEST_LIST];

static void write_lists(void)
{
    size_t left = sizeof apart / sizeof *apart;
    for (int i = 0; left > 0; i++)
        for (int j = 0; j < i; j++)
            for (int k = 0; k < j && left > 0; k++)
                apart[--left] = (uint64_t)1 << i | (uint64_t)1 << j | (uint64_t)1 << k;
}

/* ---- Texts ---- */

struct text {
    uint8_t bytes[WIZOGBARE_LONGEST_TEXT];
    size_t length;
};

static void add(struct text *text, const char *words)
{
    size_t length = strlen(words);
    if (text->length + length > sizeof text->bytes)
        stop("a text is too long");
    memcpy(text->bytes + text->length, words, length);
    text->length += length;
}

/* A fact for each of so many names, then a goal; filled up with spaces. */
static void write_facts(struct text *text, unsigned names, const char *form)
{
    char fact[64];
    text->length = 0;
    for (unsigned i = 0; i < names; i++) {
        snprintf(fact, sizeof fact, form, i);
        add(text, fact);
    }
    add(text, "?-goal.");
    memset(text->bytes + text->length, ' ', sizeof text->bytes - text->length);
    text->length = sizeof text->bytes;
}

/* All atoms on a chain, with the longest names. */
static void write_chained(struct text *text)
{
    char clause[128];
    text->length = 0;
    for (unsigned i = 0; i + 1 < MOST_ATOMS; i++) {
        snprintf(clause, sizeof clause, "a%030u:-a%030u.", i, i + 1);
        add(text, clause);
    }
    snprintf(clause, sizeof clause, "?-a%030u.", 0u);
    add(text, clause);
}

/* A name beside the goal's, as many names as a book may have, a chain of them, thousands, and a text that is no word. */
enum { FEW_NAMES, LONG_NAMES, CHAINED, MANY_NAMES, NO_GOAL, TEXTS };
static struct text texts[TEXTS];

static void write_texts(void)
{
    write_facts(&texts[FEW_NAMES], 1, "a%u.");
    write_facts(&texts[LONG_NAMES], MOST_ATOMS - 1, "a%030u.");
    write_chained(&texts[CHAINED]);
    write_facts(&texts[MANY_NAMES], 6000, "s%x.");
    memset(texts[NO_GOAL].bytes, 'a', sizeof texts[NO_GOAL].bytes);
    texts[NO_GOAL].length = sizeof texts[NO_GOAL].bytes;
}

/* ---- The calls ---- */

static uint64_t sets[WIZOGBARE_LONGEST_LIST];
static uint32_t work[WIZOGBARE_WORK_NUMBERS];
static const struct book *book;
static size_t room;
static const uint64_t *right;
static const struct text *text;
static uint8_t written[WIZOGBARE_LONGEST_IMAGE];
static uint64_t answer;

static void call_read(void) { answer = wizogbare_read(book->image, book->length); }

static void call_judge(void) { answer = wizogbare_judge(book->image, book->length, 0); }

static void call_list(void)
{
    answer = wizogbare_list(book->image, book->length, WIZOGBARE_LARGEST_BUDGET, sets, room, work, WIZOGBARE_WORK_NUMBERS);
}

static void call_verdict(void)
{
    answer = wizogbare_verdict(book->image, book->length, 0, WIZOGBARE_LARGEST_BUDGET, sets, room, work, WIZOGBARE_WORK_NUMBERS);
}

static void call_admits(void)
{
    answer = wizogbare_admits(book->image, book->length, 0, WIZOGBARE_LARGEST_BUDGET, work, WIZOGBARE_WORK_NUMBERS);
}

static void call_join(void) { answer = wizogbare_join(apart, WIZOGBARE_LONGEST_LIST, right, WIZOGBARE_LONGEST_LIST, sets, room); }

static void call_text(void) { answer = wizogbare_text(text->bytes, text->length, written, room); }

static void call_names(void) { answer = wizogbare_names(text->bytes, text->length, written, room); }

/* ---- The painted stack ---- */

static uint8_t stack[STACK_BYTES];
static ucontext_t here, there;
static void (*due)(void);
static uint8_t *frame;

static void on_painted_stack(void)
{
    frame = __builtin_frame_address(0);
    due();
}

/* The bytes of stack below the caller's frame that the call used. */
static size_t used_by(void (*call)(void))
{
    size_t painted = 0;
    memset(stack, PAINT, sizeof stack);
    due = call;
    getcontext(&there);
    there.uc_stack.ss_sp = stack;
    there.uc_stack.ss_size = sizeof stack;
    there.uc_link = &here;
    makecontext(&there, on_painted_stack, 0);
    swapcontext(&here, &there);
    while (stack[painted] == PAINT)
        painted++;
    return (size_t)(frame - (stack + painted));
}

static size_t larger(size_t a, size_t b) { return a > b ? a : b; }

/* A book or a list that is answered in another way than it was written for measures nothing. */
static void expect(int met)
{
    if (!met)
        stop("an answer is not the one expected");
}

static void expect_answers(void)
{
    room = WIZOGBARE_LONGEST_LIST;
    for (book = books; book < books + PAIRS; book++) {
        call_judge();
        expect(wizogbare_judge_kind_of(answer) == WIZOGBARE_EXPLAINS);
    }
    book = &books[PAIRS];
    call_list();
    expect(wizogbare_list_count(answer) == WIZOGBARE_LONGEST_LIST);
    call_verdict();
    expect(wizogbare_verdict_kind_of(answer) == WIZOGBARE_POSSIBLE);
    call_admits();
    expect(wizogbare_admits_kind_of(answer) == WIZOGBARE_ADMITTED);
    book = &books[CHAIN_BESIDE];
    call_list();
    expect(wizogbare_list_count(answer) == 1 && sets[0] == 0);
    call_verdict();
    expect(wizogbare_verdict_kind_of(answer) == WIZOGBARE_POSSIBLE);
    call_admits();
    expect(wizogbare_admits_kind_of(answer) == WIZOGBARE_ADMITTED);
    right = apart;
    call_join();
    expect(wizogbare_join_count(answer) == WIZOGBARE_LONGEST_LIST);
    room = sizeof written;
    for (text = texts; text < texts + MANY_NAMES; text++) {
        call_text();
        expect(wizogbare_text_kind_of(answer) == WIZOGBARE_WRITTEN);
    }
    text = &texts[CHAINED];
    call_names();
    expect(wizogbare_text_bytes(answer) == WIZOGBARE_LONGEST_LINES);
    text = &texts[MANY_NAMES];
    call_text();
    expect(wizogbare_text_refusal(answer) == WIZOGBARE_LIMIT_BROKEN);
    text = &texts[NO_GOAL];
    call_text();
    expect(wizogbare_text_refusal(answer) == WIZOGBARE_TEXT_MALFORMED);
}

static size_t most_over_books(void (*call)(void))
{
    size_t most = 0;
    for (book = books; book < books + BOOKS; book++)
        for (room = 0; room <= WIZOGBARE_LONGEST_LIST; room += WIZOGBARE_LONGEST_LIST)
            most = larger(most, used_by(call));
    return most;
}

/* The same list twice has a result, and another one leaves no room. */
static size_t most_over_lists(void)
{
    size_t most = 0;
    for (room = 0; room <= WIZOGBARE_LONGEST_LIST; room += WIZOGBARE_LONGEST_LIST)
        for (right = apart; right <= apart + WIZOGBARE_LONGEST_LIST; right += WIZOGBARE_LONGEST_LIST)
            most = larger(most, used_by(call_join));
    return most;
}

static size_t most_over_texts(void (*call)(void))
{
    size_t most = 0;
    for (text = texts; text < texts + TEXTS; text++)
        for (room = 0; room <= sizeof written; room += sizeof written)
            most = larger(most, used_by(call));
    return most;
}

/* ---- The table ---- */

static int report(const char *name, size_t used, size_t stated)
{
    printf("%-8s %6zu bytes used, %6zu stated%s\n", name, used, stated, used > stated ? ": too few" : "");
    return used > stated;
}

int main(void)
{
    int failed = 0;
    write_books();
    write_lists();
    write_texts();
    expect_answers();
    failed |= report("read", most_over_books(call_read), WIZOGBARE_STACK_READ);
    failed |= report("judge", most_over_books(call_judge), WIZOGBARE_STACK_JUDGE);
    failed |= report("list", most_over_books(call_list), WIZOGBARE_STACK_LIST);
    failed |= report("verdict", most_over_books(call_verdict), WIZOGBARE_STACK_VERDICT);
    failed |= report("admits", most_over_books(call_admits), WIZOGBARE_STACK_ADMITS);
    failed |= report("join", most_over_lists(), WIZOGBARE_STACK_JOIN);
    failed |= report("text", most_over_texts(call_text), WIZOGBARE_STACK_TEXT);
    failed |= report("names", most_over_texts(call_names), WIZOGBARE_STACK_NAMES);
    return failed;
}
