/* Tries what wizogbare.h says and no proof covers: its constants, NULL with length 0 on every call, and codes taken apart. */

#include "../../include/wizogbare.h"

#include <stdio.h>
#include <string.h>

static int failed = 0;

static void expect(int met, const char *what)
{
    if (!met) {
        printf("header: %s\n", what);
        failed = 1;
    }
}

/* An abducible, and an atom without a clause; in the second book that is the goal. */
static const uint8_t nothing_wanted[] = {1, 0, 0, 0, 10, 0, 2, 0, 1, 0, 0, 0, 0, 0, 0};
static const uint8_t unexplained[] = {1, 0, 0, 0, 12, 0, 2, 0, 1, 0, 1, 0, 2, 0, 0, 0, 0};

/* One abducible, which the goal wants; one that the goal wants false; one that the second of two constraints rules out. */
static const uint8_t wanted[] = {1, 0, 0, 0, 12, 0, 1, 0, 1, 0, 1, 0, 0, 0, 0, 0, 0};
static const uint8_t unwanted[] = {1, 0, 0, 0, 12, 0, 1, 0, 1, 0, 1, 0, 1, 0, 0, 0, 0};
static const uint8_t forbidden[] = {1, 0, 0, 0, 22, 0, 1, 0, 1, 0, 0, 0, 0, 0, 2, 0, 4, 0, 1, 0, 1, 0, 4, 0, 1, 0, 0};

/* Two abducibles, of which the goal wants the first; the second is in no smallest set, and yet possible. */
static const uint8_t beside[] = {1, 0, 0, 0, 12, 0, 2, 0, 2, 0, 1, 0, 0, 0, 0, 0, 0};

/* One atom wanted, from either of two abducibles. */
static const uint8_t either[] = {1, 0, 0, 0, 24, 0, 3, 0, 2, 0, 1, 0, 4, 0, 2, 0, 4, 0, 2, 0, 0, 0, 4, 0, 2, 0, 2, 0, 0};

static uint64_t sets[WIZOGBARE_LONGEST_LIST + 1], lists[WIZOGBARE_LONGEST_LIST + 1];
static uint32_t work[WIZOGBARE_WORK_NUMBERS];

/* Texts, without the 0 behind: what `wanted` says; the first without its end; a name with and without `abd`. */
static const char wanted_text[] = "?- abd(drop).\n", cut_text[] = "?- abd(drop)", clash_text[] = "drop. ?- abd(drop).";

/* What a text is written to, with bytes behind it that are no room. */
enum { MARK = 0xa5 };
static uint8_t laid[WIZOGBARE_LONGEST_IMAGE + 1];
static uint8_t long_text[WIZOGBARE_LONGEST_TEXT + 1];

static const uint32_t BUDGET = 100;

#define LIST(image, budget, sets, room) \
    wizogbare_list(image, sizeof image, budget, sets, room, work, WIZOGBARE_WORK_NUMBERS)
#define VERDICT(image, hypothesis, sets, room) \
    wizogbare_verdict(image, sizeof image, hypothesis, BUDGET, sets, room, work, WIZOGBARE_WORK_NUMBERS)
#define ADMITS(image, hypothesis, budget) \
    wizogbare_admits(image, sizeof image, hypothesis, budget, work, WIZOGBARE_WORK_NUMBERS)

typedef uint64_t text_call(const uint8_t *, size_t, uint8_t *, size_t);

/* The answer to a text in a marked room of so many bytes. */
static uint64_t in_room(text_call *call, const char *text, size_t room)
{
    memset(laid, MARK, sizeof laid);
    return call((const uint8_t *)text, strlen(text), laid, room);
}

/* Whether the room is marked from this byte on. */
static int untouched(size_t from)
{
    while (from < sizeof laid && laid[from] == MARK)
        from++;
    return from == sizeof laid;
}

static void try_null(void)
{
    uint64_t empty = 0, code;
    expect(wizogbare_read_refusal(wizogbare_read(NULL, 0)) == WIZOGBARE_IMAGE_SHORT, "read of no image");
    code = wizogbare_judge(NULL, 0, 0);
    expect(wizogbare_judge_refusal(code) == WIZOGBARE_IMAGE_SHORT, "judge of no image");
    code = wizogbare_list(NULL, 0, BUDGET, NULL, 0, NULL, 0);
    expect(wizogbare_list_refusal(code) == WIZOGBARE_IMAGE_SHORT, "list of nothing");
    code = wizogbare_list(wanted, sizeof wanted, BUDGET, NULL, 0, NULL, 0);
    expect(wizogbare_list_refusal(code) == WIZOGBARE_WORK_SHORT, "list with no work area");
    code = LIST(unexplained, BUDGET, NULL, 0);
    expect(wizogbare_list_kind_of(code) == WIZOGBARE_LISTED, "list of no set in no room");
    code = LIST(wanted, BUDGET, NULL, 0);
    expect(wizogbare_list_refusal(code) == WIZOGBARE_NO_ROOM, "list of a set in no room");
    code = wizogbare_verdict(NULL, 0, 0, BUDGET, NULL, 0, NULL, 0);
    expect(wizogbare_verdict_refusal(code) == WIZOGBARE_IMAGE_SHORT, "verdict on nothing");
    code = wizogbare_verdict(wanted, sizeof wanted, 0, BUDGET, NULL, 0, NULL, 0);
    expect(wizogbare_verdict_refusal(code) == WIZOGBARE_WORK_SHORT, "verdict with no work area");
    code = VERDICT(wanted, 0, NULL, 0);
    expect(wizogbare_verdict_refusal(code) == WIZOGBARE_NO_ROOM, "verdict in no room");
    code = wizogbare_admits(NULL, 0, 0, BUDGET, NULL, 0);
    expect(wizogbare_admits_kind_of(code) == WIZOGBARE_ADMITS_BROKEN, "admits of nothing");
    expect(wizogbare_admits_refusal(code) == WIZOGBARE_IMAGE_SHORT && wizogbare_admits_byte(code) == 0, "its number and byte");
    code = wizogbare_admits(wanted, sizeof wanted, 0, BUDGET, NULL, 0);
    expect(wizogbare_admits_refusal(code) == WIZOGBARE_WORK_SHORT, "admits with no work area");
    expect(wizogbare_join(NULL, 0, NULL, 0, NULL, 0) == 0, "join of nothing");
    expect(wizogbare_join(&empty, 1, NULL, 0, sets, 1) == 1, "join with no right list");
    expect(wizogbare_join(NULL, 0, &empty, 1, sets, 1) == 1, "join with no left list");
    code = wizogbare_join(&empty, 1, &empty, 1, NULL, 0);
    expect(wizogbare_join_refusal(code) == WIZOGBARE_NO_ROOM, "join in no room");
    expect(wizogbare_text_refusal(wizogbare_text(NULL, 0, NULL, 0)) == WIZOGBARE_TEXT_MALFORMED, "no text");
    expect(wizogbare_text_refusal(wizogbare_names(NULL, 0, NULL, 0)) == WIZOGBARE_TEXT_MALFORMED, "names of no text");
    code = wizogbare_text((const uint8_t *)wanted_text, strlen(wanted_text), NULL, 0);
    expect(wizogbare_text_refusal(code) == WIZOGBARE_ROOM_SHORT, "a text's image in no room");
    code = wizogbare_names((const uint8_t *)wanted_text, strlen(wanted_text), NULL, 0);
    expect(wizogbare_text_refusal(code) == WIZOGBARE_ROOM_SHORT, "a text's names in no room");
}

static void try_constants(void)
{
    enum {
        ROOM = WIZOGBARE_LONGEST_LIST,
        TOO_LONG = WIZOGBARE_LONGEST_LIST + 1,
        TOO_SHORT = WIZOGBARE_WORK_NUMBERS - 1,
        TOO_LARGE = WIZOGBARE_LARGEST_BUDGET + 1
    };
    uint64_t code = LIST(wanted, WIZOGBARE_LARGEST_BUDGET, sets, ROOM);
    expect(wizogbare_list_kind_of(code) == WIZOGBARE_LISTED, "the longest list, the largest budget");
    code = LIST(wanted, BUDGET, sets, TOO_LONG);
    expect(wizogbare_list_refusal(code) == WIZOGBARE_LIST_LONG, "a list too long");
    code = wizogbare_list(wanted, sizeof wanted, BUDGET, sets, ROOM, work, TOO_SHORT);
    expect(wizogbare_list_refusal(code) == WIZOGBARE_WORK_SHORT, "a work area too short");
    code = LIST(wanted, TOO_LARGE, sets, ROOM);
    expect(wizogbare_list_refusal(code) == WIZOGBARE_BUDGET_LARGE, "a budget too large");
    code = LIST(wanted, 1, sets, ROOM);
    expect(wizogbare_list_refusal(code) == WIZOGBARE_BUDGET_USED, "a budget used up");
    code = ADMITS(wanted, 0, WIZOGBARE_LARGEST_BUDGET);
    expect(wizogbare_admits_kind_of(code) == WIZOGBARE_ADMITTED, "admits with the largest budget");
    code = wizogbare_admits(wanted, sizeof wanted, 0, BUDGET, work, TOO_SHORT);
    expect(wizogbare_admits_refusal(code) == WIZOGBARE_WORK_SHORT, "admits with a work area too short");
    code = ADMITS(wanted, 0, TOO_LARGE);
    expect(wizogbare_admits_refusal(code) == WIZOGBARE_BUDGET_LARGE, "admits with a budget too large");
    code = wizogbare_join(lists, ROOM, lists, ROOM, sets, ROOM);
    expect(wizogbare_join_kind_of(code) == WIZOGBARE_JOINED && wizogbare_join_count(code) == 1, "a join of the longest lists");
    code = wizogbare_join(lists, TOO_LONG, lists, 0, sets, 1);
    expect(wizogbare_join_refusal(code) == WIZOGBARE_LIST_LONG, "a left list too long");
    code = wizogbare_join(lists, 0, lists, TOO_LONG, sets, 1);
    expect(wizogbare_join_refusal(code) == WIZOGBARE_LIST_LONG, "a right list too long");
    code = wizogbare_join(lists, 0, lists, 0, sets, TOO_LONG);
    expect(wizogbare_join_refusal(code) == WIZOGBARE_LIST_LONG, "a third list too long");
}

static void try_answers(void)
{
    enum { ROOM = WIZOGBARE_LONGEST_LIST };
    uint64_t code;
    expect(wizogbare_read_kind_of(wizogbare_read(wanted, sizeof wanted)) == WIZOGBARE_ACCEPTED, "accepted");
    code = wizogbare_judge(wanted, sizeof wanted, 1);
    expect(wizogbare_judge_kind_of(code) == WIZOGBARE_EXPLAINS, "explains");
    code = wizogbare_judge(nothing_wanted, sizeof nothing_wanted, 0);
    expect(wizogbare_judge_kind_of(code) == WIZOGBARE_EXPLAINS, "explains an empty goal");
    code = wizogbare_judge(wanted, sizeof wanted, 0);
    expect(wizogbare_judge_kind_of(code) == WIZOGBARE_FALSE_GOAL, "a false goal");
    expect(wizogbare_judge_place(code) == 0 && wizogbare_judge_refusal(code) == 0, "a false goal's place");
    code = wizogbare_judge(forbidden, sizeof forbidden, 1);
    expect(wizogbare_judge_kind_of(code) == WIZOGBARE_BROKEN_CONSTRAINT, "a broken constraint");
    expect(wizogbare_judge_place(code) == 1 && wizogbare_judge_refusal(code) == 0, "a broken constraint's place");
    code = wizogbare_judge(wanted, sizeof wanted, 2);
    expect(wizogbare_judge_kind_of(code) == WIZOGBARE_JUDGE_REFUSED, "a judge's refusal");
    expect(wizogbare_judge_refusal(code) == WIZOGBARE_ABDUCIBLE_UNKNOWN && wizogbare_judge_place(code) == 0, "its number");
    code = LIST(either, BUDGET, sets, ROOM);
    expect(wizogbare_list_kind_of(code) == WIZOGBARE_LISTED, "a listing");
    expect(wizogbare_list_count(code) == 2 && wizogbare_list_nodes(code) == 5 && wizogbare_list_refusal(code) == 0, "its numbers");
    expect(sets[0] == 1 && sets[1] == 2 && sets[2] == 0, "its sets");
    code = LIST(either, BUDGET, sets, 1);
    expect(wizogbare_list_kind_of(code) == WIZOGBARE_LIST_REFUSED, "a listing without room");
    expect(wizogbare_list_refusal(code) == WIZOGBARE_NO_ROOM && wizogbare_list_count(code) == 0, "its refusal");
    expect(wizogbare_list_nodes(code) == 5 && sets[0] == 0, "its nodes, and the list left 0");
    expect(wizogbare_verdict_kind_of(VERDICT(wanted, 0, sets, ROOM)) == WIZOGBARE_NEEDED, "needed");
    code = VERDICT(unwanted, 0, sets, ROOM);
    expect(wizogbare_verdict_kind_of(code) == WIZOGBARE_RULED_OUT && wizogbare_verdict_nodes(code) == 4, "ruled out");
    expect(wizogbare_verdict_kind_of(VERDICT(unexplained, 0, sets, ROOM)) == WIZOGBARE_UNEXPLAINED, "unexplained");
    code = VERDICT(either, 1, sets, ROOM);
    expect(wizogbare_verdict_kind_of(code) == WIZOGBARE_POSSIBLE, "possible");
    expect(wizogbare_verdict_nodes(code) == 5 && wizogbare_verdict_refusal(code) == 0, "its nodes");
    code = VERDICT(unexplained, 1, sets, ROOM);
    expect(wizogbare_verdict_kind_of(code) == WIZOGBARE_VERDICT_REFUSED, "a verdict's refusal");
    expect(wizogbare_verdict_refusal(code) == WIZOGBARE_ABDUCIBLE_UNKNOWN && wizogbare_verdict_nodes(code) == 0, "its number");
}

/* The list of `beside` takes 2 nodes, and the second search 3. */
static void try_second_search(void)
{
    enum { ROOM = WIZOGBARE_LONGEST_LIST };
    uint64_t code = VERDICT(beside, 1, sets, ROOM);
    expect(wizogbare_verdict_kind_of(code) == WIZOGBARE_POSSIBLE, "possible, in no smallest set");
    expect(wizogbare_verdict_nodes(code) == 5 && sets[0] == 1 && sets[1] == 0, "its nodes, and the list kept");
    code = VERDICT(beside, 1, sets, 1);
    expect(wizogbare_verdict_kind_of(code) == WIZOGBARE_POSSIBLE, "a second search needs no room");
    code = wizogbare_verdict(beside, sizeof beside, 1, 3, sets, ROOM, work, WIZOGBARE_WORK_NUMBERS);
    expect(wizogbare_verdict_kind_of(code) == WIZOGBARE_POSSIBLE, "a budget just enough for each of two searches");
    code = wizogbare_verdict(beside, sizeof beside, 1, 2, sets, ROOM, work, WIZOGBARE_WORK_NUMBERS);
    expect(wizogbare_verdict_refusal(code) == WIZOGBARE_BUDGET_USED, "a budget used up by the second search");
    expect(wizogbare_verdict_nodes(code) == 4 && sets[0] == 0, "its nodes, and the list left 0");
    code = VERDICT(beside, 0, sets, ROOM);
    expect(wizogbare_verdict_kind_of(code) == WIZOGBARE_NEEDED && wizogbare_verdict_nodes(code) == 2, "needed by the list alone");
    code = ADMITS(beside, 1, 3);
    expect(wizogbare_admits_kind_of(code) == WIZOGBARE_ADMITTED, "admitted");
    expect(wizogbare_admits_nodes(code) == 3 && wizogbare_admits_refusal(code) == 0 && wizogbare_admits_byte(code) == 0, "its nodes");
    code = ADMITS(unwanted, 0, BUDGET);
    expect(wizogbare_admits_kind_of(code) == WIZOGBARE_EXCLUDED, "excluded");
    expect(wizogbare_admits_nodes(code) == 2 && wizogbare_admits_refusal(code) == 0 && wizogbare_admits_byte(code) == 0, "its nodes");
    expect(wizogbare_admits_kind_of(ADMITS(unexplained, 0, BUDGET)) == WIZOGBARE_EXCLUDED, "excluded where nothing explains");
    code = ADMITS(beside, 1, 2);
    expect(wizogbare_admits_kind_of(code) == WIZOGBARE_ADMITS_REFUSED, "admits with a budget used up");
    expect(wizogbare_admits_refusal(code) == WIZOGBARE_BUDGET_USED && wizogbare_admits_nodes(code) == 2, "its number and nodes");
    expect(wizogbare_admits_byte(code) == 0, "no byte");
    code = ADMITS(beside, 2, BUDGET);
    expect(wizogbare_admits_kind_of(code) == WIZOGBARE_ADMITS_REFUSED, "admits of no abducible");
    expect(wizogbare_admits_refusal(code) == WIZOGBARE_ABDUCIBLE_UNKNOWN && wizogbare_admits_nodes(code) == 0, "its number");
}

/* An image whose first atom is too many: every call tells the refusal, and byte 5. */
static void try_broken(void)
{
    static const uint8_t broken[] = {1, 0, 0, 0, 10, 1, 1, 0, 0, 0, 0, 0, 0, 0, 0};
    enum { ROOM = WIZOGBARE_LONGEST_LIST, A = 5 };
    uint64_t code = wizogbare_read(broken, sizeof broken);
    expect(wizogbare_read_kind_of(code) == WIZOGBARE_READ_REFUSED, "a broken book");
    expect(wizogbare_read_refusal(code) == WIZOGBARE_LIMIT_BROKEN && wizogbare_read_byte(code) == A, "its number and byte");
    code = wizogbare_judge(broken, sizeof broken, 0);
    expect(wizogbare_judge_kind_of(code) == WIZOGBARE_JUDGE_BROKEN && wizogbare_judge_place(code) == 0, "a broken book, judged");
    expect(wizogbare_judge_refusal(code) == WIZOGBARE_LIMIT_BROKEN && wizogbare_judge_byte(code) == A, "its number and byte");
    code = LIST(broken, BUDGET, sets, ROOM);
    expect(wizogbare_list_kind_of(code) == WIZOGBARE_LIST_BROKEN && wizogbare_list_nodes(code) == 0, "a broken book, listed");
    expect(wizogbare_list_refusal(code) == WIZOGBARE_LIMIT_BROKEN && wizogbare_list_byte(code) == A, "its number and byte");
    expect(wizogbare_list_count(code) == 0, "no sets");
    code = VERDICT(broken, 0, sets, ROOM);
    expect(wizogbare_verdict_kind_of(code) == WIZOGBARE_VERDICT_BROKEN && wizogbare_verdict_nodes(code) == 0, "a broken book, and a verdict");
    expect(wizogbare_verdict_refusal(code) == WIZOGBARE_LIMIT_BROKEN && wizogbare_verdict_byte(code) == A, "its number and byte");
    code = ADMITS(broken, 0, BUDGET);
    expect(wizogbare_admits_kind_of(code) == WIZOGBARE_ADMITS_BROKEN && wizogbare_admits_nodes(code) == 0, "a broken book, and admits");
    expect(wizogbare_admits_refusal(code) == WIZOGBARE_LIMIT_BROKEN && wizogbare_admits_byte(code) == A, "its number and byte");
    expect(wizogbare_list_byte(LIST(either, BUDGET, sets, 1)) == 0, "a refusal without a byte");
}

static void try_texts(void)
{
    enum { IMAGE = sizeof wanted };
    static text_call *const calls[] = {wizogbare_text, wizogbare_names};
    uint64_t code = in_room(wizogbare_text, wanted_text, IMAGE);
    expect(wizogbare_text_kind_of(code) == WIZOGBARE_WRITTEN && wizogbare_text_bytes(code) == IMAGE, "a text's image");
    expect(wizogbare_text_refusal(code) == 0 && memcmp(laid, wanted, IMAGE) == 0 && untouched(IMAGE), "its bytes, and no more");
    code = in_room(wizogbare_names, wanted_text, sizeof laid);
    expect(wizogbare_text_kind_of(code) == WIZOGBARE_WRITTEN && wizogbare_text_bytes(code) == strlen("drop\n"), "a text's names");
    expect(memcmp(laid, "drop\n", strlen("drop\n")) == 0 && untouched(strlen("drop\n")), "its lines, and no more");
    for (int i = 0; i < 2; i++) {
        code = in_room(calls[i], cut_text, sizeof laid);
        expect(wizogbare_text_kind_of(code) == WIZOGBARE_TEXT_REFUSED && wizogbare_text_bytes(code) == 0, "a malformed text");
        expect(wizogbare_text_refusal(code) == WIZOGBARE_TEXT_MALFORMED && untouched(0), "its refusal");
        code = in_room(calls[i], clash_text, sizeof laid);
        expect(wizogbare_text_refusal(code) == WIZOGBARE_NAME_CLASH && untouched(0), "a name that clashes");
        code = in_room(calls[i], wanted_text, i == 0 ? IMAGE - 1 : strlen("drop\n") - 1);
        expect(wizogbare_text_refusal(code) == WIZOGBARE_ROOM_SHORT && untouched(0), "a room too short");
        memset(long_text, ' ', sizeof long_text);
        memcpy(long_text, wanted_text, strlen(wanted_text));
        code = calls[i](long_text, WIZOGBARE_LONGEST_TEXT, laid, sizeof laid);
        expect(wizogbare_text_kind_of(code) == WIZOGBARE_WRITTEN, "the longest text");
        memset(laid, MARK, sizeof laid);
        code = calls[i](long_text, WIZOGBARE_LONGEST_TEXT + 1, laid, sizeof laid);
        expect(wizogbare_text_refusal(code) == WIZOGBARE_TEXT_MALFORMED && untouched(0), "a text too long");
    }
}

int main(void)
{
    try_null();
    try_constants();
    try_answers();
    try_second_search();
    try_broken();
    try_texts();
    if (!failed)
        printf("header: as stated\n");
    return failed;
}
