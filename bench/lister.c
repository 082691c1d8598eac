/* A plain C lister of the specification's search rules, written for speed.
 *
 * The image is tested first (reader.c), as the engine tests it. A reading pass then writes the book as runs of tasks:
 * the goal and the constraints, the body of each clause, the breaks of each atom, the literals of each alternative. A
 * task is one number, and `action` says what to do with it now. For a want that depends on whether its atom is in T,
 * in F or in neither, so a node costs one look at that table.
 *
 * An agenda is what is left of a run, and a link to a cell: what is left of the run behind it, and its link. A frame
 * is pushed only where a node has several children. What is marked after that stands on the trail, and is undone when
 * the frame's next child is due. All of it stands in the lent work area. */

#include "kept.h"
#include "lister.h"

#include <string.h>

/* A task. A want is its literal; behind wants, breaks and constraints come two that end a run. */
enum {
    BREAK = 2 * ATOMS,              /* break clause c is BREAK + c */
    CONSTRAINT = BREAK + CLAUSES,   /* constraint k is CONSTRAINT + k */
    END = CONSTRAINT + CONSTRAINTS, /* the end of a run: what is behind the link comes next */
    DONE,                           /* the end of the root's run: the agenda is empty */
    TASKS,
};

/* A list of tasks is one number too: the task itself if it is one, NOTHING if it is none, else a run's place behind
 * NOTHING. So a run of literals has two at least before its END. The last way of a choice has LAST added to it. */
enum {
    NOTHING = TASKS,
    RUN,
    LAST = 1 << 15,
};

enum {
    ROOT_RUN = GOAL_LITERALS + CONSTRAINTS + 1,
    BREAK_RUNS = CLAUSES + ATOMS,
    RUNS = ROOT_RUN + BREAK_RUNS + (BODY_LITERALS + CONSTRAINT_LITERALS) * 3 / 2,
    WAYS = CLAUSES + BODY_LITERALS + CONSTRAINT_LITERALS,
};

/* On one path each atom is marked once at most, so each clause is broken once and each constraint met once. */
enum {
    CELLS = ATOMS + CONSTRAINTS,
    FRAMES = ATOMS + CLAUSES + CONSTRAINTS,
};

/* What to do with a node's first task. */
enum action {
    FAIL,    /* no child */
    GO_ON,   /* wanted already */
    ASSUME,  /* an abducible joins T */
    REJECT,  /* an atom without clauses joins F */
    ENTER,   /* a defined atom joins T or F, with one list of tasks */
    PROVE,   /* a defined atom joins T, with a way for each of its clauses */
    CHOOSE,  /* a break or a constraint, with a way or several */
    SUCCEED, /* no task */
};

/* Where the search stands: the agenda, the abducibles in T, and how many cells and places of the trail are used. */
struct node {
    uint64_t set;
    uint32_t at, link;
    uint32_t cells, marked;
};

struct cell {
    uint16_t at, link;
};

/* A node with children still to visit, and the way of the next. */
struct frame {
    struct node node;
    uint32_t way;
};

struct __attribute__((may_alias)) lister {
    struct frame frames[FRAMES];
    uint64_t kept[SETS + ENDS];
    struct cell cells[CELLS];
    uint16_t trail[ATOMS];
    uint8_t action[TASKS];     /* for each task, as T and F are now */
    uint8_t fresh[BREAK];      /* for each want while its atom is in neither */
    uint16_t entered[BREAK];   /* the list of tasks of an ENTER */
    uint16_t first_way[TASKS]; /* of a PROVE or a CHOOSE */
    uint16_t ways[WAYS];       /* each a list of tasks */
    uint16_t runs[RUNS];
    /* Used by the reading pass alone: */
    uint16_t clauses[ATOMS];    /* the number of an atom's clauses */
    uint16_t next_way[ATOMS];   /* where the way of an atom's next clause goes */
    uint16_t next_break[ATOMS]; /* where an atom's next break goes */
};

_Static_assert(sizeof(struct lister) + 4 <= 4 * WORK_NUMBERS, "the lister fits the work area, at any start");

/* ---- The reading pass ---- */

struct reading {
    struct lister *l;
    const uint8_t *image;
    size_t at;           /* the next field */
    uint32_t runs, ways; /* the next free places */
};

static inline uint32_t next_field(struct reading *r)
{
    r->at += 2;
    return field_at(r->image, r->at - 2);
}

/* The next literals, wanted in order. */
static inline uint32_t read_wants(struct reading *r, uint32_t count)
{
    if (count == 0)
        return NOTHING;
    if (count == 1)
        return next_field(r);
    uint32_t start = r->runs;
    for (uint32_t i = 0; i < count; i++)
        r->l->runs[r->runs++] = next_field(r);
    r->l->runs[r->runs++] = END;
    return RUN + start;
}

/* A way for each of the next literals: its opposite wanted. */
static inline void read_opposites(struct reading *r, uint32_t count)
{
    for (uint32_t i = 0; i < count; i++)
        r->l->ways[r->ways++] = next_field(r) ^ 1;
}

/* The ways of this break or constraint are those from `first` on. */
static inline void end_ways(struct reading *r, uint32_t task, uint32_t first)
{
    struct lister *l = r->l;
    l->first_way[task] = first;
    l->action[task] = first == r->ways ? FAIL : CHOOSE;
    if (first < r->ways)
        l->ways[r->ways - 1] |= LAST;
}

static void count_clauses(struct reading *r, uint32_t clauses)
{
    size_t at = r->at;
    memset(r->l->clauses, 0, sizeof r->l->clauses);
    for (uint32_t c = 0; c < clauses; c++) {
        r->l->clauses[field_at(r->image, at + 2)]++;
        at += 2 + field_at(r->image, at);
    }
}

/* What a want does while its atom is in neither set; places for the ways and breaks of each atom's clauses. */
static void place_atoms(struct reading *r, uint32_t atoms, uint32_t abducibles)
{
    struct lister *l = r->l;
    for (uint32_t p = 0; p < abducibles; p++) {
        l->fresh[2 * p] = ASSUME;
        l->fresh[2 * p + 1] = REJECT;
    }
    for (uint32_t p = abducibles; p < atoms; p++) {
        uint32_t count = l->clauses[p];
        l->fresh[2 * p] = count == 0 ? FAIL : count == 1 ? ENTER : PROVE;
        l->fresh[2 * p + 1] = count == 0 ? REJECT : ENTER;
        l->first_way[2 * p] = l->next_way[p] = r->ways;
        l->entered[2 * p + 1] = RUN + r->runs;
        l->next_break[p] = r->runs;
        r->ways += count;
        r->runs += count;
        l->runs[r->runs++] = END;
    }
    memcpy(l->action, l->fresh, 2 * atoms);
}

/* The clause as a way of its head, whose ways end with the last of its clauses. */
static inline void place_clause(struct lister *l, uint32_t head, uint32_t c, uint32_t wants)
{
    uint32_t way = l->next_way[head]++;
    l->runs[l->next_break[head]++] = BREAK + c;
    l->ways[way] = wants;
    if (way + 1 == l->first_way[2 * head] + l->clauses[head])
        l->ways[way] |= LAST;
    if (l->clauses[head] == 1) {
        l->entered[2 * head] = wants;
        l->entered[2 * head + 1] = BREAK + c;
    }
}

static void read_clause(struct reading *r, uint32_t c)
{
    uint32_t count = next_field(r) / 2 - 1;
    uint32_t head = next_field(r);
    size_t body = r->at;
    uint32_t first = r->ways;
    place_clause(r->l, head, c, read_wants(r, count));
    r->at = body;
    read_opposites(r, count);
    end_ways(r, BREAK + c, first);
}

static void read_constraint(struct reading *r, uint32_t k)
{
    uint32_t length = next_field(r);
    size_t end = r->at + length;
    uint32_t first = r->ways;
    read_opposites(r, next_field(r));
    while (r->at < end) {
        uint32_t wants = read_wants(r, next_field(r));
        r->l->ways[r->ways++] = wants;
    }
    end_ways(r, CONSTRAINT + k, first);
}

/* The root's run stands before all others: the goal literals, the constraints, DONE. */
static void read_book(struct lister *l, const uint8_t *image)
{
    struct reading r = {l, image, 5, ROOT_RUN, 0};
    uint32_t atoms = next_field(&r);
    uint32_t abducibles = next_field(&r);
    uint16_t *root = l->runs;
    for (uint32_t left = next_field(&r); left > 0; left--)
        *root++ = next_field(&r);
    uint32_t clauses = next_field(&r);
    count_clauses(&r, clauses);
    place_atoms(&r, atoms, abducibles);
    for (uint32_t c = 0; c < clauses; c++)
        read_clause(&r, c);
    uint32_t constraints = next_field(&r);
    for (uint32_t k = 0; k < constraints; k++) {
        *root++ = CONSTRAINT + k;
        read_constraint(&r, k);
    }
    *root = DONE;
    l->action[DONE] = SUCCEED;
}

/* ---- The search ---- */

/* Takes the first task of the agenda. */
static inline uint32_t next_task(const struct lister *l, struct node *n)
{
    uint32_t task = l->runs[n->at++];
    while (task == END) {
        struct cell behind = l->cells[n->link];
        n->link = behind.link;
        task = l->runs[behind.at];
        n->at = behind.at + 1;
    }
    return task;
}

/* Puts the tasks in front of the agenda and takes the first. A run that is used up leaves no cell behind. */
static inline uint32_t first_task(struct lister *l, struct node *n, uint32_t tasks)
{
    if (tasks < NOTHING)
        return tasks;
    if (tasks >= RUN) {
        if (l->runs[n->at] != END) {
            l->cells[n->cells] = (struct cell){n->at, n->link};
            n->link = n->cells++;
        }
        n->at = tasks - RUN;
    }
    return next_task(l, n);
}

/* The literal's atom joins T or F. */
static inline void mark(struct lister *l, struct node *n, uint32_t literal)
{
    l->action[literal] = GO_ON;
    l->action[literal ^ 1] = FAIL;
    l->trail[n->marked++] = literal;
}

static inline void undo(struct lister *l, uint32_t marked, uint32_t down_to)
{
    while (marked > down_to) {
        uint32_t positive = l->trail[--marked] & ~1u;
        memcpy(l->action + positive, l->fresh + positive, 2);
    }
}

/* The first way of the task; if there are more, a frame keeps them. */
static inline uint32_t choose(const struct lister *l, const struct node *n, uint32_t task, struct frame **top)
{
    uint32_t way = l->first_way[task];
    uint32_t tasks = l->ways[way];
    if (tasks < LAST)
        *(*top)++ = (struct frame){*n, way + 1};
    return tasks & ~LAST;
}

/* The next way of the last frame, from where the search stood then; with its last way the frame goes. */
static inline uint32_t next_way(struct lister *l, struct node *n, struct frame **top)
{
    struct frame *f = *top - 1;
    undo(l, n->marked, f->node.marked);
    *n = f->node;
    uint32_t tasks = l->ways[f->way++];
    if (tasks >= LAST)
        *top = f;
    return tasks & ~LAST;
}

static uint64_t answer(uint64_t kind, uint64_t number, uint64_t nodes)
{
    return kind << 56 | number << 32 | nodes;
}

/* The search from the root, with these tasks ahead of its own. Each turn of the loop visits one node, whose first task
 * has just been taken. */
static uint64_t search(struct lister *l, uint32_t ahead, uint32_t budget, size_t room)
{
    struct node n = {0};
    struct frame *top = l->frames;
    size_t kept = 0;
    uint32_t left = budget;
    uint32_t task = first_task(l, &n, ahead);
    for (;;) {
        if (left == 0)
            return answer(REFUSED, BUDGET_USED_UP, budget);
        left--;
        switch ((enum action)l->action[task]) {
        case GO_ON:
            task = next_task(l, &n);
            continue;
        case ASSUME:
            n.set |= (uint64_t)1 << (task >> 1);
            mark(l, &n, task);
            task = next_task(l, &n);
            continue;
        case REJECT:
            mark(l, &n, task);
            task = next_task(l, &n);
            continue;
        case ENTER:
            mark(l, &n, task);
            task = first_task(l, &n, l->entered[task]);
            continue;
        case PROVE:
            mark(l, &n, task);
            /* fall through */
        case CHOOSE:
            task = first_task(l, &n, choose(l, &n, task, &top));
            continue;
        case SUCCEED:
            kept = keep(l->kept, kept, n.set);
            if (kept > room)
                return answer(REFUSED, NO_ROOM, budget - left);
            break;
        case FAIL:
            break;
        }
        if (top == l->frames)
            return answer(LISTED, kept, budget - left);
        task = first_task(l, &n, next_way(l, &n, &top));
    }
}

/* The refusal before any search, or 0. */
static uint32_t refusal_of(const uint8_t *image, size_t length, uint32_t budget, size_t room, size_t work_length)
{
    uint32_t refusal = c_read(image, length);
    if (refusal != 0)
        return refusal;
    return room > SETS ? LONG_LIST : work_length < WORK_NUMBERS ? SHORT_WORK : budget > MOST_BUDGET ? LARGE_BUDGET : 0;
}

/* The book's tables, in the lent work area. */
static struct lister *tables(const uint8_t *image, uint32_t *work)
{
    struct lister *l = (struct lister *)(((uintptr_t)work + 7) & ~(uintptr_t)7);
    read_book(l, image);
    return l;
}

uint64_t c_list(const uint8_t *image, size_t length, uint32_t budget, uint64_t *sets, size_t room, uint32_t *work,
                size_t work_length)
{
    uint32_t refusal = refusal_of(image, length, budget, room, work_length);
    if (refusal != 0)
        return answer(REFUSED, refusal, 0);
    struct lister *l = tables(image, work);
    uint64_t result = search(l, NOTHING, budget, room);
    size_t listed = result >> 56 == LISTED ? result >> 32 & 0xffffff : 0;
    send_out(l->kept, listed, sets);
    memset(sets + listed, 0, 8 * (room - listed));
    memset(work, 0, 4 * WORK_NUMBERS);
    return result;
}

/* The hypothesis is wanted ahead of the goal, and there is room for no set, so that the first success ends the search. */
uint64_t c_admits(const uint8_t *image, size_t length, uint32_t hypothesis, uint32_t budget, uint32_t *work,
                  size_t work_length)
{
    uint32_t refusal = refusal_of(image, length, budget, 0, work_length);
    if (refusal == 0 && hypothesis >= field_at(image, ABDUCIBLES_AT))
        refusal = NOT_ABDUCIBLE;
    if (refusal != 0)
        return answer(REFUSED, refusal, 0);
    uint64_t result = search(tables(image, work), 2 * hypothesis, budget, 0);
    memset(work, 0, 4 * WORK_NUMBERS);
    if (result >> 56 == LISTED)
        return answer(EXCLUDED, 0, (uint32_t)result);
    return (result >> 32 & 0xffffff) == NO_ROOM ? answer(ADMITTED, 0, (uint32_t)result) : result;
}
