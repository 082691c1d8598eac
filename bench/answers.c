/* Prints the C lister's answers.
 *
 *     answers FILE BUDGET ROOM [FILE BUDGET ROOM ..]
 *
 * A line for each book: kind, number and nodes, then every entry of the list; of an image that is refused the number
 * alone. */

#include "book.h"

#include <string.h>

enum { BEYOND = 100 };

static uint64_t sets[MOST_ROOM];
static uint32_t work[WORK_NUMBERS + BEYOND];

/* Whether the search left its part of the work area 0 and the rest as it was, all ones. */
static int work_is_clean(void)
{
    for (size_t i = 0; i < WORK_NUMBERS + BEYOND; i++)
        if (work[i] != (i < WORK_NUMBERS ? 0 : UINT32_MAX))
            return 0;
    return 1;
}

static void print_answer(const struct book *book)
{
    uint32_t refusal = c_read(book->image, book->length);
    if (refusal != 0) {
        printf("refused %u\n", refusal);
        return;
    }
    memset(sets, 0xff, sizeof sets);
    memset(work, 0xff, sizeof work);
    uint64_t answer = c_list(book->image, book->length, book->budget, sets, book->room, work, WORK_NUMBERS + BEYOND);
    if (!work_is_clean())
        stop(book->path, "the work area is not left as it should be");
    printf("%u %u %u", (unsigned)(answer >> 56), (unsigned)(answer >> 32 & 0xffffff), (unsigned)answer);
    for (size_t i = 0; i < book->room; i++)
        printf(" %llu", (unsigned long long)sets[i]);
    putchar('\n');
}

int main(int count, char **words)
{
    for (int i = 1; i + 2 < count; i += 3) {
        struct book book = load(words + i);
        print_answer(&book);
    }
    return 0;
}
