/* Lists the smallest explanations of a book: list FILE. */

#include "../include/wizogbare.h"

#include <stdio.h>

enum { BUDGET = 100000, ROOM = 256 };

static void print_set(uint32_t place, uint64_t set)
{
    unsigned abducible;
    printf("%u:", (unsigned)place);
    for (abducible = 0; abducible < WIZOGBARE_MOST_ABDUCIBLES; abducible++)
        if (set >> abducible & 1)
            printf(" %u", abducible);
    printf(set == 0 ? " none\n" : "\n");
}

int main(int count, char **words)
{
    /* One byte more than an image may have, so that a longer one is refused. */
    static uint8_t image[WIZOGBARE_LONGEST_IMAGE + 1];
    static uint64_t sets[ROOM];
    static uint32_t work[WIZOGBARE_WORK_NUMBERS];
    FILE *file = count == 2 ? fopen(words[1], "rb") : NULL;
    size_t length;
    uint64_t code;
    uint32_t i;

    if (file == NULL) {
        fputs("usage: list FILE\n", stderr);
        return 2;
    }
    length = fread(image, 1, sizeof image, file);
    fclose(file);

    code = wizogbare_list(image, length, BUDGET, sets, ROOM, work, WIZOGBARE_WORK_NUMBERS);
    if (wizogbare_list_kind_of(code) == WIZOGBARE_LIST_BROKEN) {
        printf("refused %u nodes 0 at %u\n", (unsigned)wizogbare_list_refusal(code), (unsigned)wizogbare_list_byte(code));
        return 1;
    }
    if (wizogbare_list_kind_of(code) == WIZOGBARE_LIST_REFUSED) {
        printf("refused %u nodes %u\n", (unsigned)wizogbare_list_refusal(code), (unsigned)wizogbare_list_nodes(code));
        return 1;
    }
    printf("sets %u nodes %u\n", (unsigned)wizogbare_list_count(code), (unsigned)wizogbare_list_nodes(code));
    for (i = 0; i < wizogbare_list_count(code); i++)
        print_set(i + 1, sets[i]);
    return 0;
}
