/* Prints a C reader's answers to cases of operation 6, as `replay` does.
 *
 *     text_answers plain|tuned < CASES
 *
 * A case is the byte 6, the text's length in four bytes, the text, and the room's length in four bytes, highest byte first. */

#include "text.h"

#include <stdio.h>
#include <stdlib.h>
#include <string.h>

enum { MOST_TEXT = 40000, MOST_ROOM = 10000, BEFORE = 165 };

static uint8_t text[MOST_TEXT], image[MOST_ROOM];

static void need(int is_met)
{
    if (!is_met) {
        puts("bad case");
        exit(1);
    }
}

static uint32_t take_number(void)
{
    uint8_t bytes[4];
    need(fread(bytes, 1, 4, stdin) == 4);
    return (uint32_t)bytes[0] << 24 | (uint32_t)bytes[1] << 16 | (uint32_t)bytes[2] << 8 | bytes[3];
}

static const char *state(size_t from, size_t room)
{
    for (size_t i = from; i < room; i++)
        if (image[i] != BEFORE)
            return "other";
    return "untouched";
}

/* The text is lent in memory of just its length, so that a tool can see what is read beyond it. */
static void answer(c_text_reader *read, uint32_t length, uint32_t room)
{
    uint8_t *lent = malloc(length + (length == 0)), *lent_room = malloc(room + (room == 0));
    need(lent != NULL && lent_room != NULL);
    memcpy(lent, text, length);
    memset(lent_room, BEFORE, room);
    size_t written = 0;
    uint32_t refusal = read(lent, length, lent_room, room, &written);
    memcpy(image, lent_room, room);
    free(lent);
    free(lent_room);
    if (refusal != 0) {
        printf("refused %u room %s\n", refusal, state(0, room));
        return;
    }
    printf("written %zu bytes ", written);
    for (size_t i = 0; i < written; i++)
        printf("%02x", image[i]);
    printf(" rest %s\n", state(written, room));
}

int main(int count, char **words)
{
    if (count != 2 || (strcmp(words[1], "plain") != 0 && strcmp(words[1], "tuned") != 0)) {
        fputs("usage: text_answers plain|tuned < CASES\n", stderr);
        return 2;
    }
    c_text_reader *read = strcmp(words[1], "plain") == 0 ? c_text : c_text_tuned;
    int operation;
    while ((operation = getchar()) != EOF) {
        need(operation == 6);
        uint32_t length = take_number();
        need(length <= MOST_TEXT && fread(text, 1, length, stdin) == length);
        uint32_t room = take_number();
        need(room <= MOST_ROOM);
        answer(read, length, room);
    }
    return 0;
}
