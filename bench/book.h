/* A book to search: an image from a file, with its budget and room, and the memory that searches are lent. */
#ifndef BOOK_H
#define BOOK_H

#include "lister.h"

#include <stdio.h>
#include <stdlib.h>

enum { LONGEST_IMAGE = 8751, MOST_ROOM = 1024 };

struct book {
    const char *path;
    uint32_t budget;
    size_t room;
    size_t length;
    uint8_t image[LONGEST_IMAGE];
};

static void stop(const char *path, const char *what)
{
    fprintf(stderr, "%s: %s\n", path, what);
    exit(1);
}

/* The book that three words name: FILE BUDGET ROOM. */
static struct book load(char **words)
{
    struct book book = {words[0], strtoul(words[1], NULL, 10), strtoul(words[2], NULL, 10), 0, {0}};
    FILE *file = fopen(book.path, "rb");
    if (file == NULL)
        stop(book.path, "cannot be opened");
    book.length = fread(book.image, 1, sizeof book.image, file);
    fclose(file);
    if (book.room > MOST_ROOM)
        stop(book.path, "more room than a list may have");
    return book;
}

#endif
