/* The C readers of texts: what the engine's reader of texts is measured against. */
#ifndef TEXT_H
#define TEXT_H

#include "lister.h"

/* The refusals of a text beside those of its image. */
enum { MALFORMED = 50, BOTH_WAYS = 51, SHORT_ROOM = 52 };

/* Writes the image of the book that a text says to the front of the room, and its length to `written`. The answer is 0, or the
 * number under which the text is refused; then neither is written to. */
typedef uint32_t c_text_reader(const uint8_t *text, size_t length, uint8_t *image, size_t room, size_t *written);

c_text_reader c_text;       /* plain C: text.c */
c_text_reader c_text_tuned; /* tuned by hand: text_tuned.c */

#endif
