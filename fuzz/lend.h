/* What is lent to the library, in its exact length: next to it lies a page that nobody may touch, so that a read or a write
   outside it ends the run. Built with LEND_HEAP each is a heap block of its own instead, for a checker of memory. */
#ifndef LEND_H
#define LEND_H

#include <stddef.h>

/* The most bytes that are lent at once, and the most numbers of output. */
#define MOST_BYTES (1u << 18)
#define MOST_NUMBERS (2 * MOST_BYTES + 8)

enum lent { LENT_BLOCK, LENT_OTHER, LENT_SHEET, LENT_BYTES, LENT_OUT, LENT_KINDS };

/* Which side of what is lent from now on the forbidden page is: 0 after it, else before it. */
void lend_beside(int before);

/* Room for `size` bytes, which the next loan of the same kind takes back. */
void *lend_room(enum lent which, size_t size);

/* A copy of `size` bytes. */
void *lend(enum lent which, const void *content, size_t size);

#endif
