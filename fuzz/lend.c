#define _DEFAULT_SOURCE
#include "lend.h"

#include <stdint.h>
#include <stdio.h>
#include <stdlib.h>
#include <string.h>
#include <sys/mman.h>

#ifdef LEND_HEAP

void lend_beside(int before)
{
    (void)before;
}

void *lend_room(enum lent which, size_t size)
{
    static void *lent[LENT_KINDS];
    free(lent[which]);
    lent[which] = malloc(size);
    return lent[which];
}

#else

#define PAGE ((size_t)4096)

/* Each kind has whole pages, as many as its longest loan needs. */
#define PAGES_OF_BYTES (MOST_BYTES / PAGE)
#define PAGES_OF_NUMBERS (sizeof(int32_t) * MOST_NUMBERS / PAGE + 1)

static int page_before;

void lend_beside(int before)
{
    page_before = before;
}

/* Pages that may be touched, between two that may not. */
static uint8_t *fenced(size_t pages)
{
    uint8_t *start = mmap(NULL, (pages + 2) * PAGE, PROT_NONE, MAP_PRIVATE | MAP_ANONYMOUS, -1, 0);
    if (start == MAP_FAILED || mprotect(start + PAGE, pages * PAGE, PROT_READ | PROT_WRITE) != 0) {
        perror("lend");
        exit(2);
    }
    return start + PAGE;
}

void *lend_room(enum lent which, size_t size)
{
    static uint8_t *start[LENT_KINDS];
    size_t pages = which == LENT_OUT ? PAGES_OF_NUMBERS : PAGES_OF_BYTES;
    if (start[which] == NULL)
        start[which] = fenced(pages);
    return page_before ? start[which] : start[which] + pages * PAGE - size;
}

#endif

void *lend(enum lent which, const void *content, size_t size)
{
    void *room = lend_room(which, size);
    if (size > 0)
        memcpy(room, content, size);
    return room;
}
