/* The questions on a header block, their answers held to one another. */
#ifndef QUESTIONS_H
#define QUESTIONS_H

#include <stddef.h>
#include <stdint.h>

/* A block lent, and a sheet lent beside it. */
struct lent_block {
    const uint8_t *block;
    size_t length;
    const uint8_t *sheet;
    size_t sheet_length;
};

/* The numbers that questions are put with. */
struct numbers {
    uint32_t scan_type, set, channel, subscan, k, t;
};

void ask_all(const struct lent_block *lent, const struct numbers *numbers);

/* The row of a code, a word of it and a digit pair. */
void ask_word(uint16_t code, uint32_t c, uint32_t word);

#endif
