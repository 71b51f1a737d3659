/* The body's calls, each held to what it promises of any state, fit or not. */
#ifndef BODY_H
#define BODY_H

#include "../include/segd.h"

#include <stddef.h>
#include <stdint.h>

/* What output holds before a call: no M and no X is so large. */
#define UNTOUCHED 0x5AA55AA5

/* A body being read: its state and the numbers that portions wrote so far. The block is lent to the calls on traces. */
struct reading {
    uint8_t kind; /* SEGD_TRACES: `traces` is the state, and the calls are those on traces; else `state` and those on scans */
    SegdState state;
    SegdTraces traces;
    const uint8_t *block;
    size_t block_length;
    int32_t *numbers;
    size_t count;
};

/* Whether two states have the same fields. */
int same_state(const SegdState *a, const SegdState *b);
int same_traces(const SegdTraces *a, const SegdTraces *b);

/* How many traces an accepted header announces; 0 where it is one of scans. */
uint64_t traces_of(const uint8_t *block, const SegdGeneral *header);

/* Puts a portion in an output of `room` numbers, which it may find too short. Gives 0 where the portion was refused. */
int put_portion(struct reading *reading, const uint8_t *bytes, size_t length, size_t room);

void put_block_end(struct reading *reading);

SegdClosing put_close(const struct reading *reading);

/* The same on a body of traces (traces.c). */
int put_trace_portion(struct reading *reading, const uint8_t *bytes, size_t length, size_t room);
void put_trace_end(struct reading *reading);
SegdClosing put_trace_close(const struct reading *reading);

/* Output of so many numbers, none of them written; and what a portion wrote of it, taken over: the rest has to be untouched. */
int32_t *lend_output(size_t room);
void take_numbers(struct reading *reading, const int32_t *out, size_t room, uint64_t samples);

/* Whether a closing has no report. */
int is_empty(const SegdClosing *closing);

#endif
