/* What the harness demands of the answers. A demand that is not met ends the run, so that the fuzzer keeps the input. */
#ifndef DEMAND_H
#define DEMAND_H

#include <stdint.h>
#include <stdio.h>
#include <stdlib.h>

#define DEMAND(test)                                                           \
    do {                                                                       \
        if (!(test)) {                                                         \
            fprintf(stderr, "%s:%d: not so: %s\n", __FILE__, __LINE__, #test); \
            abort();                                                           \
        }                                                                      \
    } while (0)

/* The calls, as what came up is counted. */
enum call {
    CALL_HEADER, CALL_SET, CALL_INDEX, CALL_PLACE, CALL_SKEW, CALL_TIME, CALL_WORD, CALL_PORTION, CALL_END, CALL_CLOSE,
    CALL_TRACE_PORTION, CALL_TRACE_END, CALL_TRACE_CLOSE, CALL_TRACE_PLACE, CALLS
};

/* Tells the fuzzer which refusal (0: none) a call on a record of that code answered: an input that brings a new one is kept. */
void came_up(enum call call, uint32_t refusal, uint16_t code);

/* Tells it at which byte of a scan a portion began. */
void cut_at(uint32_t place_in_scan, uint16_t code);

/* Or of a trace. */
void cut_in_trace(uint32_t place_in_trace, uint16_t code);

#endif
