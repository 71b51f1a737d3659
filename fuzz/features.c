/* What came up, in counters that libFuzzer looks at beside those of the code: an input that raises a new one is kept. */
#include "demand.h"

#define COUNTERS __attribute__((section("__libfuzzer_extra_counters"), used))

/* Refusals are numbered up to 25; codes are told apart by the last bits of their digits and by their first, places by their place in a
   group of 0015 or 8015. */
#define REFUSALS 32
#define CODES 32
#define START 8
#define TRACE_START 20
#define GROUP 10

static uint8_t answers[CALLS][REFUSALS][CODES] COUNTERS;
static uint8_t cuts[START + GROUP][CODES] COUNTERS;
static uint8_t trace_cuts[TRACE_START + GROUP][CODES] COUNTERS;

static unsigned code_number(uint16_t code)
{
    return (code ^ code >> 4) % (CODES / 2) + (code >> 15) * (CODES / 2);
}

void came_up(enum call call, uint32_t refusal, uint16_t code)
{
    answers[call][refusal % REFUSALS][code_number(code)] = 1;
}

/* The place itself at the start, and in a group after it. */
static uint32_t place_of(uint32_t place, uint32_t start)
{
    return place < start ? place : start + (place - start) % GROUP;
}

void cut_at(uint32_t place_in_scan, uint16_t code)
{
    cuts[place_of(place_in_scan, START)][code_number(code)] = 1;
}

void cut_in_trace(uint32_t place_in_trace, uint16_t code)
{
    trace_cuts[place_of(place_in_trace, TRACE_START)][code_number(code)] = 1;
}
