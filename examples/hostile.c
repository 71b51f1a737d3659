/*
 * A hostile caller: forged states, lengths of nothing, output that is too short, questions about what is not there, blocks cut at
 * every length. Each call has to name its refusal, to leave the state as it was handed in and to write nothing.
 */
#define _DEFAULT_SOURCE /* MAP_ANONYMOUS */
#include "segd.h"

#include "check.h"
#include <string.h>
#include <sys/mman.h>
#include <unistd.h>

enum { ROOM = 64, UNTOUCHED = 0x5AA55AA5 };

/* Two scans of case L. */
static const uint8_t body[24] = {0xFF, 0xFF, 0xFF, 0x01, 0, 0, 0, 0, 0x18, 0x97, 0xFF, 0x00,
                                 0xFF, 0xFF, 0xFF, 0x01, 0, 2, 0, 0, 0x18, 0x97, 0x00, 0x00};
static int32_t out[ROOM];

static SegdState fresh(void)
{
    return segd_open(case_l, sizeof case_l).state;
}

static SegdGave portion(SegdState state, size_t length, size_t room)
{
    for (size_t i = 0; i < ROOM; i++)
        out[i] = UNTOUCHED;
    return segd_portion(state, body, length, out, room);
}

/* Whether nothing was written past so many samples. */
static int untouched_past(uint64_t samples)
{
    for (size_t i = 2 * (size_t)samples; i < ROOM; i++)
        if (out[i] != UNTOUCHED)
            return 0;
    return 1;
}

static int same_shape(const SegdShape *a, const SegdShape *b)
{
    return a->code == b->code && a->scan == b->scan && a->advance == b->advance && a->types == b->types && a->block == b->block;
}

static int same_track(const SegdTrack *a, const SegdTrack *b)
{
    return a->timing == b->timing && a->seen == b->seen && a->itb == b->itb && a->twi == b->twi && a->window == b->window;
}

static int same_state(SegdState a, SegdState b)
{
    return same_shape(&a.shape, &b.shape) && same_track(&a.track, &b.track) && a.place == b.place && a.ends == b.ends && a.off == b.off &&
           a.held == b.held && a.exponents == b.exponents && a.stop == b.stop && a.stopat == b.stopat;
}

static int is_refusal(SegdTold told, uint32_t number, uint32_t first)
{
    return told.number == number && told.first == first && told.second == 0 && told.third == 0;
}

static int no_report(SegdClosing closing)
{
    return closing.scans == 0 && closing.off == 0 && closing.samples == 0 && closing.last_type == 0 && closing.itb_known == 0 &&
           closing.itb == 0 && closing.window_known == 0 && closing.window == 0;
}

/* Whether a portion or a block end answered so, wrote nothing and gave the state back. */
static int answered(SegdGave gave, SegdState state, uint32_t outcome, uint32_t number, uint32_t first)
{
    return gave.outcome == outcome && is_refusal(gave.refusal, number, first) && gave.samples == 0 && same_state(gave.state, state) &&
           untouched_past(0);
}

/* Whether every call on a state answers so. */
static int all_answer(SegdState state, uint32_t outcome, uint32_t number, uint32_t first)
{
    SegdClosing closing = segd_close(state);

    return answered(portion(state, sizeof body, ROOM), state, outcome, number, first) &&
           answered(portion(state, sizeof body, 1), state, outcome, number, first) &&
           answered(portion(state, 0, 0), state, outcome, number, first) &&
           answered(segd_block_end(state), state, outcome, number, first) && is_refusal(closing.refusal, number, first) &&
           no_report(closing);
}

static int refused_as_unfit(SegdState state)
{
    return all_answer(state, SEGD_REFUSED, SEGD_STATE, 0);
}

static void try_forged_whole(void)
{
    SegdState state;

    memset(&state, 0xFF, sizeof state);
    HOLDS(refused_as_unfit(state));
    memset(&state, 0, sizeof state);
    HOLDS(refused_as_unfit(state));
    SegdOpened unopened = segd_open(case_l, 31);
    HOLDS(is_refusal(unopened.refusal, SEGD_SHORT, 0) && unopened.kind == 0);
    HOLDS(same_state(unopened.state, state));
}

/* One number of a sound state, a step past what it may be. */
static void try_forged_number(void)
{
    static const struct {
        size_t field;
        uint32_t value;
    } forged[] = {
        {offsetof(SegdState, shape.scan), 7},           {offsetof(SegdState, shape.scan), 1000000},
        {offsetof(SegdState, shape.advance), 1},        {offsetof(SegdState, shape.advance), 524288 + 256},
        {offsetof(SegdState, shape.types), 0},          {offsetof(SegdState, shape.types), 100},
        {offsetof(SegdState, shape.block), 8355841},    {offsetof(SegdState, ends), 25},
        {offsetof(SegdState, off), 25},                 {offsetof(SegdState, stopat), 25},
        {offsetof(SegdState, track.seen), 2},           {offsetof(SegdState, track.itb), 2},
        {offsetof(SegdState, track.twi), 2},            {offsetof(SegdState, exponents), 65536},
        {offsetof(SegdState, stop), 1},                 {offsetof(SegdState, stop), 13},
        {offsetof(SegdState, stop), 19},                {offsetof(SegdState, stop), UINT32_MAX},
    };

    for (size_t i = 0; i < sizeof forged / sizeof forged[0]; i++) {
        SegdState state = portion(fresh(), sizeof body, ROOM).state;
        memcpy((char *)&state + forged[i].field, &forged[i].value, sizeof forged[i].value);
        HOLDS(refused_as_unfit(state));
    }
}

static void try_forged_code(void)
{
    static const uint16_t codes[] = {0x0000, 0x0023, 0x2200, 0x8022, 0xFFFF};
    SegdState state = fresh();

    for (size_t i = 0; i < sizeof codes / sizeof codes[0]; i++) {
        state.shape.code = codes[i];
        HOLDS(refused_as_unfit(state));
    }
    state.shape.code = 0x0048; /* scans of 12 bytes hold one whole word of four */
    HOLDS(portion(state, 0, 0).outcome == SEGD_GOING_ON);
    state.shape.scan = 13;
    HOLDS(refused_as_unfit(state));
}

/* A stop stays what its numbers say, whatever else is changed about it. */
static void try_forged_stop(void)
{
    SegdState state = segd_block_end(fresh()).state;

    HOLDS(all_answer(state, SEGD_STOPPED, SEGD_BLOCK, 0));
    state.place = 24;
    state.stopat = 5;
    for (uint32_t stop = SEGD_LONG; stop <= SEGD_PHASE; stop++) {
        state.stop = stop;
        HOLDS(all_answer(state, SEGD_STOPPED, stop, 5));
    }
    state.stopat = 25;
    HOLDS(refused_as_unfit(state));
}

/* The last place of a body: no reel of a handy size comes there, a forged state does. */
static void try_longest(void)
{
    SegdState state = fresh();

    state.place = UINT32_MAX;
    SegdGave gave = portion(state, sizeof body, ROOM);
    HOLDS(gave.outcome == SEGD_STOPPED && is_refusal(gave.refusal, SEGD_LONG, UINT32_MAX));
    HOLDS(gave.samples == 0 && untouched_past(0));
    HOLDS(all_answer(gave.state, SEGD_STOPPED, SEGD_LONG, UINT32_MAX));
}

/* Numbers from a seed, the same in every run. */
static uint32_t any(void)
{
    static uint32_t seed = 2463534242u;

    seed ^= seed << 13;
    seed ^= seed >> 17;
    seed ^= seed << 5;
    return seed;
}

/* A state made up inside the limits: what it answers is of no use, but it answers and keeps to its room. */
static SegdState made_up(void)
{
    static const uint16_t codes[] = {0x0015, 0x0022, 0x0024, 0x0042, 0x0044, 0x0048};
    SegdState state = fresh();

    state.shape.code = codes[any() % 6];
    state.shape.scan = 8 + 20 * (any() % 3);
    state.shape.types = 1 + any() % 99;
    state.shape.block = any() % 4;
    state.place = any() % 2 ? any() : any() % 64;
    state.ends = any() % 2 ? state.place : 0;
    state.off = state.place;
    state.track.timing = any();
    state.track.seen = any() % (state.shape.types + 1);
    state.held = any();
    state.exponents = any() % 65536;
    return state;
}

static void try_made_up(void)
{
    int kept_to_room = 1, wrote = 0;

    for (int round = 0; round < 20000; round++) {
        SegdGave gave = portion(made_up(), sizeof body, 2 * sizeof body);
        kept_to_room = kept_to_room && gave.outcome <= SEGD_STOPPED && gave.samples <= sizeof body && untouched_past(gave.samples);
        wrote += gave.samples > 0;
    }
    HOLDS(kept_to_room);
    HOLDS(wrote > 0);
}

static void try_room(void)
{
    SegdState state = fresh();

    for (size_t room = 0; room < 2 * sizeof body; room++)
        HOLDS(answered(portion(state, sizeof body, room), state, SEGD_REFUSED, SEGD_ROOM, 0));
    HOLDS(answered(portion(state, 0, 0), state, SEGD_GOING_ON, 0, 0));
    SegdGave gave = portion(state, sizeof body, 2 * sizeof body);
    HOLDS(gave.outcome == SEGD_GOING_ON && gave.samples == 8 && untouched_past(8));
}

/* Every question on a block that is refused by the same number, with nothing in its answer. */
static void try_refused_block(const uint8_t *block, size_t length, uint32_t number)
{
    SegdSkew skew = segd_skew(block, length, body, 4, 1);
    SegdPart external = segd_external(block, length);
    SegdPlace place = segd_sample_place(block, length, 1, 0);

    HOLDS(is_refusal(segd_open(block, length).refusal, number, 0));
    HOLDS(is_refusal(segd_read_header(block, length).refusal, number, 0));
    HOLDS(is_refusal(segd_descriptor(block, length, 1, 1).refusal, number, 0));
    HOLDS(is_refusal(segd_sample_index(block, length, 1, 1, 1, 0).refusal, number, 0));
    HOLDS(is_refusal(place.refusal, number, 0) && place.set == 0 && place.channel == 0 && place.subscan == 0);
    HOLDS(is_refusal(segd_constants(block, length).refusal, number, 0));
    HOLDS(is_refusal(segd_extended(block, length).refusal, number, 0));
    HOLDS(is_refusal(external.refusal, number, 0) && external.offset == 0 && external.length == 0);
    HOLDS(is_refusal(skew.refusal, number, 0) && skew.of_sheet == 0 && skew.offset == 0 && skew.length == 0);
    HOLDS(is_refusal(segd_skew_at(block, length, body, 4, 1, 0).refusal, number, 0));
    HOLDS(is_refusal(segd_sample_time(block, length, body, 4, 1, 0, 0).refusal, number, 0));
}

/* The header block cut at every length, each time against a page that nobody may read. */
static void try_cut_blocks(void)
{
    size_t page = (size_t)sysconf(_SC_PAGESIZE);
    uint8_t *pages = mmap(NULL, 2 * page, PROT_READ | PROT_WRITE, MAP_PRIVATE | MAP_ANONYMOUS, -1, 0);

    if (pages == MAP_FAILED || mprotect(pages + page, page, PROT_NONE) != 0) {
        check(0, "there is a page that nobody may read", __FILE__, __LINE__);
        return;
    }
    for (size_t length = 0; length < sizeof case_l; length++) {
        uint8_t *block = pages + page - length;
        memcpy(block, case_l, length);
        try_refused_block(block, length, length < 32 ? SEGD_SHORT : SEGD_LENGTH);
    }
    memset(pages, 0xFF, page);
    try_refused_block(pages, page, SEGD_FORMAT);
}

/* ---- Traces ---- */

/* Case L's header in 8022, and the first trace of its body: a trace header and two samples. */
static uint8_t traces[sizeof case_l];
static const uint8_t trace[22] = {0x00, 0x07, 0x01, 0x01, 0x00, 0x01, 0, 0, 0, 0, 0, 0, 0, 0, 0, 0, 0, 0, 0, 0, 0x18, 0x97};

static SegdTraces fresh_traces(void)
{
    return segd_open(traces, sizeof traces).traces;
}

static SegdTraceGave trace_portion(const uint8_t *block, size_t block_length, SegdTraces state, size_t length, size_t room)
{
    for (size_t i = 0; i < ROOM; i++)
        out[i] = UNTOUCHED;
    return segd_trace_portion(block, block_length, state, trace, length, out, room);
}

static int same_traces(SegdTraces a, SegdTraces b)
{
    return a.code == b.code && a.place == b.place && a.ends == b.ends && a.at == b.at && a.samples == b.samples && a.off == b.off &&
           a.present == b.present && a.scans == b.scans && a.held == b.held && a.exponents == b.exponents && a.stop == b.stop &&
           a.stopat == b.stopat;
}

/* Whether a portion or a block end of traces answered so, wrote nothing and gave the state back. */
static int traces_answered(SegdTraceGave gave, SegdTraces state, uint32_t outcome, uint32_t number, uint32_t first)
{
    return gave.outcome == outcome && is_refusal(gave.refusal, number, first) && gave.samples == 0 && same_traces(gave.state, state) &&
           untouched_past(0);
}

/* Whether every call on a state of traces, lent a block, answers so. */
static int all_traces_answer(const uint8_t *block, size_t length, SegdTraces state, uint32_t outcome, uint32_t number, uint32_t first)
{
    SegdClosing closing = segd_trace_close(block, length, state);

    return traces_answered(trace_portion(block, length, state, sizeof trace, ROOM), state, outcome, number, first) &&
           traces_answered(trace_portion(block, length, state, sizeof trace, 1), state, outcome, number, first) &&
           traces_answered(trace_portion(block, length, state, 0, 0), state, outcome, number, first) &&
           traces_answered(segd_trace_end(block, length, state), state, outcome, number, first) &&
           is_refusal(closing.refusal, number, first) && no_report(closing);
}

static int traces_refused_as_unfit(SegdTraces state)
{
    return all_traces_answer(traces, sizeof traces, state, SEGD_REFUSED, SEGD_STATE, 0);
}

/* Case L's header in each code 80xx: it is accepted, and what its opening hands out is fit for the calls on traces alone. */
static void try_trace_openings(void)
{
    static const uint8_t codes[] = {0x15, 0x24, 0x42, 0x44, 0x48, 0x22};
    static const SegdState no_scans;
    static const SegdTraces nothing;

    memcpy(traces, case_l, sizeof case_l);
    traces[2] = 0x80;
    try_refused_block(traces, sizeof traces, SEGD_RANGE);
    traces[21] = 0x00;
    for (size_t i = 0; i < sizeof codes; i++) {
        traces[3] = codes[i];
        SegdOpened opened = segd_open(traces, sizeof traces);
        HOLDS(is_refusal(opened.refusal, 0, 0) && opened.kind == SEGD_TRACES);
        HOLDS(same_state(opened.state, no_scans) && refused_as_unfit(opened.state));
        HOLDS(traces_answered(trace_portion(traces, sizeof traces, opened.traces, 0, 0), opened.traces, SEGD_GOING_ON, 0, 0));
        HOLDS(is_refusal(segd_trace_close(traces, sizeof traces, opened.traces).refusal, SEGD_MISSING, 0));
    }
    HOLDS(same_traces(segd_open(case_l, sizeof case_l).traces, nothing));
    HOLDS(same_traces(segd_open(traces, 31).traces, nothing));
    HOLDS(traces_refused_as_unfit(nothing));
}

/* One number of a sound state after 22 bytes, a step past what it may be. */
static void try_forged_traces(void)
{
    static const struct {
        size_t field;
        uint32_t value;
    } forged[] = {
        {offsetof(SegdTraces, place), 21},       {offsetof(SegdTraces, at), 23},          {offsetof(SegdTraces, at), UINT32_MAX},
        {offsetof(SegdTraces, ends), 1},         {offsetof(SegdTraces, scans), 1},        {offsetof(SegdTraces, present), 23},
        {offsetof(SegdTraces, samples), 23},     {offsetof(SegdTraces, off), 23},         {offsetof(SegdTraces, stopat), 23},
        {offsetof(SegdTraces, exponents), 65536}, {offsetof(SegdTraces, stop), 1},        {offsetof(SegdTraces, stop), SEGD_ROOM},
        {offsetof(SegdTraces, stop), SEGD_SYNC}, {offsetof(SegdTraces, stop), SEGD_PHASE}, {offsetof(SegdTraces, stop), 26},
    };
    SegdTraces state;

    memset(&state, 0xFF, sizeof state);
    HOLDS(traces_refused_as_unfit(state));
    for (size_t i = 0; i < sizeof forged / sizeof forged[0]; i++) {
        state = trace_portion(traces, sizeof traces, fresh_traces(), sizeof trace, ROOM).state;
        memcpy((char *)&state + forged[i].field, &forged[i].value, sizeof forged[i].value);
        HOLDS(traces_refused_as_unfit(state));
    }
    state = fresh_traces();
    state.place = 5;
    state.ends = 4;
    HOLDS(is_refusal(segd_trace_close(traces, sizeof traces, state).refusal, 0, 0));
    state.ends = 5; /* the record has four traces */
    HOLDS(traces_refused_as_unfit(state));
}

/* Lent another block than that of the opening: its refusals come before all else, and a state of another code is unfit for it. */
static void try_other_blocks(void)
{
    SegdTraces state = trace_portion(traces, sizeof traces, fresh_traces(), sizeof trace, ROOM).state;
    SegdTraces stopped = segd_trace_end(traces, sizeof traces, segd_trace_end(traces, sizeof traces, state).state).state;
    uint8_t other[sizeof traces];

    HOLDS(all_traces_answer(traces, 31, state, SEGD_REFUSED, SEGD_SHORT, 0));
    HOLDS(all_traces_answer(traces, 63, stopped, SEGD_REFUSED, SEGD_LENGTH, 0));
    HOLDS(all_traces_answer(case_l, sizeof case_l, state, SEGD_REFUSED, SEGD_STATE, 0));
    HOLDS(all_traces_answer(case_l, sizeof case_l, stopped, SEGD_REFUSED, SEGD_STATE, 0));
    memcpy(other, traces, sizeof other);
    other[3] = 0x24;
    HOLDS(all_traces_answer(other, sizeof other, state, SEGD_REFUSED, SEGD_STATE, 0));
    HOLDS(all_traces_answer(traces, sizeof traces, stopped, SEGD_STOPPED, SEGD_BLOCK, 22));
    HOLDS(is_refusal(segd_trace_place(traces, 63, 0, 0).refusal, SEGD_LENGTH, 0));
    HOLDS(is_refusal(segd_trace_place(case_l, sizeof case_l, 0, 0).refusal, SEGD_INDEX, 0));
    HOLDS(is_refusal(segd_trace_place(traces, sizeof traces, 4, 0).refusal, SEGD_INDEX, 0));
    HOLDS(is_refusal(segd_trace_place(traces, sizeof traces, UINT32_MAX, UINT32_MAX).refusal, SEGD_INDEX, 0));
}

/* A stop stays what its numbers say; the last place of a body stops it; too little room changes nothing. */
static void try_trace_limits(void)
{
    static const uint32_t stops[] = {SEGD_LONG, SEGD_BLOCK, SEGD_TRACE, SEGD_COUNT};
    SegdTraces state = fresh_traces();

    for (size_t room = 0; room < 2 * sizeof trace; room++)
        HOLDS(traces_answered(trace_portion(traces, sizeof traces, state, sizeof trace, room), state, SEGD_REFUSED, SEGD_ROOM, 0));
    state.place = UINT32_MAX;
    SegdTraceGave gave = trace_portion(traces, sizeof traces, state, sizeof trace, ROOM);
    HOLDS(gave.outcome == SEGD_STOPPED && is_refusal(gave.refusal, SEGD_LONG, UINT32_MAX) && gave.samples == 0 && untouched_past(0));
    state.stopat = 5;
    for (size_t i = 0; i < sizeof stops / sizeof stops[0]; i++) {
        state.stop = stops[i];
        HOLDS(all_traces_answer(traces, sizeof traces, state, SEGD_STOPPED, stops[i], 5));
    }
    state.stop = SEGD_FOUR;
    SegdTold told = segd_trace_close(traces, sizeof traces, state).refusal;
    HOLDS(told.number == SEGD_FOUR && told.first == 1 && told.second == 1 && told.third == 5);
}

/* A state of traces made up inside the limits, in any code: it answers and keeps to its room. */
static void try_made_up_traces(void)
{
    static const uint8_t codes[] = {0x15, 0x22, 0x24, 0x42, 0x44, 0x48};
    int kept_to_room = 1, wrote = 0;

    for (int round = 0; round < 20000; round++) {
        traces[3] = codes[any() % 6];
        SegdTraces state = fresh_traces();
        state.place = any() % 2 ? any() : 64 + any() % 64;
        state.at = any() % 2 ? state.place / 2 : any() % 32;
        state.ends = any() % 4;
        state.samples = state.off = state.present = state.place;
        state.scans = state.place - state.at;
        state.held = any();
        state.exponents = any() % 65536;
        SegdTraceGave gave = trace_portion(traces, sizeof traces, state, sizeof trace, 2 * sizeof trace);
        kept_to_room = kept_to_room && gave.outcome <= SEGD_STOPPED && gave.samples <= sizeof trace && untouched_past(gave.samples);
        wrote += gave.samples > 0;
        segd_trace_end(traces, sizeof traces, gave.state);
        segd_trace_close(traces, sizeof traces, gave.state);
    }
    HOLDS(kept_to_room);
    HOLDS(wrote > 0);
    traces[3] = 0x22;
}

/* An accepted header, asked about what it has not. */
static void try_questions(void)
{
    static const uint32_t absent[] = {0, 2, 100, 256, 257, UINT32_MAX};
    const size_t length = sizeof case_l;

    for (size_t i = 0; i < sizeof absent / sizeof absent[0]; i++) {
        uint32_t n = absent[i];
        HOLDS(is_refusal(segd_descriptor(case_l, length, n, 1).refusal, SEGD_INDEX, 0));
        HOLDS(is_refusal(segd_descriptor(case_l, length, 1, n).refusal, SEGD_INDEX, 0));
        HOLDS(is_refusal(segd_sample_index(case_l, length, 1, n, 1, 0).refusal, SEGD_INDEX, 0));
        HOLDS(is_refusal(segd_sample_place(case_l, length, n, 0).refusal, SEGD_INDEX, 0));
        HOLDS(is_refusal(segd_skew(case_l, length, body, 0, n).refusal, SEGD_INDEX, 0));
    }
    HOLDS(is_refusal(segd_sample_index(case_l, length, 1, 1, 5, 0).refusal, SEGD_INDEX, 0));
    HOLDS(is_refusal(segd_sample_index(case_l, length, 1, 1, 1, 1).refusal, SEGD_INDEX, 0));
    HOLDS(is_refusal(segd_sample_place(case_l, length, 1, 4).refusal, SEGD_INDEX, 0));
    HOLDS(is_refusal(segd_sample_time(case_l, length, body, 4, 1, 0, 1u << 24).refusal, SEGD_INDEX, 0));
    HOLDS(is_refusal(segd_skew(case_l, length, body, 0, 1).refusal, SEGD_SHEET, 0));
    HOLDS(is_refusal(segd_skew_at(case_l, length, body, 5, 1, 0).refusal, SEGD_SHEET, 0));
    HOLDS(is_refusal(segd_sample_time(case_l, length, body, 3, 1, 0, 0).refusal, SEGD_SHEET, 0));
    HOLDS(is_refusal(segd_read_word(0x0023, 0, 0).refusal, SEGD_FORMAT, 0));
    HOLDS(is_refusal(segd_read_word(0x8023, 0, 0).refusal, SEGD_FORMAT, 0));
    HOLDS(is_refusal(segd_read_word(0x8022, 0, UINT32_MAX).refusal, SEGD_INDEX, 0));
    HOLDS(is_refusal(segd_read_word(0x8015, 16, 0).refusal, SEGD_INDEX, 0));
    HOLDS(is_refusal(segd_read_word(0x0022, 1, 0).refusal, SEGD_INDEX, 0));
    HOLDS(is_refusal(segd_read_word(0x0015, 16, 0).refusal, SEGD_INDEX, 0));
}

int main(void)
{
    try_forged_whole();
    try_forged_number();
    try_forged_code();
    try_forged_stop();
    try_longest();
    try_made_up();
    try_room();
    try_cut_blocks();
    try_trace_openings();
    try_forged_traces();
    try_other_blocks();
    try_trace_limits();
    try_made_up_traces();
    try_questions();
    return finish();
}
