#include "body.h"

#include "demand.h"
#include "lend.h"

#include <string.h>

int same_traces(const SegdTraces *a, const SegdTraces *b)
{
    size_t from = offsetof(SegdTraces, place); /* before it stand the code and two bytes of nothing */
    return a->code == b->code && memcmp((const char *)a + from, (const char *)b + from, sizeof *a - from) == 0;
}

static uint32_t pair(uint8_t byte)
{
    return 10u * (byte >> 4) + (byte & 15);
}

/* Bytes 9 and 10 of each descriptor; those of a scan type are followed by its skew fields. */
uint64_t traces_of(const uint8_t *block, const SegdGeneral *header)
{
    uint64_t traces = 0;
    if (!(header->code & 0x8000))
        return 0;
    for (size_t type = 0; type < header->scan_types; type++) {
        const uint8_t *first = block + 32 * (1 + type * ((size_t)header->channel_sets + header->skew_fields));
        for (size_t set = 0; set < header->channel_sets; set++)
            traces += 100 * pair(first[32 * set + 8]) + pair(first[32 * set + 9]);
    }
    return traces;
}

/* What segd.h says of a state that is fit for an accepted header. */
static int is_fit(const uint8_t *block, const SegdGeneral *header, const SegdTraces *state)
{
    static const uint32_t stops[] = {0, SEGD_FOUR, SEGD_LONG, SEGD_BLOCK, SEGD_TRACE, SEGD_COUNT};
    int known = 0;
    for (size_t i = 0; i < sizeof stops / sizeof stops[0]; i++)
        known |= state->stop == stops[i];
    return known && state->code == header->code && state->code & 0x8000 && state->ends <= traces_of(block, header) &&
           state->at <= state->place && state->ends <= state->place - state->at && state->scans <= state->place - state->at &&
           state->present <= state->place && state->samples <= state->place && state->off <= state->place &&
           state->stopat <= state->place && state->exponents <= 65535;
}

static int same_told(SegdTold a, SegdTold b)
{
    return a.number == b.number && a.first == b.first && a.second == b.second && a.third == b.third;
}

static int tells(SegdTold told, uint32_t number, uint32_t first)
{
    return told.number == number && told.first == first && told.second == 0 && told.third == 0;
}

/* The stop of a state: FOUR has its place last, after a scan type and a set. */
static int tells_stop(SegdTold told, const SegdTraces *state)
{
    if (state->stop == SEGD_FOUR)
        return told.number == SEGD_FOUR && told.third == state->stopat && told.first <= 99 && told.second <= 99;
    return tells(told, state->stop, state->stopat);
}

/* The refusal that a call has before it looks at what it brings: the block's, an unfit state, an earlier stop. Gives whether it has one. */
static int refused_first(const struct reading *reading, SegdTold told, int *stopped)
{
    SegdHeader header = segd_read_header(reading->block, reading->block_length);
    const SegdTraces *state = &reading->traces;
    *stopped = 0;
    if (header.refusal.number != 0) {
        DEMAND(same_told(told, header.refusal));
        return 1;
    }
    if (!is_fit(reading->block, &header.header, state)) {
        DEMAND(tells(told, SEGD_STATE, 0));
        return 1;
    }
    *stopped = state->stop != 0;
    if (*stopped)
        DEMAND(tells_stop(told, state));
    else
        DEMAND(told.number != SEGD_STATE);
    return *stopped;
}

/* A call that is turned away with nothing changed. Gives whether it has to be. */
static int turned_away(const struct reading *before, const SegdTraceGave *gave)
{
    int stopped, first = refused_first(before, gave->refusal, &stopped);
    if (first) {
        DEMAND(gave->outcome == (uint32_t)(stopped ? SEGD_STOPPED : SEGD_REFUSED));
        DEMAND(same_traces(&before->traces, &gave->state) && gave->samples == 0);
    }
    return first;
}

/* A call that goes on or stops: the state says so too, and is fit. */
static void goes_on_or_stops(const struct reading *before, const SegdTraceGave *gave)
{
    SegdHeader header = segd_read_header(before->block, before->block_length);
    DEMAND(gave->outcome == SEGD_GOING_ON || gave->outcome == SEGD_STOPPED);
    if (gave->outcome == SEGD_GOING_ON)
        DEMAND(tells(gave->refusal, 0, 0) && gave->state.stop == 0);
    else
        DEMAND(gave->state.stop != 0 && tells_stop(gave->refusal, &gave->state));
    DEMAND(is_fit(before->block, &header.header, &gave->state));
}

static void check_portion(const struct reading *before, size_t length, size_t room, const SegdTraceGave *gave)
{
    uint32_t number = gave->refusal.number;
    if (turned_away(before, gave))
        return;
    if (room < 2 * length) {
        DEMAND(gave->outcome == SEGD_REFUSED && tells(gave->refusal, SEGD_ROOM, 0));
        DEMAND(same_traces(&before->traces, &gave->state) && gave->samples == 0);
        return;
    }
    goes_on_or_stops(before, gave);
    DEMAND(number == 0 || number == SEGD_LONG || number == SEGD_BLOCK || number == SEGD_TRACE);
    DEMAND(gave->samples <= length);
    DEMAND(gave->outcome == SEGD_STOPPED || gave->state.place == before->traces.place + length);
}

int put_trace_portion(struct reading *reading, const uint8_t *bytes, size_t length, size_t room)
{
    struct reading before = *reading;
    const uint8_t *lent = lend(LENT_BYTES, bytes, length);
    int32_t *out = lend_output(room);
    SegdTraceGave gave = segd_trace_portion(reading->block, reading->block_length, before.traces, lent, length, out, room);

    came_up(CALL_TRACE_PORTION, gave.refusal.number, before.traces.code);
    check_portion(&before, length, room, &gave);
    take_numbers(reading, out, room, gave.samples);
    DEMAND(length == 0 || memcmp(lent, bytes, length) == 0);
    reading->traces = gave.state;
    return gave.outcome != SEGD_REFUSED;
}

void put_trace_end(struct reading *reading)
{
    struct reading before = *reading;
    SegdTraceGave gave = segd_trace_end(reading->block, reading->block_length, before.traces);
    uint32_t number = gave.refusal.number;

    came_up(CALL_TRACE_END, number, before.traces.code);
    if (!turned_away(&before, &gave)) {
        goes_on_or_stops(&before, &gave);
        DEMAND(number == 0 || number == SEGD_BLOCK || number == SEGD_FOUR || number == SEGD_COUNT);
        DEMAND(gave.samples == 0 && gave.state.place == before.traces.place);
        DEMAND(gave.outcome == SEGD_STOPPED || (gave.state.ends == before.traces.ends + 1 && gave.state.at == 0));
    }
    reading->traces = gave.state;
}

SegdClosing put_trace_close(const struct reading *reading)
{
    const SegdTraces *state = &reading->traces;
    SegdClosing closing = segd_trace_close(reading->block, reading->block_length, *state);
    uint32_t number = closing.refusal.number;
    int stopped;

    came_up(CALL_TRACE_CLOSE, number, state->code);
    DEMAND(number == 0 || is_empty(&closing));
    if (refused_first(reading, closing.refusal, &stopped))
        return closing;
    DEMAND(number == 0 || (tells(closing.refusal, number, 0) && number >= SEGD_PART && number <= SEGD_MISSING));
    if (number == 0) {
        SegdGeneral header = segd_read_header(reading->block, reading->block_length).header;
        DEMAND(state->at == 0 && state->ends == traces_of(reading->block, &header));
        DEMAND(closing.scans == state->scans && closing.samples == state->samples && closing.off == state->off);
        DEMAND(closing.last_type == header.scan_types);
        DEMAND(closing.itb_known == 0 && closing.itb == 0 && closing.window_known == 0 && closing.window == 0);
    }
    return closing;
}
