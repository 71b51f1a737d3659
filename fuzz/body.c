#include "body.h"

#include "demand.h"
#include "lend.h"

#include <string.h>

int same_state(const SegdState *a, const SegdState *b)
{
    size_t from = offsetof(SegdState, shape.scan); /* before it stand the code and two bytes of nothing */
    return a->shape.code == b->shape.code && memcmp((const char *)a + from, (const char *)b + from, sizeof *a - from) == 0;
}

static int is_fit(SegdState state)
{
    return segd_close(state).refusal.number != SEGD_STATE;
}

static int tells(SegdTold told, uint32_t number, uint32_t first)
{
    return told.number == number && told.first == first && told.second == 0 && told.third == 0;
}

/* A call that is turned away with nothing changed: 1 where it has to be, for an unfit state or an earlier stop. */
static int turned_away(const SegdState *before, int fit, const SegdGave *gave)
{
    if (fit && before->stop == 0)
        return 0;
    DEMAND(same_state(before, &gave->state));
    DEMAND(gave->samples == 0);
    if (!fit)
        DEMAND(gave->outcome == SEGD_REFUSED && tells(gave->refusal, SEGD_STATE, 0));
    else
        DEMAND(gave->outcome == SEGD_STOPPED && tells(gave->refusal, before->stop, before->stopat));
    return 1;
}

/* A call that goes on or stops: the state says so too, and is fit. */
static void goes_on_or_stops(const SegdGave *gave, uint32_t least, uint32_t most)
{
    const SegdState *after = &gave->state;
    DEMAND(gave->outcome == SEGD_GOING_ON || gave->outcome == SEGD_STOPPED);
    if (gave->outcome == SEGD_GOING_ON) {
        DEMAND(tells(gave->refusal, 0, 0) && after->stop == 0);
    } else {
        DEMAND(gave->refusal.number >= least && gave->refusal.number <= most);
        DEMAND(tells(gave->refusal, after->stop, after->stopat));
    }
    DEMAND(is_fit(*after));
}

static void check_portion(const SegdState *before, size_t length, size_t room, const SegdGave *gave)
{
    if (turned_away(before, is_fit(*before), gave))
        return;
    if (room < 2 * length) {
        DEMAND(gave->outcome == SEGD_REFUSED && tells(gave->refusal, SEGD_ROOM, 0));
        DEMAND(same_state(before, &gave->state) && gave->samples == 0);
        return;
    }
    goes_on_or_stops(gave, SEGD_LONG, SEGD_PHASE);
    DEMAND(gave->samples <= length);
    DEMAND(gave->outcome == SEGD_STOPPED || gave->state.place == before->place + length);
}

int32_t *lend_output(size_t room)
{
    int32_t *out = lend_room(LENT_OUT, room * sizeof *out);
    for (size_t i = 0; i < room; i++)
        out[i] = UNTOUCHED;
    return out;
}

void take_numbers(struct reading *reading, const int32_t *out, size_t room, uint64_t samples)
{
    size_t written = 2 * (size_t)samples;
    DEMAND(written <= room);
    for (size_t i = written; i < room; i++)
        DEMAND(out[i] == UNTOUCHED);
    memcpy(reading->numbers + reading->count, out, written * sizeof *out);
    reading->count += written;
}

int put_portion(struct reading *reading, const uint8_t *bytes, size_t length, size_t room)
{
    if (reading->kind == SEGD_TRACES)
        return put_trace_portion(reading, bytes, length, room);
    SegdState before = reading->state;
    const uint8_t *lent = lend(LENT_BYTES, bytes, length);
    int32_t *out = lend_output(room);
    SegdGave gave = segd_portion(before, lent, length, out, room);

    came_up(CALL_PORTION, gave.refusal.number, before.shape.code);
    check_portion(&before, length, room, &gave);
    take_numbers(reading, out, room, gave.samples);
    DEMAND(length == 0 || memcmp(lent, bytes, length) == 0);
    reading->state = gave.state;
    return gave.outcome != SEGD_REFUSED;
}

void put_block_end(struct reading *reading)
{
    if (reading->kind == SEGD_TRACES) {
        put_trace_end(reading);
        return;
    }
    SegdState before = reading->state;
    SegdGave gave = segd_block_end(before);

    came_up(CALL_END, gave.refusal.number, before.shape.code);
    if (!turned_away(&before, is_fit(before), &gave)) {
        goes_on_or_stops(&gave, SEGD_BLOCK, SEGD_BLOCK);
        DEMAND(gave.samples == 0);
        DEMAND(gave.outcome == SEGD_STOPPED || gave.state.ends == before.ends + 1);
    }
    reading->state = gave.state;
}

int is_empty(const SegdClosing *closing)
{
    return closing->scans == 0 && closing->off == 0 && closing->samples == 0 && closing->last_type == 0 && closing->itb_known == 0 &&
           closing->itb == 0 && closing->window_known == 0 && closing->window == 0;
}

SegdClosing put_close(const struct reading *reading)
{
    if (reading->kind == SEGD_TRACES)
        return put_trace_close(reading);
    SegdState state = reading->state;
    SegdClosing closing = segd_close(state);
    uint32_t number = closing.refusal.number;

    came_up(CALL_CLOSE, number, state.shape.code);
    DEMAND(number == 0 || is_empty(&closing));
    if (number == 0)
        DEMAND(state.stop == 0 && (uint64_t)closing.scans * state.shape.scan == state.place && closing.last_type == state.shape.types);
    else if (number != SEGD_STATE && state.stop != 0)
        DEMAND(tells(closing.refusal, state.stop, state.stopat));
    else if (number != SEGD_STATE)
        DEMAND(number >= SEGD_PART && number <= SEGD_MISSING);
    return closing;
}
