/* A library that breaks its promises, to see that the harness notices: put before the real one by the linker's --wrap. Which fault it
   has is the number that FAULT names, from 1 on; `run` goes through them all. */
#include "../include/segd.h"

#include <stdlib.h>

enum fault {
    SOUND,
    READS_AFTER,
    READS_BEFORE,
    WRITES_AFTER,
    WRITES_ON, /* after the samples, in the output lent */
    CHANGES_REFUSED,
    CHANGES_SAMPLE,
    MISREADS,
    LOSES_BYTES,
    FORGETS_STOP,
    FORGETS_END,
    MISPLACES,
    READS_AFTER_BLOCK,
    READS_AFTER_SHEET,
    TAKES_TRACES_FOR_SCANS,
    /* on a body of traces */
    TRACES_READ_AFTER_BLOCK,
    TRACES_CHANGE_SAMPLE,
    TRACES_CHANGE_REFUSED,
    TRACES_FORGET_STOP,
    TRACES_FORGET_END,
    TRACES_MISPLACE
};

SegdOpened __real_segd_open(const uint8_t *block, size_t length);
SegdOpened __wrap_segd_open(const uint8_t *block, size_t length);
SegdGave __real_segd_portion(SegdState state, const uint8_t *bytes, size_t length, int32_t *out, size_t room);
SegdGave __wrap_segd_portion(SegdState state, const uint8_t *bytes, size_t length, int32_t *out, size_t room);
SegdGave __real_segd_block_end(SegdState state);
SegdGave __wrap_segd_block_end(SegdState state);
SegdPlace __real_segd_sample_place(const uint8_t *block, size_t length, uint32_t scan_type, uint32_t k);
SegdPlace __wrap_segd_sample_place(const uint8_t *block, size_t length, uint32_t scan_type, uint32_t k);
SegdByte __real_segd_skew_at(const uint8_t *block, size_t length, const uint8_t *sheet, size_t sheet_length, uint32_t scan_type, uint32_t k);
SegdByte __wrap_segd_skew_at(const uint8_t *block, size_t length, const uint8_t *sheet, size_t sheet_length, uint32_t scan_type, uint32_t k);

SegdTraceGave __real_segd_trace_portion(const uint8_t *block, size_t block_length, SegdTraces state, const uint8_t *bytes, size_t length,
                                        int32_t *out, size_t room);
SegdTraceGave __wrap_segd_trace_portion(const uint8_t *block, size_t block_length, SegdTraces state, const uint8_t *bytes, size_t length,
                                        int32_t *out, size_t room);
SegdTraceGave __real_segd_trace_end(const uint8_t *block, size_t block_length, SegdTraces state);
SegdTraceGave __wrap_segd_trace_end(const uint8_t *block, size_t block_length, SegdTraces state);
SegdTracePlace __real_segd_trace_place(const uint8_t *block, size_t block_length, uint32_t trace, uint32_t sample);
SegdTracePlace __wrap_segd_trace_place(const uint8_t *block, size_t block_length, uint32_t trace, uint32_t sample);

static enum fault fault(void)
{
    const char *told = getenv("FAULT");
    return told == NULL ? SOUND : (enum fault)atoi(told);
}

static volatile uint8_t seen;

/* Faults of the answer; a portion of three bytes stands for a cut that matters. */
static void spoil(SegdGave *gave, size_t length, int32_t *out, size_t room)
{
    size_t written = 2 * (size_t)gave->samples;
    switch (fault()) {
    case WRITES_AFTER: out[room] = 0; break;
    case WRITES_ON: if (written < room) out[written] = 0; break;
    case CHANGES_REFUSED: gave->state.off += gave->outcome == SEGD_REFUSED; break;
    case CHANGES_SAMPLE: if (length == 3 && written > 0) out[0]++; break;
    case MISREADS: if (written > 0) out[0]++; break;
    case LOSES_BYTES: if (length == 3) gave->state.held = 0; break;
    case FORGETS_STOP: gave->state.stop = 0; break;
    default: break;
    }
}

SegdOpened __wrap_segd_open(const uint8_t *block, size_t length)
{
    SegdOpened opened = __real_segd_open(block, length);
    if (fault() == TAKES_TRACES_FOR_SCANS && opened.kind == SEGD_TRACES)
        opened.kind = SEGD_SCANS;
    return opened;
}

SegdGave __wrap_segd_portion(SegdState state, const uint8_t *bytes, size_t length, int32_t *out, size_t room)
{
    if (fault() == READS_AFTER)
        seen = bytes[length];
    if (fault() == READS_BEFORE)
        seen = *(bytes - 1);
    SegdGave gave = __real_segd_portion(state, bytes, length, out, room);
    spoil(&gave, length, out, room);
    return gave;
}

SegdGave __wrap_segd_block_end(SegdState state)
{
    SegdGave gave = __real_segd_block_end(state);
    if (fault() == FORGETS_END)
        gave.state.ends = state.ends;
    return gave;
}

SegdPlace __wrap_segd_sample_place(const uint8_t *block, size_t length, uint32_t scan_type, uint32_t k)
{
    if (fault() == READS_AFTER_BLOCK)
        seen = block[length];
    SegdPlace place = __real_segd_sample_place(block, length, scan_type, k);
    place.channel += fault() == MISPLACES && place.channel > 1;
    return place;
}

SegdByte __wrap_segd_skew_at(const uint8_t *block, size_t length, const uint8_t *sheet, size_t sheet_length, uint32_t scan_type, uint32_t k)
{
    if (fault() == READS_AFTER_SHEET)
        seen = sheet[sheet_length];
    return __real_segd_skew_at(block, length, sheet, sheet_length, scan_type, k);
}

SegdTraceGave __wrap_segd_trace_portion(const uint8_t *block, size_t block_length, SegdTraces state, const uint8_t *bytes, size_t length,
                                        int32_t *out, size_t room)
{
    if (fault() == TRACES_READ_AFTER_BLOCK)
        seen = block[block_length];
    SegdTraceGave gave = __real_segd_trace_portion(block, block_length, state, bytes, length, out, room);
    if (fault() == TRACES_CHANGE_SAMPLE && length == 3 && gave.samples > 0)
        out[0]++;
    if (fault() == TRACES_CHANGE_REFUSED)
        gave.state.off += gave.outcome == SEGD_REFUSED;
    if (fault() == TRACES_FORGET_STOP)
        gave.state.stop = 0;
    return gave;
}

SegdTraceGave __wrap_segd_trace_end(const uint8_t *block, size_t block_length, SegdTraces state)
{
    SegdTraceGave gave = __real_segd_trace_end(block, block_length, state);
    if (fault() == TRACES_FORGET_END)
        gave.state.ends = state.ends;
    return gave;
}

SegdTracePlace __wrap_segd_trace_place(const uint8_t *block, size_t block_length, uint32_t trace, uint32_t sample)
{
    SegdTracePlace place = __real_segd_trace_place(block, block_length, trace, sample);
    place.subscan += fault() == TRACES_MISPLACE && place.subscan > 0;
    return place;
}
