/*
 * Tries segd.h against the compiled library: each struct has the library's size, and each field of each answer comes back with the
 * value that was put into the bytes. The values differ from one another, so that a field at another place would show.
 */
#include "segd.h"

#include "check.h"
#include <string.h>

/* The sizes that #[repr(C)] gives the library's structs on a machine of 64 bits. */
_Static_assert(sizeof(SegdTold) == 16, "refusals::Told");
_Static_assert(sizeof(SegdFormat) == 28, "deck::SegdFormat");
_Static_assert(sizeof(SegdWord) == 28, "deck::SegdWord");
_Static_assert(sizeof(SegdPair) == 2, "deck::SegdPair");
_Static_assert(sizeof(SegdGeneral) == 40, "header::Header");
_Static_assert(sizeof(SegdHeader) == 56, "deck::SegdHeader");
_Static_assert(sizeof(SegdSet) == 28, "sets::ChannelSet");
_Static_assert(sizeof(SegdChannelSet) == 44, "deck::SegdChannelSet");
_Static_assert(sizeof(SegdIndex) == 20, "deck::SegdIndex");
_Static_assert(sizeof(SegdPlace) == 28, "deck::SegdPlace");
_Static_assert(sizeof(SegdPart) == 32, "deck::SegdPart");
_Static_assert(sizeof(SegdSkew) == 40, "deck::SegdSkew");
_Static_assert(sizeof(SegdByte) == 20, "deck::SegdByte");
_Static_assert(sizeof(SegdTime) == 20, "deck::SegdTime");
_Static_assert(sizeof(SegdShape) == 20, "scan::Shape");
_Static_assert(sizeof(SegdTrack) == 20, "scan::Track");
_Static_assert(sizeof(SegdState) == 68, "scan::State");
_Static_assert(sizeof(SegdTraces) == 48, "trace::State");
_Static_assert(sizeof(SegdOpened) == 136, "deck::SegdOpened");
_Static_assert(sizeof(SegdGave) == 96, "deck::SegdGave");
_Static_assert(sizeof(SegdClosing) == 56, "deck::SegdClosing");
_Static_assert(sizeof(SegdTraceGave) == 80, "deck::SegdTraceGave");
_Static_assert(sizeof(SegdTracePlace) == 36, "deck::SegdTracePlace");

enum { SCAN_TYPES = 2, SETS = 3, SKEW_FIELDS = 5, EXTRAS = 4 + 6, FIELD = 32 };
enum { TYPE_FIELDS = SETS + SKEW_FIELDS, BLOCK = FIELD * (1 + SCAN_TYPES * TYPE_FIELDS + EXTRAS) };

/* The paper's sets of 4 x 1, 96 x 1 and 12 x 4 samples in 0015: S/S 148, B 378, SK 5. */
static uint8_t block[BLOCK];

static void build_descriptor(uint8_t *to, uint8_t scan_type, uint8_t set)
{
    static const uint8_t fields[26] = {0,    0,    0x01, 0x02, 0x03, 0x04, 0,    0x85, 0,    0,    0x60, 0,    0x01,
                                       0x25, 0x00, 0x72, 0x00, 0x08, 0x00, 0x18, 0x05, 0x00, 0x06, 0x00, 0x16, 0x67};
    static const uint8_t channels[SETS] = {0x04, 0x96, 0x12};
    static const uint8_t subscans_and_gain[SETS] = {0x09, 0x09, 0x29};

    memcpy(to, fields, sizeof fields);
    to[0] = scan_type;
    to[1] = set;
    to[9] = channels[set - 1];
    to[11] = subscans_and_gain[set - 1];
}

static void build_scan_type(uint8_t *to, uint8_t scan_type)
{
    for (uint8_t set = 1; set <= SETS; set++)
        build_descriptor(to + FIELD * (set - 1), scan_type, set);
    for (uint8_t k = 0; k < FIELD * SKEW_FIELDS; k++)
        to[FIELD * SETS + k] = k + 1;
}

static void build_block(void)
{
    static const uint8_t general[FIELD] = {0x12, 0x34, 0x00, 0x15, 0xA1, 0xA2, 0xA3, 0xA4, 0xA5, 0xA6, 0x56,
                                           0x02, 0x11, 0x13, 0x27, 0x38, 0x45, 0x67, 0x89, 0x00, 0x03, 0x78,
                                           0x20, 0x79, 0x0B, 0x89, 0x01, 0x02, 0x03, 0x05, 0x04, 0x06};

    memcpy(block, general, FIELD);
    build_scan_type(block + FIELD, 1);
    build_scan_type(block + FIELD * (1 + TYPE_FIELDS), 2);
}

static void try_words(void)
{
    SegdFormat row = segd_format(0x0048);
    SAME(row.found, 1);
    SAME(row.kind, SEGD_JUSTIFIED);
    SAME(row.width, 32);
    SAME(row.apart, 0);
    SAME(row.fraction, 23);
    SAME(row.base, 4);
    SAME(row.exponent, 7);
    SAME(row.bias, 64);
    SAME(segd_format(0x0015).apart, 4);
    SAME(segd_format(0x0015).fraction, 14);
    SAME(segd_format(0x8015).fraction, 15);
    SAME(segd_format(0x0042).kind, SEGD_SIGN_MAGNITUDE);
    SAME(segd_format(0x0025).found, 0);

    SegdWord word = segd_read_word(0x0015, 15, 0x8000);
    SAME(word.refusal.number, 0);
    SAME(word.m, -16383);
    SAME(word.x, 1);
    SAME(word.off, 0);
    SAME(segd_read_word(0x8015, 15, 0x8000).m, -32767);
    SAME(segd_read_word(0x8015, 15, 0x8000).x, 0);
    SAME(segd_read_word(0x8015, 0, 0x0001).off, 0);
    SAME(segd_read_word(0x8015, 0, 0xFFFF).off, 1);
    SAME(segd_read_word(0x8022, 0, 0x97).m, -8);
    SAME(segd_read_word(0x0022, 0, 0xFF).off, 1);
    SAME(segd_read_word(0x0022, 0, 0x100).refusal.number, SEGD_INDEX);
    SAME(segd_packed(0x42).found, 1);
    SAME(segd_packed(0x42).value, 42);
    SAME(segd_packed(0x9A).found, 0);
}

static void try_header(void)
{
    SegdHeader answer = segd_read_header(block, BLOCK);
    SAME(answer.refusal.number, 0);
    SAME(answer.header.file, 1234);
    SAME(answer.header.code, 0x0015);
    SAME(answer.header.year, 56);
    SAME(answer.header.day, 211);
    SAME(answer.header.hour, 13);
    SAME(answer.header.minute, 27);
    SAME(answer.header.second, 38);
    SAME(answer.header.manufacturer, 45);
    SAME(answer.header.serial, 6789);
    SAME(answer.header.bytes_per_scan, 378);
    SAME(answer.header.interval, 32);
    SAME(answer.header.polarity, 7);
    SAME(answer.header.block_exponent, 9);
    SAME(answer.header.block_scans, 11);
    SAME(answer.header.record_type, 8);
    SAME(answer.header.record_length, 901);
    SAME(answer.header.scan_types, 2);
    SAME(answer.header.channel_sets, 3);
    SAME(answer.header.skew_fields, 5);
    SAME(answer.header.extended_fields, 4);
    SAME(answer.header.external_fields, 6);
    SAME(answer.header.samples_per_scan, 148);
}

static void try_descriptor(void)
{
    SegdChannelSet answer = segd_descriptor(block, BLOCK, 2, 3);
    SAME(answer.refusal.number, 0);
    SAME(answer.set.start, 0x0102);
    SAME(answer.set.end, 0x0304);
    SAME(answer.set.descale, -5);
    SAME(answer.set.channels, 12);
    SAME(answer.set.channel_type, 6);
    SAME(answer.set.subscan_exponent, 2);
    SAME(answer.set.gain, 9);
    SAME(answer.set.alias_frequency, 125);
    SAME(answer.set.alias_slope, 72);
    SAME(answer.set.low_cut, 8);
    SAME(answer.set.low_cut_slope, 18);
    SAME(answer.set.first_notch, 500);
    SAME(answer.set.second_notch, 600);
    SAME(answer.set.third_notch, 1667);
}

/* A refusal that has two values: the last descriptor breaks a rule, a digit of ten. */
static void try_told(void)
{
    uint8_t *notch = block + FIELD * (1 + TYPE_FIELDS + SETS) - 7;
    *notch = 0x6A;
    SegdTold told = segd_open(block, BLOCK).refusal;
    SAME(told.number, SEGD_DESCRIPTOR);
    SAME(told.first, 2);
    SAME(told.second, 3);
    SAME(told.third, 0);
    *notch = 0x67;
}

static void try_places(void)
{
    SegdIndex index = segd_sample_index(block, BLOCK, 2, 3, 2, 1);
    SAME(index.refusal.number, 0);
    SAME(index.k, 113);
    SegdPlace place = segd_sample_place(block, BLOCK, 2, 113);
    SAME(place.refusal.number, 0);
    SAME(place.set, 3);
    SAME(place.channel, 2);
    SAME(place.subscan, 1);

    SAME(segd_constants(block, BLOCK).offset, 4);
    SAME(segd_constants(block, BLOCK).length, 6);
    SAME(segd_extended(block, BLOCK).offset, 544);
    SAME(segd_extended(block, BLOCK).length, 128);
    SAME(segd_external(block, BLOCK).offset, 672);
    SAME(segd_external(block, BLOCK).length, 192);
    SAME(segd_external(block, BLOCK).refusal.number, 0);
}

static void try_skew(void)
{
    static const uint8_t sheet[4] = {0, 0, 0, 77};
    SegdSkew skew = segd_skew(block, BLOCK, sheet, 0, 2);
    SAME(skew.refusal.number, 0);
    SAME(skew.of_sheet, 0);
    SAME(skew.offset, 384);
    SAME(skew.length, 148);
    SAME(segd_skew(case_l, sizeof case_l, sheet, 4, 1).of_sheet, 1);
    SAME(segd_skew_at(block, BLOCK, sheet, 0, 2, 113).value, 114);
    SAME(segd_skew_at(case_l, sizeof case_l, sheet, 4, 1, 3).value, 77);
    SAME(segd_sample_time(block, BLOCK, sheet, 0, 2, 113, 512).time, 16 * 512 + 114 * 32);
}

/* Scans of 18 bytes in 0015, a group of four samples each, in blocks of 1 x 2^2; the second scan has TWI set, the third is of type 2. */
enum { SCAN = 18, SCANS = 5 };
static uint8_t body[SCAN * SCANS];

static void build_body(void)
{
    static const uint8_t fourth[SCANS] = {0x21, 0x41, 0x11, 0x11, 0x11};
    static const uint8_t group[10] = {0x12, 0x34, 0x00, 0x02, 0x00, 0x04, 0x00, 0x07, 0x00, 0x09};

    for (uint8_t i = 0; i < SCANS; i++) {
        uint8_t start[8] = {0xFF, 0xFF, 0xFF, fourth[i], 0x01, 2 * i, 0x00, 0x00};
        memcpy(body + SCAN * i, start, sizeof start);
        memcpy(body + SCAN * i + sizeof start, group, sizeof group);
    }
}

static SegdState open_body(void)
{
    static const uint8_t counts[13] = {0x00, 0x00, 0x18, 0x20, 0x02, 0x01, 0x80, 0x05, 0x02, 0x01, 0x00, 0x00, 0x00};
    uint8_t small[96];

    memcpy(small, case_l, sizeof case_l);
    small[3] = 0x15;
    memcpy(small + 19, counts, sizeof counts);
    memcpy(small + 64, case_l + FIELD, FIELD);
    small[64] = 0x02;
    SegdOpened opened = segd_open(small, sizeof small);
    SAME(opened.refusal.number, 0);
    SAME(opened.kind, SEGD_SCANS);
    SAME(opened.traces.code, 0);
    return opened.state;
}

/* A record of 8015: case L's header with B 0, and two scan types, one of a channel of two subscans and one of two channels. */
static uint8_t demultiplexed[FIELD * 3];

static void build_traces(void)
{
    memcpy(demultiplexed, case_l, sizeof case_l);
    memcpy(demultiplexed + 2 * FIELD, case_l + FIELD, FIELD);
    demultiplexed[2] = 0x80;
    demultiplexed[3] = 0x15;
    demultiplexed[21] = 0x00;
    demultiplexed[27] = 0x02;
    demultiplexed[FIELD + 9] = 0x01;
    demultiplexed[FIELD + 11] = 0x10;
    demultiplexed[2 * FIELD] = 0x02;
    demultiplexed[2 * FIELD + 9] = 0x02;
}

/* A trace header of 20 bytes and a group of ten, so often; each group has a word off rule. Gives the bytes. */
enum { TRACE_HEADER = 20, GROUP = 10, LONGEST_TRACE = TRACE_HEADER + 2 * GROUP };

static size_t build_trace(uint8_t *to, uint8_t scan_type, uint8_t channel, size_t groups)
{
    static const uint8_t group[GROUP] = {0x12, 0x34, 0x00, 0x02, 0xFF, 0xFF, 0x80, 0x00, 0x00, 0x09};
    const uint8_t turn[6] = {0x00, 0x07, scan_type, 0x01, 0x00, channel};

    memset(to, 0, TRACE_HEADER);
    memcpy(to, turn, sizeof turn);
    for (size_t i = 0; i < groups; i++)
        memcpy(to + TRACE_HEADER + GROUP * i, group, GROUP);
    return TRACE_HEADER + GROUP * groups;
}

static SegdTraces open_traces(void)
{
    SegdOpened opened = segd_open(demultiplexed, sizeof demultiplexed);

    SAME(opened.refusal.number, 0);
    SAME(opened.kind, SEGD_TRACES);
    SAME(opened.state.shape.code, 0);
    SAME(opened.traces.code, 0x8015);
    SAME(opened.traces.place, 0);
    return opened.traces;
}

static void try_trace_header(void)
{
    uint8_t wrong[sizeof demultiplexed];

    memcpy(wrong, demultiplexed, sizeof wrong);
    wrong[21] = 0x12;
    SAME(segd_open(wrong, sizeof wrong).refusal.number, SEGD_RANGE);
    SAME(segd_open(wrong, sizeof wrong).kind, 0);
    SegdHeader answer = segd_read_header(demultiplexed, sizeof demultiplexed);
    SAME(answer.refusal.number, 0);
    SAME(answer.header.code, 0x8015);
    SAME(answer.header.bytes_per_scan, 0);
    SAME(answer.header.samples_per_scan, 2);
}

/* Reads a whole trace of so many groups. */
static SegdTraceGave read_trace(SegdTraces state, uint8_t scan_type, uint8_t channel, size_t groups, int32_t *out)
{
    uint8_t trace[LONGEST_TRACE];
    size_t length = build_trace(trace, scan_type, channel, groups);

    return segd_trace_portion(demultiplexed, sizeof demultiplexed, state, trace, length, out, 2 * LONGEST_TRACE);
}

/* Every field of a state, in the second group of a third trace that stops inside it. */
static void try_trace_state(const SegdTraces *state)
{
    SAME(state->code, 0x8015);
    SAME(state->place, 40 + 30 + 34);
    SAME(state->ends, 2);
    SAME(state->at, 34);
    SAME(state->samples, 8 + 4 + 5);
    SAME(state->off, 2 + 1 + 1);
    SAME(state->present, 4);
    SAME(state->scans, 4 + 4);
    SAME(state->held, 0x12340002);
    SAME(state->exponents, 0x1234);
    SAME(state->stop, SEGD_FOUR);
    SAME(state->stopat, 104);
}

static void try_trace_report(SegdTraces state)
{
    SegdClosing closing = segd_trace_close(demultiplexed, sizeof demultiplexed, state);

    SAME(closing.refusal.number, 0);
    SAME(closing.scans, 8);
    SAME(closing.off, 4);
    SAME(closing.samples, 16);
    SAME(closing.last_type, 2);
    SAME(closing.itb_known, 0);
    SAME(closing.itb, 0);
    SAME(closing.window_known, 0);
    SAME(closing.window, 0);
}

/* Traces of eight, four and four samples; the last once more, six bytes short of its second group. */
static void try_traces(void)
{
    int32_t out[2 * LONGEST_TRACE];
    const size_t length = sizeof demultiplexed;
    SegdTraceGave gave = read_trace(open_traces(), 1, 1, 2, out);
    SAME(gave.outcome, SEGD_GOING_ON);
    SAME(gave.samples, 8);
    SAME(out[0], 2);
    SAME(out[1], 1 - 15);
    SAME(out[5], 3 - 15);
    SAME(out[4], -32767);
    SegdTraces first = segd_trace_end(demultiplexed, length, gave.state).state;
    SAME(first.present, 4);
    SAME(first.at, 0);
    SegdTraces second = segd_trace_end(demultiplexed, length, read_trace(first, 2, 1, 1, out).state).state;
    try_trace_report(segd_trace_end(demultiplexed, length, read_trace(second, 2, 2, 1, out).state).state);

    uint8_t trace[LONGEST_TRACE];
    build_trace(trace, 2, 2, 2);
    SegdTraces cut = segd_trace_portion(demultiplexed, length, second, trace, 34, out, 68).state;
    gave = segd_trace_end(demultiplexed, length, cut);
    SAME(gave.outcome, SEGD_STOPPED);
    SAME(gave.refusal.number, SEGD_FOUR);
    SAME(gave.refusal.first, 2);
    SAME(gave.refusal.second, 1);
    SAME(gave.refusal.third, 104);
    SAME(gave.samples, 0);
    try_trace_state(&gave.state);
}

static void try_trace_place(void)
{
    SegdTracePlace place = segd_trace_place(demultiplexed, sizeof demultiplexed, 0, 7);

    SAME(place.refusal.number, 0);
    SAME(place.scan_type, 1);
    SAME(place.set, 1);
    SAME(place.channel, 1);
    SAME(place.scan, 3);
    SAME(place.subscan, 1);
    SAME(segd_trace_place(demultiplexed, sizeof demultiplexed, 2, 9).scan_type, 2);
    SAME(segd_trace_place(demultiplexed, sizeof demultiplexed, 2, 9).channel, 2);
    SAME(segd_trace_place(demultiplexed, sizeof demultiplexed, 2, 9).scan, 9);
    SAME(segd_trace_place(demultiplexed, sizeof demultiplexed, 3, 0).refusal.number, SEGD_INDEX);
}

static void try_state(const SegdState *state)
{
    SAME(state->shape.code, 0x0015);
    SAME(state->shape.scan, SCAN);
    SAME(state->shape.advance, 4096 * 32);
    SAME(state->shape.types, 2);
    SAME(state->shape.block, 4);
    SAME(state->place, 79);
    SAME(state->ends, 1);
    SAME(state->off, 8);
    SAME(state->track.timing, 0x01060000);
    SAME(state->track.seen, 2);
    SAME(state->track.itb, 1);
    SAME(state->track.twi, 1);
    SAME(state->track.window, 0x01020000);
    SAME(state->held, 0x11010800);
    SAME(state->exponents, 0x1234);
    SAME(state->stop, SEGD_TIMING);
    SAME(state->stopat, 79);
}

/* The first block, four scans, is whole; byte 8 of the fifth scan is not zero. */
static void try_body(void)
{
    int32_t out[2 * SCAN * SCANS];
    SegdGave gave = segd_portion(open_body(), body, 4, out, 8);
    SAME(gave.state.track.itb, 1);
    SAME(gave.state.track.twi, 0);
    gave = segd_portion(gave.state, body + 4, 4 * SCAN - 4, out, 8 * SCAN);
    SAME(gave.outcome, SEGD_GOING_ON);
    SAME(gave.samples, 16);
    SAME(out[31], 4 - 14);
    SAME(out[30], 4);

    SegdState whole = segd_block_end(gave.state).state;
    SegdClosing closing = segd_close(whole);
    SAME(closing.refusal.number, 0);
    SAME(closing.scans, 4);
    SAME(closing.off, 8);
    SAME(closing.samples, 16);
    SAME(closing.last_type, 2);
    SAME(closing.itb_known, 1);
    SAME(closing.itb, 1);
    SAME(closing.window_known, 1);
    SAME(closing.window, 0x010200);

    body[4 * SCAN + 7] = 1;
    gave = segd_portion(whole, body + 4 * SCAN, SCAN, out, 2 * SCAN);
    SAME(gave.outcome, SEGD_STOPPED);
    SAME(gave.refusal.number, SEGD_TIMING);
    SAME(gave.refusal.first, 79);
    try_state(&gave.state);
    gave.state.stopat = 5;
    SAME(segd_close(gave.state).refusal.first, 5);
}

int main(void)
{
    build_block();
    build_body();
    try_words();
    try_header();
    try_descriptor();
    try_told();
    try_places();
    try_skew();
    try_body();
    build_traces();
    try_trace_header();
    try_traces();
    try_trace_place();
    return finish();
}
