#include "questions.h"

#include "body.h"
#include "demand.h"

/* T has three bytes. */
#define T_END (1u << 24)

static int same_told(SegdTold a, SegdTold b)
{
    return a.number == b.number && a.first == b.first && a.second == b.second && a.third == b.third;
}

/* An answer that is refused or not: by the header's own refusal, else as no such thing unless it is there. Gives whether it was answered. */
static int answered(const SegdHeader *header, SegdTold refusal, int there)
{
    if (header->refusal.number != 0)
        DEMAND(same_told(refusal, header->refusal));
    else
        DEMAND(refusal.number == (there ? 0 : SEGD_INDEX) && refusal.first == 0 && refusal.second == 0 && refusal.third == 0);
    return refusal.number == 0;
}

static int has_type(const SegdHeader *header, uint32_t scan_type)
{
    return scan_type >= 1 && scan_type <= header->header.scan_types;
}

static void ask_set(const struct lent_block *lent, const SegdHeader *header, const struct numbers *n)
{
    SegdChannelSet answer = segd_descriptor(lent->block, lent->length, n->scan_type, n->set);
    came_up(CALL_SET, answer.refusal.number, header->header.code);
    int there = has_type(header, n->scan_type) && n->set >= 1 && n->set <= header->header.channel_sets;
    if (answered(header, answer.refusal, there))
        DEMAND(answer.set.channels <= 9999 && answer.set.subscan_exponent <= 9 && answer.set.descale >= -127 && answer.set.descale <= 127);
    else
        DEMAND(answer.set.channels == 0 && answer.set.start == 0 && answer.set.end == 0 && answer.set.descale == 0);
}

/* The place of sample k leads back to k, and stands in its set. */
static void ask_place(const struct lent_block *lent, const SegdHeader *header, const struct numbers *n)
{
    SegdPlace place = segd_sample_place(lent->block, lent->length, n->scan_type, n->k);
    came_up(CALL_PLACE, place.refusal.number, header->header.code);
    if (!answered(header, place.refusal, has_type(header, n->scan_type) && n->k < header->header.samples_per_scan)) {
        DEMAND(place.set == 0 && place.channel == 0 && place.subscan == 0);
        return;
    }
    SegdIndex index = segd_sample_index(lent->block, lent->length, n->scan_type, place.set, place.channel, place.subscan);
    DEMAND(index.refusal.number == 0 && index.k == n->k);
    SegdChannelSet set = segd_descriptor(lent->block, lent->length, n->scan_type, place.set);
    DEMAND(set.refusal.number == 0 && place.channel >= 1 && place.channel <= set.set.channels);
    DEMAND(place.subscan < 1u << set.set.subscan_exponent);
}

/* The number of a sample leads back to its set, channel and subscan. */
static void ask_index(const struct lent_block *lent, const SegdHeader *header, const struct numbers *n)
{
    SegdIndex index = segd_sample_index(lent->block, lent->length, n->scan_type, n->set, n->channel, n->subscan);
    SegdChannelSet set = segd_descriptor(lent->block, lent->length, n->scan_type, n->set);
    came_up(CALL_INDEX, index.refusal.number, header->header.code);
    int there = set.refusal.number == 0 && n->channel >= 1 && n->channel <= set.set.channels &&
                n->subscan < 1u << set.set.subscan_exponent;
    if (!answered(header, index.refusal, there)) {
        DEMAND(index.k == 0);
        return;
    }
    SegdPlace place = segd_sample_place(lent->block, lent->length, n->scan_type, index.k);
    DEMAND(place.refusal.number == 0 && place.set == n->set && place.channel == n->channel && place.subscan == n->subscan);
}

/* A sample of a trace stands in its set, and leads back to its number. The trace's is k, the sample's t. */
static void ask_trace_place(const struct lent_block *lent, const SegdHeader *header, const struct numbers *n)
{
    SegdTracePlace place = segd_trace_place(lent->block, lent->length, n->k, n->t);
    came_up(CALL_TRACE_PLACE, place.refusal.number, header->header.code);
    if (!answered(header, place.refusal, header->refusal.number == 0 && n->k < traces_of(lent->block, &header->header))) {
        DEMAND(place.scan_type == 0 && place.set == 0 && place.channel == 0 && place.scan == 0 && place.subscan == 0);
        return;
    }
    SegdChannelSet set = segd_descriptor(lent->block, lent->length, place.scan_type, place.set);
    DEMAND(set.refusal.number == 0 && place.channel >= 1 && place.channel <= set.set.channels);
    DEMAND(place.subscan < 1u << set.set.subscan_exponent);
    DEMAND(place.scan << set.set.subscan_exponent == n->t - place.subscan && place.scan == n->t >> set.set.subscan_exponent);
    SegdTracePlace next = segd_trace_place(lent->block, lent->length, n->k + 1, n->t);
    if (place.channel < set.set.channels)
        DEMAND(next.scan_type == place.scan_type && next.set == place.set && next.channel == place.channel + 1);
    else
        DEMAND(next.refusal.number == SEGD_INDEX || next.channel == 1);
}

/* The constants stand in bytes 5 to 10; the extended header ends where the external begins, and that ends with the block. */
static void ask_parts(const struct lent_block *lent, const SegdHeader *header)
{
    SegdPart constants = segd_constants(lent->block, lent->length);
    SegdPart extended = segd_extended(lent->block, lent->length);
    SegdPart external = segd_external(lent->block, lent->length);
    answered(header, constants.refusal, 1);
    answered(header, extended.refusal, 1);
    if (!answered(header, external.refusal, 1)) {
        DEMAND(constants.offset == 0 && constants.length == 0 && extended.offset == 0 && extended.length == 0);
        DEMAND(external.offset == 0 && external.length == 0);
        return;
    }
    DEMAND(constants.offset == 4 && constants.length == 6);
    DEMAND(extended.length == 32u * header->header.extended_fields && external.length == 32u * header->header.external_fields);
    DEMAND(extended.offset + extended.length == external.offset && external.offset + external.length == lent->length);
}

/* The refusal that a question on skew has to have, as far as it does not ask for more than a scan type. */
static uint32_t skew_fault(const struct lent_block *lent, const SegdHeader *header, uint32_t scan_type)
{
    const SegdGeneral *fields = &header->header;
    if (header->refusal.number != 0)
        return header->refusal.number;
    if (!has_type(header, scan_type))
        return SEGD_INDEX;
    return fields->skew_fields == 0 && lent->sheet_length != (size_t)fields->scan_types * fields->samples_per_scan ? SEGD_SHEET : 0;
}

/* Where the skew bytes of a scan type stand: a part of the sheet if SK is 0, else of the block; a byte for each sample. */
static const uint8_t *ask_skew(const struct lent_block *lent, const SegdHeader *header, uint32_t scan_type)
{
    SegdSkew skew = segd_skew(lent->block, lent->length, lent->sheet, lent->sheet_length, scan_type);
    came_up(CALL_SKEW, skew.refusal.number, header->header.code);
    DEMAND(skew.refusal.number == skew_fault(lent, header, scan_type));
    if (skew.refusal.number != 0) {
        DEMAND(skew.of_sheet == 0 && skew.offset == 0 && skew.length == 0);
        return NULL;
    }
    DEMAND(skew.length == header->header.samples_per_scan && skew.of_sheet == (header->header.skew_fields == 0));
    DEMAND(skew.offset + skew.length <= (skew.of_sheet ? lent->sheet_length : lent->length));
    return (skew.of_sheet ? lent->sheet : lent->block) + skew.offset;
}

/* A sample's skew byte is that of the part, and its time 16 T + SS x I. */
static void ask_time(const struct lent_block *lent, const SegdHeader *header, const struct numbers *n)
{
    const uint8_t *part = ask_skew(lent, header, n->scan_type);
    SegdByte byte = segd_skew_at(lent->block, lent->length, lent->sheet, lent->sheet_length, n->scan_type, n->k);
    SegdTime time = segd_sample_time(lent->block, lent->length, lent->sheet, lent->sheet_length, n->scan_type, n->k, n->t);
    came_up(CALL_TIME, time.refusal.number, header->header.code);
    int there = part != NULL && n->k < header->header.samples_per_scan;
    DEMAND((byte.refusal.number == 0) == there);
    DEMAND((time.refusal.number == 0) == (there && n->t < T_END));
    DEMAND(byte.value == (there ? part[n->k] : 0));
    DEMAND(time.time == (there && n->t < T_END ? 16 * n->t + part[n->k] * header->header.interval : 0));
}

void ask_all(const struct lent_block *lent, const struct numbers *numbers)
{
    SegdHeader header = segd_read_header(lent->block, lent->length);
    came_up(CALL_HEADER, header.refusal.number, header.header.code);
    DEMAND(header.refusal.number <= SEGD_SKEW && header.refusal.number != SEGD_DEMUX);
    ask_set(lent, &header, numbers);
    ask_place(lent, &header, numbers);
    ask_index(lent, &header, numbers);
    ask_trace_place(lent, &header, numbers);
    ask_parts(lent, &header);
    ask_time(lent, &header, numbers);
}

/* The refusal that a word has to have: its code has no row, or it or its exponent is wider than the row has it. */
static uint32_t word_fault(const SegdFormat *format, uint32_t c, uint32_t word)
{
    if (!format->found)
        return SEGD_FORMAT;
    return (uint64_t)word >> (format->width - format->apart) != 0 || c >> format->apart != 0 ? SEGD_INDEX : 0;
}

void ask_word(uint16_t code, uint32_t c, uint32_t word)
{
    SegdFormat format = segd_format(code);
    SegdWord answer = segd_read_word(code, c, word);
    SegdPair pair = segd_packed((uint8_t)word);
    uint32_t number = answer.refusal.number;
    came_up(CALL_WORD, number, code);
    DEMAND(number == word_fault(&format, c, word));
    DEMAND(number == 0 || (answer.m == 0 && answer.x == 0 && answer.off == 0));
    DEMAND(answer.off <= 1 && pair.found <= 1 && pair.value <= 99);
}
