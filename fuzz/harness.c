/* One input, read as a header block, a script of calls and the bytes of a body, put to the library.

   An input is the block's length (three bytes, the greatest first) and the script's (two bytes), then block, script and body. Where
   it is too short the block is cut, then the script. A call of the script is a byte, its last three bits the kind, and its numbers. The
   body is read by the calls on traces where the block announces them, else by those on scans. */
#include "body.h"
#include "demand.h"
#include "lend.h"
#include "questions.h"

#include <string.h>

/* Bytes before the samples of a scan and of a trace. */
enum { SCAN_START = 8, TRACE_HEADER = 20 };

enum kind { PORTION, CRAMPED, BLOCK_END, CLOSE, QUESTIONS, FORGED_FIELD, FORGED_STATE, WORD };

/* Bytes that are taken from the front. Where there are no more they are 0. */
struct bytes {
    const uint8_t *at;
    size_t left;
};

static struct bytes take(struct bytes *from, size_t length)
{
    struct bytes taken = {from->at, length < from->left ? length : from->left};
    from->at += taken.left;
    from->left -= taken.left;
    return taken;
}

static uint32_t number(struct bytes *from, size_t size)
{
    struct bytes taken = take(from, size);
    uint32_t value = 0;
    for (size_t i = 0; i < size; i++)
        value = value << 8 | (i < taken.left ? taken.at[i] : 0);
    return value;
}

/* A record as the script goes through it: what is left of the body, and the places of the block ends so far. */
struct record {
    struct bytes block, script, body;
    const uint8_t *body_start;
    SegdHeader header;
    struct reading cut;
    size_t ends[1u << 16];
    size_t end_count;
};

/* The same bytes with each block as one portion. */
static void read_uncut(const struct record *record, struct reading *uncut)
{
    size_t taken = (size_t)(record->body.at - record->body_start), from = 0;
    for (size_t i = 0; i < record->end_count; i++) {
        put_portion(uncut, record->body_start + from, record->ends[i] - from, 2 * (record->ends[i] - from));
        put_block_end(uncut);
        from = record->ends[i];
    }
    put_portion(uncut, record->body_start + from, taken - from, 2 * (taken - from));
}

static int same_closing(const SegdClosing *a, const SegdClosing *b)
{
    return a->refusal.number == b->refusal.number && a->refusal.first == b->refusal.first && a->refusal.second == b->refusal.second &&
           a->refusal.third == b->refusal.third && a->scans == b->scans && a->off == b->off && a->samples == b->samples && a->last_type == b->last_type &&
           a->itb_known == b->itb_known && a->itb == b->itb && a->window_known == b->window_known && a->window == b->window;
}

/* Sample k of a scan or of a trace by the call that reads a word. In 0015 and 8015 four exponents of four bits come before four words. */
static SegdWord word_of(const uint8_t *samples, uint16_t code, size_t k)
{
    SegdFormat format = segd_format(code);
    size_t size = (format.width - format.apart) / 8, group = format.apart > 0 ? 4 : 1, exponents = format.apart * group / 8;
    const uint8_t *start = samples + k / group * (exponents + size * group);
    struct bytes before = {start, exponents}, word = {start + exponents + k % group * size, size};
    uint32_t c = exponents > 0 ? number(&before, exponents) >> 4 * (3 - k % 4) & 15 : 0;
    return segd_read_word(code, c, number(&word, size));
}

/* Sample i of what was read is that of its word. Gives 1 where the word is off rule. */
static uint32_t compare_with_word(const struct record *record, size_t i, const uint8_t *samples, size_t k)
{
    const int32_t *numbers = record->cut.numbers + 2 * i;
    SegdWord word = word_of(samples, record->header.header.code, k);
    DEMAND(word.refusal.number == 0 && numbers[0] == word.m && numbers[1] == word.x);
    return word.off;
}

/* Samples of a trace of so many bytes, its header among them: in 8015 each with its own last byte. */
static size_t samples_of(uint16_t code, size_t bytes)
{
    SegdFormat format = segd_format(code);
    if (bytes < TRACE_HEADER)
        return 0;
    bytes -= TRACE_HEADER;
    if (format.apart == 0)
        return bytes / (format.width / 8);
    return bytes / 10 * 4 + (bytes % 10 > 2 ? (bytes % 10 - 2) / 2 : 0);
}

/* Every sample is that of its word, wherever it stood in the body. Gives how many words are off rule. */
static uint32_t compare_with_scans(const struct record *record)
{
    const SegdGeneral *header = &record->header.header;
    uint32_t off = 0;
    for (size_t i = 0; i < record->cut.count / 2; i++) {
        size_t scan = i / header->samples_per_scan, k = i % header->samples_per_scan;
        off += compare_with_word(record, i, record->body_start + scan * header->bytes_per_scan + SCAN_START, k);
    }
    return off;
}

/* The same of traces: the samples follow block by block, as far as they go. */
static uint32_t compare_with_traces(const struct record *record)
{
    size_t taken = (size_t)(record->body.at - record->body_start), from = 0, i = 0, count = record->cut.count / 2;
    uint32_t off = 0;
    for (size_t block = 0; block <= record->end_count; block++) {
        size_t to = block < record->end_count ? record->ends[block] : taken;
        size_t samples = samples_of(record->header.header.code, to - from);
        for (size_t k = 0; k < samples && i < count; k++, i++)
            off += compare_with_word(record, i, record->body_start + from + TRACE_HEADER, k);
        from = to;
    }
    DEMAND(i == count);
    return off;
}

/* However the body is cut: the samples, the stop and the closing are those of the uncut one. */
static void compare_with_uncut(const struct record *record, const struct reading *opened)
{
    static int32_t numbers[2 * MOST_BYTES];
    struct reading uncut = *opened;
    const struct reading *cut = &record->cut;
    uncut.numbers = numbers;
    read_uncut(record, &uncut);
    SegdClosing closing = put_close(&uncut), of_cut = put_close(cut);
    DEMAND(uncut.count == cut->count && memcmp(uncut.numbers, cut->numbers, cut->count * sizeof *numbers) == 0);
    DEMAND(uncut.state.stop == cut->state.stop && uncut.state.stopat == cut->state.stopat);
    DEMAND(same_traces(&uncut.traces, &cut->traces));
    DEMAND(same_closing(&closing, &of_cut));
    uint32_t off = opened->kind == SEGD_TRACES ? compare_with_traces(record) : compare_with_scans(record);
    if (closing.refusal.number == 0) {
        DEMAND(2 * closing.samples == cut->count && closing.off == off);
        DEMAND(closing.samples == (uint64_t)closing.scans * record->header.header.samples_per_scan);
    }
}

/* The next bytes of the body as a portion, with room enough or not. What is refused is not taken. */
static void do_portion(struct record *record, size_t length, size_t spare)
{
    struct reading *cut = &record->cut;
    struct bytes kept = record->body, taken = take(&record->body, length);
    if (cut->kind == SEGD_TRACES)
        cut_in_trace(cut->traces.at, cut->traces.code);
    else if (cut->state.shape.scan > 0)
        cut_at(cut->state.place % cut->state.shape.scan, cut->state.shape.code);
    if (!put_portion(cut, taken.at, taken.left, 2 * taken.left + spare))
        record->body = kept;
}

static void do_cramped(struct record *record, size_t length, size_t room)
{
    struct bytes body = record->body, taken = take(&body, length);
    if (taken.left > 0)
        put_portion(&record->cut, taken.at, taken.left, room % (2 * taken.left));
}

static void do_block_end(struct record *record)
{
    put_block_end(&record->cut);
    record->ends[record->end_count++] = (size_t)(record->body.at - record->body_start);
}

/* A sheet of the length that the header asks for, or of another; its bytes are those of the body, and then 0. */
static void lend_sheet(const struct record *record, struct lent_block *lent, int fitting, size_t other)
{
    const SegdGeneral *header = &record->header.header;
    size_t due = (size_t)header->scan_types * header->samples_per_scan;
    struct bytes all = {record->body_start, (size_t)(record->body.at + record->body.left - record->body_start)};
    struct bytes taken = {NULL, 0};
    lent->sheet_length = fitting && due <= MOST_BYTES ? due : other;
    taken = take(&all, lent->sheet_length);
    uint8_t *sheet = lend_room(LENT_SHEET, lent->sheet_length);
    memset(sheet, 0, lent->sheet_length);
    if (taken.left > 0)
        memcpy(sheet, taken.at, taken.left);
    lent->sheet = sheet;
}

static void do_questions(struct record *record, int fitting)
{
    struct bytes *script = &record->script;
    struct lent_block lent = {record->cut.block, record->cut.block_length, NULL, 0};
    struct numbers numbers;
    numbers.scan_type = number(script, 1);
    numbers.set = number(script, 1);
    numbers.channel = number(script, 2);
    numbers.subscan = number(script, 2);
    numbers.k = number(script, 4);
    numbers.t = number(script, 4);
    lend_sheet(record, &lent, fitting, number(script, 2));
    ask_all(&lent, &numbers);
    DEMAND(lent.length == 0 || memcmp(lent.block, record->block.at, lent.length) == 0);
}

/* Every call on a state that no call gave, with the next bytes of the body. */
static void use_forged(const struct record *record, const struct reading *forged, size_t length)
{
    static int32_t numbers[2 * MOST_BYTES];
    struct bytes body = record->body, taken = take(&body, length);
    struct reading fed = *forged, ended = *forged;
    fed.numbers = ended.numbers = numbers;
    fed.count = ended.count = 0;
    put_portion(&fed, taken.at, taken.left, 2 * taken.left);
    put_block_end(&ended);
    put_close(forged);
    put_close(&fed);
    put_close(&ended);
}

/* Replaces a field of a state that begins with a code and goes on with numbers from `first` on; the first field is the code. */
static void replace_field(struct bytes *script, void *state, size_t first, size_t size)
{
    size_t field = number(script, 1) % ((size - first) / sizeof(uint32_t) + 1);
    uint32_t value = number(script, 4);
    uint16_t code = (uint16_t)value;
    if (field == 0)
        memcpy(state, &code, sizeof code);
    else
        memcpy((char *)state + first + (field - 1) * sizeof value, &value, sizeof value);
}

/* The present state with one field replaced. */
static void do_forged_field(struct record *record)
{
    struct reading forged = record->cut;
    if (forged.kind == SEGD_TRACES)
        replace_field(&record->script, &forged.traces, offsetof(SegdTraces, place), sizeof forged.traces);
    else
        replace_field(&record->script, &forged.state, offsetof(SegdState, shape.scan), sizeof forged.state);
    use_forged(record, &forged, number(&record->script, 2));
}

static void do_forged_state(struct record *record)
{
    struct reading forged = record->cut;
    int traces = forged.kind == SEGD_TRACES;
    struct bytes taken = take(&record->script, traces ? sizeof forged.traces : sizeof forged.state);
    memset(&forged.traces, 0, sizeof forged.traces);
    memset(&forged.state, 0, sizeof forged.state);
    if (taken.left > 0)
        memcpy(traces ? (void *)&forged.traces : (void *)&forged.state, taken.at, taken.left);
    use_forged(record, &forged, number(&record->script, 2));
}

/* Every call on the present state of traces with another block lent: cut short, or with a byte of it replaced. */
static void do_other_block(struct record *record)
{
    struct reading other = record->cut;
    size_t place = number(&record->script, 2), length = record->block.left;
    uint8_t value = (uint8_t)number(&record->script, 1);
    if (value == 0)
        length = place < length ? place : length;
    uint8_t *block = lend(LENT_OTHER, record->block.at, length);
    if (value != 0 && place < length)
        block[place] = value;
    other.block = block;
    other.block_length = length;
    use_forged(record, &other, number(&record->script, 2));
}

static void do_close(struct record *record, uint32_t more)
{
    put_close(&record->cut);
    if (more > 0 && record->cut.kind == SEGD_TRACES)
        do_other_block(record);
}

static void do_word(struct bytes *script)
{
    uint16_t code = (uint16_t)number(script, 2);
    uint32_t c = number(script, 1), word = number(script, 4);
    ask_word(code, c, word);
}

static void do_call(struct record *record)
{
    uint32_t call = number(&record->script, 1), more = call >> 3;
    switch ((enum kind)(call & 7)) {
    case PORTION: do_portion(record, number(&record->script, 2), more & 3); break;
    case CRAMPED: do_cramped(record, number(&record->script, 2), more); break;
    case BLOCK_END: do_block_end(record); break;
    case CLOSE: do_close(record, more); break;
    case QUESTIONS: do_questions(record, more & 1); break;
    case FORGED_FIELD: do_forged_field(record); break;
    case FORGED_STATE: do_forged_state(record); break;
    case WORD: do_word(&record->script); break;
    }
}

/* The kind of body that an opening has to name. */
static uint8_t kind_of(const SegdHeader *header)
{
    if (header->refusal.number != 0)
        return 0;
    return header->header.code & 0x8000 ? SEGD_TRACES : SEGD_SCANS;
}

/* The state that is not of the record's kind is all 0, and unfit. */
static void check_opened(const struct reading *opened)
{
    static const SegdState no_scans;
    static const SegdTraces no_traces;
    struct reading scans = *opened, traces = *opened;
    scans.kind = SEGD_SCANS;
    traces.kind = SEGD_TRACES;
    DEMAND((put_close(&scans).refusal.number == SEGD_STATE) == (opened->kind != SEGD_SCANS));
    uint32_t number = put_close(&traces).refusal.number;
    DEMAND((number == SEGD_MISSING) == (opened->kind == SEGD_TRACES));
    DEMAND(opened->kind == SEGD_SCANS || same_state(&opened->state, &no_scans));
    DEMAND(opened->kind == SEGD_TRACES || same_traces(&opened->traces, &no_traces));
}

/* Opens the record: what the header refuses, opening refuses too. The block stays lent, for the calls on traces. */
static struct reading open_record(struct record *record)
{
    const uint8_t *block = lend(LENT_BLOCK, record->block.at, record->block.left);
    record->header = segd_read_header(block, record->block.left);
    SegdOpened opened = segd_open(block, record->block.left);
    SegdTold refusal = record->header.refusal;
    DEMAND(opened.refusal.number == refusal.number && opened.refusal.first == refusal.first);
    DEMAND(opened.refusal.second == refusal.second && opened.refusal.third == 0 && opened.kind == kind_of(&record->header));
    struct reading reading = {opened.kind, opened.state, opened.traces, block, record->block.left, NULL, 0};
    check_opened(&reading);
    return reading;
}

int LLVMFuzzerTestOneInput(const uint8_t *data, size_t size);

int LLVMFuzzerTestOneInput(const uint8_t *data, size_t size)
{
    static int32_t numbers[2 * MOST_BYTES];
    static struct record record;
    struct bytes input = {data, size};
    if (size > MOST_BYTES)
        return 0;
    uint32_t block_length = number(&input, 3), script_length = number(&input, 2);
    lend_beside(size % 2); /* both sides come up, since the fuzzer makes inputs longer and shorter */
    record.block = take(&input, block_length);
    record.script = take(&input, script_length);
    record.body = input;
    record.body_start = input.at;
    record.end_count = 0;
    struct reading opened = open_record(&record);
    record.cut = opened;
    record.cut.numbers = numbers;
    while (record.script.left > 0)
        do_call(&record);
    compare_with_uncut(&record, &opened);
    DEMAND(record.block.left == 0 || memcmp(opened.block, record.block.at, record.block.left) == 0);
    return 0;
}
