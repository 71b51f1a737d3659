/*
 * deck IMAGE RECORD SAMPLES - reads one record of a reel image, and writes its samples to a file that is not there yet.
 *
 * It reads multiplexed records, scan by scan, and demultiplexed ones (a code 80xx), trace by trace. It needs the same memory for every
 * reel, and trusts nothing in the image: what the library does not check (the image's framing, the length of a header item) is checked
 * here. The exit status says how it went; README.md beside this file tells the formats.
 */
#include "segd.h"

#include <errno.h>
#include <inttypes.h>
#include <stdio.h>
#include <stdlib.h>
#include <string.h>

enum { PORTION = 65536, LARGEST_HEADER = 65536, SAMPLE_BYTES = 8 };

/* Exit statuses. */
enum { WHOLE = 0, REFUSED = 1, NOT_READ = 2, FAILED = 3 };

/* What a step of the reading came to. All but the first end it. */
typedef enum { FINE, REEL_CUT, REEL_VERSION, NO_RECORD, IMAGE_FAILED, SAMPLES_FAILED } Step;

typedef struct {
    FILE *image;
    const char *samples_path;
    FILE *samples;      /* null until the header is accepted: a refused header leaves no file */
    uint32_t length;    /* of the header block, which calls on traces are lent each time */
    SegdGeneral header;
    SegdTold refusal;   /* of the header; all 0 where the body is read */
    uint8_t kind;       /* of the body: whose state goes on, */
    SegdState state;    /* that of scans */
    SegdTraces traces;  /* or that of traces */
    uint64_t kept;      /* samples written so far */
} Deck;

static uint8_t block[LARGEST_HEADER];
static uint8_t bytes[PORTION];
static int32_t numbers[2 * PORTION];
static uint8_t packed[SAMPLE_BYTES * PORTION];

static const char *const refusal_names[] = {
    "", "SHORT", "FORMAT", "DEMUX", "DIGIT", "RANGE", "LENGTH", "DESCRIPTOR", "FOUR", "SIZE", "SKEW", "INDEX", "SHEET", "ROOM", "LONG",
    "BLOCK", "SYNC", "TIMING", "PHASE", "PART", "OPEN", "MISSING", "LARGE", "STATE", "TRACE", "COUNT",
};

/* ---- The image ---- */

static Step after_short_read(FILE *image)
{
    return ferror(image) ? IMAGE_FAILED : REEL_CUT;
}

static Step take(FILE *image, uint8_t *to, size_t count)
{
    return fread(to, 1, count, image) == count ? FINE : after_short_read(image);
}

/* The length of the next item, 0 for a file mark. */
static Step take_length(FILE *image, uint32_t *length)
{
    uint8_t word[4];
    Step step = take(image, word, sizeof word);

    if (step == FINE)
        *length = (uint32_t)word[0] << 24 | (uint32_t)word[1] << 16 | (uint32_t)word[2] << 8 | word[3];
    return step;
}

/* An item may have 4 GiB: it goes by in portions. */
static uint32_t portion_of(uint32_t left)
{
    return left < PORTION ? left : PORTION;
}

static Step skip_item(FILE *image, uint32_t left)
{
    Step step = FINE;

    while (step == FINE && left > 0) {
        uint32_t count = portion_of(left);
        step = take(image, bytes, count);
        left -= count;
    }
    return step;
}

/* Skips a file that begins with an item of this length, and its mark. A length of 0 is the mark. */
static Step skip_file(FILE *image, uint32_t length)
{
    Step step = FINE;

    while (step == FINE && length > 0) {
        step = skip_item(image, length);
        if (step == FINE)
            step = take_length(image, &length);
    }
    return step;
}

/* ---- The samples ---- */

static void pack(uint8_t *to, int32_t number)
{
    uint32_t bits = (uint32_t)number;

    to[0] = bits & 255;
    to[1] = bits >> 8 & 255;
    to[2] = bits >> 16 & 255;
    to[3] = bits >> 24;
}

static Step write_samples(Deck *deck, size_t samples)
{
    size_t size = SAMPLE_BYTES * samples;

    for (size_t i = 0; i < 2 * samples; i++)
        pack(packed + 4 * i, numbers[i]);
    if (fwrite(packed, 1, size, deck->samples) != size)
        return SAMPLES_FAILED;
    deck->kept += samples;
    return FINE;
}

/* Never over an older file: the reel that it came from may be gone. */
static Step open_samples(Deck *deck)
{
    deck->samples = fopen(deck->samples_path, "wbx");
    return deck->samples ? FINE : SAMPLES_FAILED;
}

/* What was written is safe only once the file is closed without an error. */
static Step close_samples(Deck *deck, Step step)
{
    if (deck->samples && fclose(deck->samples) != 0 && step != IMAGE_FAILED)
        step = SAMPLES_FAILED;
    deck->samples = NULL;
    return step;
}

/* ---- The record ---- */

static Step read_header(Deck *deck, uint32_t length)
{
    if (length > LARGEST_HEADER) {
        deck->refusal.number = SEGD_LARGE;
        return skip_item(deck->image, length);
    }
    Step step = take(deck->image, block, length);
    if (step != FINE)
        return step;
    SegdOpened opened = segd_open(block, length);
    deck->length = length;
    deck->header = segd_read_header(block, length).header;
    deck->refusal = opened.refusal;
    deck->kind = opened.kind;
    deck->state = opened.state;
    deck->traces = opened.traces;
    return deck->refusal.number == 0 ? open_samples(deck) : FINE;
}

static Step read_portion(Deck *deck, size_t count)
{
    uint64_t samples;

    if (deck->kind == SEGD_TRACES) {
        SegdTraceGave gave = segd_trace_portion(block, deck->length, deck->traces, bytes, count, numbers, 2 * PORTION);
        deck->traces = gave.state;
        samples = gave.samples;
    } else {
        SegdGave gave = segd_portion(deck->state, bytes, count, numbers, 2 * PORTION);
        deck->state = gave.state;
        samples = gave.samples;
    }
    return write_samples(deck, (size_t)samples);
}

static void end_block(Deck *deck)
{
    if (deck->kind == SEGD_TRACES)
        deck->traces = segd_trace_end(block, deck->length, deck->traces).state;
    else
        deck->state = segd_block_end(deck->state).state;
}

/* The bytes before a cut are read too: they may be the last that there are. */
static Step read_block(Deck *deck, uint32_t left)
{
    while (left > 0) {
        uint32_t wanted = portion_of(left);
        size_t count = fread(bytes, 1, wanted, deck->image);
        Step step = read_portion(deck, count);
        if (step != FINE)
            return step;
        if (count < wanted)
            return after_short_read(deck->image);
        left -= wanted;
    }
    end_block(deck);
    return FINE;
}

/* Reads a file to its mark. After a stop too: only the mark says that the record is not cut, and the state keeps the stop. */
static Step read_record(Deck *deck, uint32_t length)
{
    Step step = read_header(deck, length);

    while (step == FINE) {
        step = take_length(deck->image, &length);
        if (step != FINE || length == 0)
            break;
        step = deck->refusal.number == 0 ? read_block(deck, length) : skip_item(deck->image, length);
    }
    return close_samples(deck, step);
}

/* Goes to a record and reads it. A file without an item has no number. */
static Step read_reel(Deck *deck, uint64_t wanted)
{
    uint8_t version;
    uint32_t length;
    uint64_t record = 0;
    int after_mark = 0;
    Step step = take(deck->image, &version, 1);

    if (step == FINE && version != 1)
        return REEL_VERSION;
    while (step == FINE) {
        step = take_length(deck->image, &length);
        if (step != FINE)
            break;
        if (length == 0 && after_mark)
            return NO_RECORD;
        if (length > 0 && ++record == wanted)
            return read_record(deck, length);
        step = skip_file(deck->image, length);
        after_mark = 1;
    }
    return step;
}

/* ---- The report ---- */

static void print_report(const Deck *deck, uint64_t record, const SegdClosing *closing)
{
    printf("record %" PRIu64 " file %04u format %04x scans %" PRIu32 " samples %" PRIu64 " off %" PRIu32 "\n", record,
           (unsigned)deck->header.file, (unsigned)deck->header.code, closing->scans, closing->samples, closing->off);
    printf("last scan type %" PRIu32 ", ", closing->last_type);
    if (closing->itb_known)
        printf("ITB %" PRIu32 ", ", closing->itb);
    else
        printf("no ITB, ");
    if (closing->window_known)
        printf("window at %" PRIu32 "\n", closing->window);
    else
        printf("no window\n");
}

/* Where a refusal is: a stop at its place, an unfinished body at its length, a header at 0. */
static uint32_t place_of(const Deck *deck, SegdTold told)
{
    if ((told.number >= SEGD_LONG && told.number <= SEGD_PHASE) || told.number == SEGD_TRACE || told.number == SEGD_COUNT)
        return told.first;
    if (told.number == SEGD_FOUR)
        return told.third;
    return deck->kind == SEGD_TRACES ? deck->traces.place : deck->state.place;
}

static void print_refusal(const Deck *deck, uint64_t record, SegdTold told)
{
    printf("record %" PRIu64 " refused %" PRIu32 " %s at %" PRIu32 "\n", record, told.number, refusal_names[told.number],
           place_of(deck, told));
    if (told.number == SEGD_DESCRIPTOR || told.number == SEGD_FOUR)
        printf("scan type %" PRIu32 ", set %" PRIu32 "\n", told.first, told.second);
    else if (told.number == SEGD_SIZE)
        printf("scan type %" PRIu32 "\n", told.first);
    printf("%" PRIu64 " samples kept\n", deck->kept);
}

static int tell_record(const Deck *deck, uint64_t record)
{
    SegdClosing closing =
        deck->kind == SEGD_TRACES ? segd_trace_close(block, deck->length, deck->traces) : segd_close(deck->state);
    SegdTold told = deck->refusal.number != 0 ? deck->refusal : closing.refusal;

    if (told.number != 0) {
        print_refusal(deck, record, told);
        return REFUSED;
    }
    print_report(deck, record, &closing);
    return WHOLE;
}

static int tell_failure(const char *path)
{
    fprintf(stderr, "deck: %s: %s\n", path, strerror(errno));
    return FAILED;
}

static int tell(const Deck *deck, Step step, uint64_t record, const char *image_path)
{
    switch (step) {
    case FINE:
        return tell_record(deck, record);
    case REEL_CUT:
        printf("reel cut\n%" PRIu64 " samples kept\n", deck->kept);
        return NOT_READ;
    case REEL_VERSION:
        printf("reel version\n");
        return NOT_READ;
    case NO_RECORD:
        printf("no record %" PRIu64 "\n", record);
        return NOT_READ;
    case IMAGE_FAILED:
        return tell_failure(image_path);
    case SAMPLES_FAILED:
        break;
    }
    return tell_failure(deck->samples_path);
}

/* A record's number, digits alone; 0 where the text is none. */
static uint64_t record_number(const char *text)
{
    if (text[0] == '\0' || text[strspn(text, "0123456789")] != '\0')
        return 0;
    errno = 0;
    unsigned long long number = strtoull(text, NULL, 10);
    return errno == 0 ? number : 0;
}

int main(int argc, char **argv)
{
    uint64_t record = argc == 4 ? record_number(argv[2]) : 0;

    if (record == 0) {
        fprintf(stderr, "usage: deck IMAGE RECORD SAMPLES (records count from 1)\n");
        return FAILED;
    }
    Deck deck = {.image = fopen(argv[1], "rb"), .samples_path = argv[3]};
    if (!deck.image)
        return tell_failure(argv[1]);
    int status = tell(&deck, read_reel(&deck, record), record, argv[1]);
    fclose(deck.image);
    return fflush(stdout) == 0 && !ferror(stdout) ? status : tell_failure("standard output");
}
