/*
 * segd.h - reads SEG-D revision 0 field tapes: the calls of libdeck.a.
 *
 * A record is a header block, then a body in blocks. The reader takes the header block whole and the body in portions of any size,
 * as the drive hands them over:
 *
 *     SegdOpened opened = segd_open(block, length);                    refused where opened.refusal.number is not 0; these calls are
 *     SegdState state = opened.state;                                  for opened.kind SEGD_SCANS
 *     for each block of the body:
 *         for each portion of the block:
 *             SegdGave gave = segd_portion(state, bytes, n, out, 2 * n);
 *             state = gave.state;                                      out holds gave.samples pairs M, X
 *         state = segd_block_end(state).state;
 *     SegdClosing closing = segd_close(state);                         the report, or why there is none
 *
 * A record of a code 80xx is demultiplexed: its body has no scans but a block for each trace, which is all samples of one channel. It is
 * read by the same loop; its calls are lent the header block of the opening each time, unchanged:
 *
 *     SegdTraces traces = opened.traces;                               for opened.kind SEGD_TRACES
 *     for each block of the body, which is a trace:
 *         for each portion of the block:
 *             SegdTraceGave gave = segd_trace_portion(block, length, traces, bytes, n, out, 2 * n);
 *             traces = gave.state;
 *         traces = segd_trace_end(block, length, traces).state;
 *     SegdClosing closing = segd_trace_close(block, length, traces);
 *
 * A stop is kept in the state: once a byte or a block end is refused, every later call on it answers that same refusal and writes
 * nothing. So the loops above need no test inside. examples/deck.c is both of them as a whole program.
 *
 * WHAT YOU MAY HAND IN. Bytes of any value, any length (0 too), any number in any question, any state (also one that no call gave).
 * Each call ends, with its answer or with the refusal that stands beside it below; none relies on an earlier check.
 *
 * WHAT YOU MUST SEE TO, since no call can:
 *   - a pointer is never null, not even with length 0;
 *   - it points to as many bytes as the length beside it says (`out`: to as many int32_t, aligned as such), and these stay yours to
 *     read (`out`: to write) and unchanged by others until the call returns;
 *   - `out` overlaps neither `bytes` nor `block`.
 *
 * The library keeps nothing between calls, takes no memory and needs nothing from outside: the state is all there is, and it is yours. A
 * copy of it is a place to go back to. Calls may be put from several threads at once. The stack of a call holds at most two kilobytes.
 *
 * COUNTING. Bytes of a block are numbered from 1, as in the SEG-D paper. Scan types, channel sets and channels count from 1; subscans
 * and samples of a scan (k), traces, and scans and samples of a trace from 0; places in a body from 0, over all its blocks and whatever
 * stands in them, trace headers too. Structs may have padding: compare fields, not memory.
 *
 * UNITS. A sample is M x 2^X, before its channel set's factor 2^(descale / 4), in millivolts. Times have the unit of their field:
 *     base scan interval I    1/16 ms        timing word T    1/256 ms
 *     a set's start and end   2 ms           sample time      1/4096 ms
 */
#ifndef SEGD_H
#define SEGD_H

#include <stddef.h>
#include <stdint.h>

#ifdef __cplusplus
extern "C" {
#endif

/* ---- Refusals ---- */

/* Why a call refuses. Each call below says which of these it gives, in the order in which it looks for them. */
enum {
    /* the header block: looked for in this order */
    SEGD_SHORT = 1,      /* the block has less than 32 bytes */
    SEGD_FORMAT = 2,     /* the format code is not among the twelve */
    SEGD_DEMUX = 3,      /* no call gives it: for a program that reads no demultiplexed records, of a code 80xx; the library does */
    SEGD_DIGIT = 4,      /* a digit of the general header is above 9 */
    SEGD_RANGE = 5,      /* a value of the general header is out of its range (the bytes per scan: 1 to 999,999, in a code 80xx 0), or the
                            upper half of byte 12 is not zero */
    SEGD_LENGTH = 6,     /* the block has not 32 x [1 + ST/R x (CS + SK) + EC + EX] bytes */
    SEGD_DESCRIPTOR = 7, /* a rule of a descriptor is broken; first: scan type, second: set. 7, then 8, of one descriptor after the other */
    SEGD_FOUR = 8,       /* code 0015, and the set's channels do not divide by 4; first: scan type, second: set. Nothing is asked of those of
                            8015, whose traces it stops: a trace's samples do not divide by 4; first and second: its scan type and set,
                            third: the place */
    SEGD_SIZE = 9,       /* the bytes per scan are not those of the channels; in a code 80xx, the samples of a scan are not as many as in
                            scan type 1; first: the first such scan type */
    SEGD_SKEW = 10,      /* the skew fields are neither none nor as many as the samples of a scan need */
    /* questions */
    SEGD_INDEX = 11,     /* no such scan type, set, channel, subscan or sample; T of 2^24 or more; a word or c wider than its code's */
    SEGD_SHEET = 12,     /* the crew's sheet is used, and has not S/S bytes for each scan type */
    /* the body: 14 to 18, 24 and 25 stop it, and first is the place of the byte (of a block end: how many bytes came before); of FOUR,
       which stops a body of traces, third is */
    SEGD_ROOM = 13,      /* `out` has less than two numbers for each byte; nothing is read, the state is as it was */
    SEGD_LONG = 14,      /* a byte at place 4,294,967,295 */
    SEGD_BLOCK = 15,     /* a block end in a scan, on an empty block or after a wrong number of scans; a byte past a block's last scan
                            or past the end of a one-block body. Of traces: a block end in a trace header or on an empty block; a byte
                            or a block end past the last trace */
    SEGD_SYNC = 16,      /* a start byte of a scan is wrong: not FF FF FF and a byte whose last two bits are 01 */
    SEGD_TIMING = 17,    /* byte 8 of a scan is not zero, or T is not the last T plus 16 I (from 2^24 on it starts again); told at byte 8 */
    SEGD_PHASE = 18,     /* the scan type's bit DP is set in the first scan, or flips past the last scan type; told at byte 4 */
    /* closing */
    SEGD_PART = 19,      /* the body ends inside a scan; of traces, inside a trace header, a word or in 8015 a group of four samples */
    SEGD_OPEN = 20,      /* bytes after the last block end */
    SEGD_MISSING = 21,   /* fewer scan types than the header announces; of traces, fewer traces than it announces, or it announces none */
    /* others */
    SEGD_LARGE = 22,     /* no call gives it: for a program that lends its header blocks a limited buffer, as the lister does */
    SEGD_STATE = 23,     /* the state handed in is unfit, for the block that is lent with it too; nothing is changed */
    /* bodies of traces, which these stop */
    SEGD_TRACE = 24,     /* a byte of a trace header is not what it has to be (see segd_trace_portion) */
    SEGD_COUNT = 25      /* at a block end: bytes are left over after the trace's samples, or these are not scans x 2^(S/C), or there is no
                            scan, or there are not as many as in the first trace of its scan type */
};

/* A refusal in numbers. All 0 where nothing is refused; a value is 0 where the list above names none. */
typedef struct {
    uint32_t number;
    uint32_t first;
    uint32_t second;
    uint32_t third; /* 0 but where FOUR stops a body: the place */
} SegdTold;

/* ---- Formats and words ---- */

/* How negatives are kept. */
enum {
    SEGD_ONES_COMPLEMENT = 1, /* 0015, 0022, 0024 and 8015, 8022, 8024: the fraction is complemented */
    SEGD_SIGN_MAGNITUDE = 2,  /* 0042, 0044 and 8042, 8044: a sign beside the fraction */
    SEGD_JUSTIFIED = 3        /* 0048 and 8048: the same, the fraction left justified in hexadecimal digits */
};

typedef struct {
    uint8_t found;     /* 1; or 0, and so is all else: there is no such code */
    uint8_t kind;      /* how negatives are kept */
    uint32_t width;    /* bits of a sample on tape; in 0015 and 8015 20, of which 4 stand apart */
    uint32_t apart;    /* those of them that are an exponent apart from the word */
    uint32_t fraction; /* fraction bits */
    uint32_t base;     /* what one more in the exponent adds to X: 1 binary, 2 quaternary, 4 hexadecimal */
    uint32_t exponent; /* exponent bits */
    uint32_t bias;     /* what is taken from an exponent first */
} SegdFormat;

/* The row of a format code, its sixteen bits as on tape (0x0022). It refuses nothing; all twelve codes are found, the 80xx too. */
SegdFormat segd_format(uint16_t code);

typedef struct {
    SegdTold refusal;
    int32_t m;   /* the sample is m x 2^x */
    int32_t x;
    uint8_t off; /* 1: the word is off rule; it is read all the same */
} SegdWord;

/*
 * The sample of one word, in the low bits of `word`. `c` is the exponent that stands apart: 4 bits in 0015 and 8015, where the word is
 * the 16 bits after it; in the other codes 0. A word of a code 80xx is read as one of the code without the 8, save that 8015 has 15 bits
 * of fraction where 0015 has 14 and a bit that is not used: X is c - 15, and FFFF alone is off rule.
 * Refuses, with m, x and off 0: FORMAT 2, INDEX 11 (the word or c is wider than its code's), in this order.
 */
SegdWord segd_read_word(uint16_t code, uint32_t c, uint32_t word);

typedef struct {
    uint8_t found; /* 1; or 0, and so is the value: a half of the byte is above 9 */
    uint8_t value; /* 0 to 99 */
} SegdPair;

/* The number of a packed digit pair: 0x99 is 99. It refuses nothing. */
SegdPair segd_packed(uint8_t byte);

/* ---- The header block ---- */

/* The general header. The constants, bytes 5 to 10, are handed out by segd_constants. */
typedef struct {
    uint16_t file;             /* 1-2: 0 to 9999 */
    uint16_t code;             /* 3-4: the format code's sixteen bits */
    uint8_t year;              /* 11: 0 to 99 */
    uint16_t day;              /* 12-13: 1 to 366 */
    uint8_t hour;              /* 14 */
    uint8_t minute;            /* 15 */
    uint8_t second;            /* 16 */
    uint8_t manufacturer;      /* 17 */
    uint16_t serial;           /* 18-19 */
    uint32_t bytes_per_scan;   /* 20-22: B; 0 in the codes 80xx, which have no scans on tape */
    uint8_t interval;          /* 23: I, the base scan interval in 1/16 ms: 1, 2, 4, .. 128 */
    uint8_t polarity;          /* 24, upper half: the paper's code */
    uint8_t block_exponent;    /* 24, lower half: S/BX */
    uint8_t block_scans;       /* 25: S/B; a block holds S/B x 2^S/BX scans; S/B 0: the body is one block */
    uint8_t record_type;       /* 26, upper half: the paper's code */
    uint16_t record_length;    /* 26, lower half, and 27: three digits, in 0.1024 s; 0: not determined */
    uint8_t scan_types;        /* 28: ST/R, 1 to 99 */
    uint8_t channel_sets;      /* 29: CS, the sets of each scan type, 1 to 99 */
    uint8_t skew_fields;       /* 30: SK, in 32 bytes for each scan type; 0: skew is not recorded */
    uint8_t extended_fields;   /* 31: EC, in 32 bytes */
    uint8_t external_fields;   /* 32: EX, in 32 bytes */
    uint32_t samples_per_scan; /* S/S, by the descriptors: channels x 2^(S/C), summed; in the codes 80xx up to 506,829,312 */
} SegdGeneral;

typedef struct {
    SegdTold refusal;
    SegdGeneral header;
} SegdHeader;

/*
 * The header block's fields. `length` is that of the whole block.
 * Refuses, with all fields 0: the header's refusals, SHORT 1 to SKEW 10 but DEMUX 3, the first of them in their order.
 */
SegdHeader segd_read_header(const uint8_t *block, size_t length);

/* A channel set descriptor. */
typedef struct {
    uint16_t start;           /* 3-4: in 2 ms */
    uint16_t end;             /* 5-6: in 2 ms */
    int32_t descale;          /* 8: MP in quarters, -127 to 127: the set's samples are descaled by 2^(MP / 4) to millivolts */
    uint16_t channels;        /* 9-10: 0 to 9999; 0: a dummy set */
    uint8_t channel_type;     /* 11, upper half: the paper's code */
    uint8_t subscan_exponent; /* 12, upper half: S/C; each channel has 2^(S/C) samples in a scan */
    uint8_t gain;             /* 12, lower half: the paper's code */
    uint16_t alias_frequency; /* 13-14: in Hz */
    uint16_t alias_slope;     /* 15-16: in dB per octave; 0: the filter is out */
    uint16_t low_cut;         /* 17-18: in Hz */
    uint16_t low_cut_slope;   /* 19-20: in dB per octave; 0: the filter is out */
    uint16_t first_notch;     /* 21-22: in 0.1 Hz; 0: the filter is out */
    uint16_t second_notch;    /* 23-24: likewise */
    uint16_t third_notch;     /* 25-26: likewise */
} SegdSet;

typedef struct {
    SegdTold refusal;
    SegdSet set;
} SegdChannelSet;

/*
 * The descriptor of a channel set.
 * Refuses, with all fields 0: the header's 1 to 10; INDEX 11 (no such scan type or set).
 */
SegdChannelSet segd_descriptor(const uint8_t *block, size_t length, uint32_t scan_type, uint32_t set);

/* ---- Where samples stand ---- */

/* In a scan the sets follow in order; in a set the subscans from 0; in a subscan the channels from 1. */

typedef struct {
    SegdTold refusal;
    uint32_t k;
} SegdIndex;

/*
 * Which sample of a scan, k, a set's channel and subscan is.
 * Refuses, with k 0: the header's 1 to 10; INDEX 11 (no such scan type, set, channel or subscan).
 */
SegdIndex segd_sample_index(const uint8_t *block, size_t length, uint32_t scan_type, uint32_t set, uint32_t channel,
                            uint32_t subscan);

typedef struct {
    SegdTold refusal;
    uint32_t set;
    uint32_t channel;
    uint32_t subscan;
} SegdPlace;

/*
 * The set, channel and subscan of sample k of a scan.
 * Refuses, with all three 0: the header's 1 to 10; INDEX 11 (no such scan type, or k is S/S or more).
 */
SegdPlace segd_sample_place(const uint8_t *block, size_t length, uint32_t scan_type, uint32_t k);

/* ---- Parts of the block ---- */

typedef struct {
    SegdTold refusal;
    uint64_t offset; /* the part begins at block + offset */
    uint64_t length; /* and has so many bytes, all of them inside the block */
} SegdPart;

/* The constants, bytes 5-10 of the general header. Refuses, with offset and length 0: the header's 1 to 10. */
SegdPart segd_constants(const uint8_t *block, size_t length);

/* The extended header; it may be empty. Refuses, with offset and length 0: the header's 1 to 10. */
SegdPart segd_extended(const uint8_t *block, size_t length);

/* The external header; it may be empty. Refuses, with offset and length 0: the header's 1 to 10. */
SegdPart segd_external(const uint8_t *block, size_t length);

/* ---- Skew and time ---- */

/*
 * Where the header has no skew fields (SK 0), skew bytes come from the crew's sheet, lent beside the block: S/S bytes for each scan
 * type, in order. Where it has them the sheet is not looked at, and may have any length; lend any pointer but null.
 */

typedef struct {
    SegdTold refusal;
    uint8_t of_sheet; /* 1: the bytes stand in the sheet; 0: in the block */
    uint64_t offset;  /* there they begin, */
    uint64_t length;  /* and are so many: S/S, without padding */
} SegdSkew;

/*
 * The skew bytes of a scan type.
 * Refuses, with of_sheet, offset and length 0: the header's 1 to 10; INDEX 11 (no such scan type); SHEET 12.
 */
SegdSkew segd_skew(const uint8_t *block, size_t block_length, const uint8_t *sheet, size_t sheet_length, uint32_t scan_type);

typedef struct {
    SegdTold refusal;
    uint8_t value; /* in 1/256 of the base scan interval */
} SegdByte;

/*
 * The skew byte of sample k.
 * Refuses, with value 0: the header's 1 to 10; INDEX 11 (no such scan type, or k is S/S or more); SHEET 12.
 */
SegdByte segd_skew_at(const uint8_t *block, size_t block_length, const uint8_t *sheet, size_t sheet_length, uint32_t scan_type,
                      uint32_t k);

typedef struct {
    SegdTold refusal;
    uint32_t time; /* in 1/4096 ms: 16 T + skew byte x I */
} SegdTime;

/*
 * The time of sample k in a scan whose timing word is t, in 1/256 ms.
 * Refuses, with time 0: the header's 1 to 10; INDEX 11 (no such scan type, k is S/S or more, or t is 2^24 or more); SHEET 12.
 */
SegdTime segd_sample_time(const uint8_t *block, size_t block_length, const uint8_t *sheet, size_t sheet_length, uint32_t scan_type,
                          uint32_t k, uint32_t t);

/* ---- The body ---- */

/* What the header says of the body. */
typedef struct {
    uint16_t code;    /* the format code */
    uint32_t scan;    /* B, the bytes of a scan */
    uint32_t advance; /* from one timing word to the next: 16 I in the top three bytes */
    uint32_t types;   /* ST/R */
    uint32_t block;   /* scans of a block; 0: the body is one block */
} SegdShape;

/* What the starts of the scans told so far. */
typedef struct {
    uint32_t timing; /* the last T, in the top three bytes */
    uint32_t seen;   /* scan types so far */
    uint32_t itb;    /* ITB of the first scan */
    uint32_t twi;    /* 1 once a scan had TWI set */
    uint32_t window; /* T of the first such scan, in the top three bytes */
} SegdTrack;

/*
 * Where the reading of a body stands: numbers only, to be kept, copied or stored as you like, read freely, and handed to the next
 * call. A call takes a state whose numbers are in range (`fit` in crates/scan/src/lib.rt) and refuses every other by STATE 23. That
 * is no seal: a state that was made up in range is read on as it stands, within the bytes and the room that are lent.
 */
typedef struct {
    SegdShape shape;
    uint32_t place;     /* bytes so far */
    uint32_t ends;      /* block ends so far */
    uint32_t off;       /* off-rule words so far */
    SegdTrack track;
    uint32_t held;      /* the last four bytes */
    uint32_t exponents; /* the exponents of the present group of 0015 */
    uint32_t stop;      /* 0, or the refusal that stopped the body, 14 to 18 */
    uint32_t stopat;    /* and its place */
} SegdState;

/* Where the reading of a body of traces stands: as SegdState, but fit for a block. What makes it so is said at segd_trace_portion. */
typedef struct {
    uint16_t code;      /* the format code */
    uint32_t place;     /* bytes so far */
    uint32_t ends;      /* block ends so far, which is the number of the present trace */
    uint32_t at;        /* bytes of the present trace so far, its header among them */
    uint32_t samples;   /* samples so far */
    uint32_t off;       /* off-rule words so far */
    uint32_t present;   /* scans of the scan type of the trace that ended last */
    uint32_t scans;     /* scans of all scan types whose first trace has ended */
    uint32_t held;      /* the last four bytes */
    uint32_t exponents; /* the exponents of the present group of 8015 */
    uint32_t stop;      /* 0, or the refusal that stopped the body: 8, 14, 15, 24 or 25 */
    uint32_t stopat;    /* and its place */
} SegdTraces;

/* What the body of an accepted header is made of. */
enum {
    SEGD_SCANS = 1, /* a multiplexed record, 00xx: scans, for segd_portion, segd_block_end and segd_close */
    SEGD_TRACES = 2 /* a demultiplexed one, 80xx: traces, for segd_trace_portion, segd_trace_end and segd_trace_close */
};

typedef struct {
    SegdTold refusal;
    uint8_t kind;      /* 0 where refused */
    SegdState state;   /* before the first byte of a body of scans; else all 0 */
    SegdTraces traces; /* before the first byte of a body of traces; else all 0 */
} SegdOpened;

/*
 * Opens the body of a header block, and says of what kind it is. The state of the other kind is all 0.
 * Refuses: the header's 1 to 10. The kind is then 0 and both states are all 0. Every call on a state that is all 0 answers STATE 23,
 * a call on traces after the refusals of the block that is lent with it.
 */
SegdOpened segd_open(const uint8_t *block, size_t length);

/* How a portion or a block end went. */
enum {
    SEGD_GOING_ON = 0, /* all was taken */
    SEGD_STOPPED = 1,  /* the body stopped here or earlier: 14 to 18; of traces 8, 14, 15, 24 or 25 */
    SEGD_REFUSED = 2   /* the call is refused, 13 or 23, of traces also 1 to 10; the state is the one handed in, nothing is stopped */
};

typedef struct {
    SegdState state;  /* for the next call */
    uint32_t outcome; /* going on, stopped, refused */
    SegdTold refusal; /* why; all 0 where it goes on */
    uint64_t samples; /* the samples that this call wrote: the first 2 x samples numbers of `out` */
} SegdGave;

/*
 * Takes the body's next `length` bytes. Each sample whose last byte is among them is written to `out`, M and then X; `out` past them
 * is untouched. `room` is how many numbers `out` has: 2 x length or more. Where the bytes are cut makes no difference to the samples,
 * to a stop or to the report. A portion of no bytes is a portion.
 * Refuses STATE 23; then answers an earlier stop again; then refuses ROOM 13: each time with the state as it was, samples 0 and `out`
 * untouched. Then it stops at the first byte that is LONG 14, BLOCK 15, SYNC 16, PHASE 18 or TIMING 17, looked for in this order at
 * each byte; the samples completed before that byte are written.
 */
SegdGave segd_portion(SegdState state, const uint8_t *bytes, size_t length, int32_t *out, size_t room);

/*
 * Says that a block of the body ends here. One is due after each block, the last too. `samples` is 0.
 * Refuses STATE 23; then answers an earlier stop again: each time with the state as it was. Then it stops by BLOCK 15 where no end is
 * due: in a scan, on an empty block or after a wrong number of scans.
 */
SegdGave segd_block_end(SegdState state);

typedef struct {
    SegdTold refusal;
    uint32_t scans;        /* of traces: those of each scan type, summed; the traces of a scan type have them in common */
    uint32_t off;          /* off-rule words */
    uint64_t samples;
    uint32_t last_type;    /* the scan type of the last scan or trace */
    uint32_t itb_known;    /* 1 in every report on scans, which has a first one to tell ITB; 0 of traces and where the closing is refused */
    uint32_t itb;          /* ITB of the first scan: 1 or 0 */
    uint32_t window_known; /* 1; or 0: no scan had TWI set, or the body is one of traces */
    uint32_t window;       /* T of the first scan that had, in 1/256 ms */
} SegdClosing;

/*
 * The report on a body that ends here. It changes nothing and may be asked for at any time.
 * Refuses, with the report all 0: STATE 23; an earlier stop, 14 to 18, with its place; PART 19; OPEN 20; MISSING 21.
 */
SegdClosing segd_close(SegdState state);

/* ---- A body of traces ---- */

/*
 * The traces follow by scan type, in each by set, in each by channel from 1; a set of 0 channels has none. Each is a block: a trace
 * header of 20 bytes, then the channel's samples. `block` and `block_length` are the header block that was opened, the same at every
 * call. A state is fit for that block, else it is refused by STATE 23, where all of this holds:
 *   code is the block's, one of the codes 80xx;        ends is not above the traces of the record;
 *   at <= place; ends and scans <= place - at;         present, samples, off and stopat <= place;
 *   exponents <= 65535;                                stop is 0, 8, 14, 15, 24 or 25.
 * As above, that is no seal.
 */

typedef struct {
    SegdTraces state; /* for the next call */
    uint32_t outcome; /* going on, stopped, refused */
    SegdTold refusal; /* why; all 0 where it goes on */
    uint64_t samples; /* the samples that this call wrote: the first 2 x samples numbers of `out` */
} SegdTraceGave;

/*
 * Takes the body's next `length` bytes, as segd_portion does: the same is true of `out`, of `room` and of where the bytes are cut. A
 * sample of 8015 is written when its own last byte arrives: bytes 4, 6, 8 and 10 of a group of ten.
 * Refuses the refusals of `block`, 1 to 10; then STATE 23; then answers an earlier stop again; then refuses ROOM 13: each time with the
 * state as it was, samples 0 and `out` untouched. Then it stops at the first byte that is LONG 14, BLOCK 15 or TRACE 24, looked for in
 * this order at each byte; the samples completed before that byte are written. TRACE is a byte of a trace header that is not as follows:
 *   1-2, 3, 4, 5-6    the file number, the scan type, the set and the channel, in digits
 *   11                where skew is recorded the channel's, of its subscan 0; else it is not looked at
 *   10, 12, 16-20     zero
 *   7-9, 13-15        not looked at: timing and window
 */
SegdTraceGave segd_trace_portion(const uint8_t *block, size_t block_length, SegdTraces state, const uint8_t *bytes, size_t length,
                                 int32_t *out, size_t room);

/*
 * Says that a trace's block ends here. One is due after each trace, the last too. `samples` is 0.
 * Refuses the refusals of `block`, 1 to 10; then STATE 23; then answers an earlier stop again: each time with the state as it was. Then
 * it stops by BLOCK 15 (fewer than 20 bytes of a trace, or there is no such trace), FOUR 8 (in 8015, the samples do not divide by 4) or
 * COUNT 25, looked for in this order.
 */
SegdTraceGave segd_trace_end(const uint8_t *block, size_t block_length, SegdTraces state);

/*
 * The report on a body of traces that ends here. It changes nothing and may be asked for at any time.
 * Refuses, with the report all 0: the refusals of `block`, 1 to 10; STATE 23; an earlier stop, with its values; PART 19; OPEN 20;
 * MISSING 21.
 */
SegdClosing segd_trace_close(const uint8_t *block, size_t block_length, SegdTraces state);

typedef struct {
    SegdTold refusal;
    uint32_t scan_type;
    uint32_t set;
    uint32_t channel;
    uint32_t scan;    /* of the scan type's scans */
    uint32_t subscan;
} SegdTracePlace;

/*
 * Whose sample a sample of a trace is: sample % 2^(S/C) is the subscan, and sample / 2^(S/C) the scan. How many scans a trace has is not
 * asked, so `sample` may be any number.
 * Refuses, with all five 0: the header's 1 to 10; INDEX 11 (the record is multiplexed, or has no such trace).
 */
SegdTracePlace segd_trace_place(const uint8_t *block, size_t block_length, uint32_t trace, uint32_t sample);

#ifdef __cplusplus
}
#endif

#endif
