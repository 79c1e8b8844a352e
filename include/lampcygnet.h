/*
 * Lampcygnet: words of the GOST 18977 / ARINC 429 bus from VOR, ILS and MLS receivers, and the archive's sheets of words, figures and notes.
 *
 * Every function takes any numbers, ends, keeps no state and allocates nothing. An answer is a structure by value whose field `refusal` is 0, or one of
 * enum lampcygnet_refusal; beside a refusal every other field is 0 unless it is said what it is. Functions may be called from several threads at once.
 *
 * Bytes are passed as a pointer and a length: the bytes must be there, for the whole call; the pointer may be null where the length is 0. A buffer that
 * is written is named `out`, with its length `room`; it must not overlap the bytes that are read. A page's words and its two lists are passed likewise,
 * in elements: each list has its own room, and overlaps neither the words nor the other list. No other memory is written, and beside a refusal none at
 * all.
 *
 * C99, and C++ from C++98 with <stdint.h> and <stdbool.h> at hand. Link with the static library.
 */
#ifndef LAMPCYGNET_H
#define LAMPCYGNET_H

#include <stdbool.h>
#include <stddef.h>
#include <stdint.h>

#ifdef __cplusplus
extern "C" {
#endif

/* ---- Refusals ---- */

/* Why an input is refused: the number in every field `refusal`. */
enum lampcygnet_refusal {
    LAMPCYGNET_ACCEPTED = 0,
    LAMPCYGNET_REFUSED_PARITY = 1,       /* the ones are even in number */
    LAMPCYGNET_REFUSED_LABEL = 2,        /* no such label or kind, or none that is wanted here */
    LAMPCYGNET_REFUSED_ZERO_BIT = 3,     /* a zero bit is one */
    LAMPCYGNET_REFUSED_CODE = 4,         /* a code or a source outside its list, or two sources where one is needed */
    LAMPCYGNET_REFUSED_DIGIT = 5,        /* a decimal digit above 9 */
    LAMPCYGNET_REFUSED_VALUE = 6,        /* a value that is not legal */
    LAMPCYGNET_REFUSED_ANGLE_PARITY = 7, /* bit 28 of label 154 is wrong */
    LAMPCYGNET_REFUSED_REACH = 8,        /* a figure out of reach, or no reading where one is needed */
    LAMPCYGNET_REFUSED_TRUNCATED = 9,    /* a field is cut short */
    LAMPCYGNET_REFUSED_TAG = 10,         /* unknown tag */
    LAMPCYGNET_REFUSED_LENGTH = 11,      /* the length is wrong for the tag */
    LAMPCYGNET_REFUSED_DEPTH = 12,       /* a group at depth 4 */
    LAMPCYGNET_REFUSED_ROOM = 13,        /* no room in the buffer */
    LAMPCYGNET_REFUSED_SEQUENCE = 14,    /* a part out of sequence */
    LAMPCYGNET_REFUSED_OVERSIZE = 15     /* a sheet above 32,768 bytes */
};

/* ---- Words and records ---- */

/* What a word is about, in the order of the table of labels. */
enum lampcygnet_kind {
    LAMPCYGNET_KIND_NONE = 0,                   /* beside a refusal */
    LAMPCYGNET_KIND_VOR_AZIMUTH = 1,            /* 222: status, marker, count of 45/1024 degree */
    LAMPCYGNET_KIND_VOR_FREQUENCY = 2,          /* 034: status, value in tens of kHz, a channel under ready and test */
    LAMPCYGNET_KIND_ILS_COURSE = 3,             /* 173: status, inhibit, count of 1/10240 of modulation depth difference */
    LAMPCYGNET_KIND_ILS_GLIDE = 4,              /* 174: status, inhibit, count of 1/5120 of modulation depth difference */
    LAMPCYGNET_KIND_ILS_FREQUENCY = 5,          /* 033: status, category, value in tens of kHz, a channel under ready and test */
    LAMPCYGNET_KIND_MLS_FREQUENCY = 6,          /* 036: status, value in tens of kHz */
    LAMPCYGNET_KIND_MLS_AZIMUTH_DEVIATION = 7,  /* 151: status, inhibit, clearance, count of 75/1024 mV */
    LAMPCYGNET_KIND_MLS_GLIDE_DEVIATION = 8,    /* 152: status, inhibit, clearance, count of 75/1024 mV */
    LAMPCYGNET_KIND_SELECTED_AZIMUTH = 9,       /* 153: status, manual, value in degrees */
    LAMPCYGNET_KIND_GREATEST_GLIDE_ANGLE = 10,  /* 154: status, value in tenths of a degree */
    LAMPCYGNET_KIND_SELECTED_GLIDE_ANGLE = 11,  /* 155: status, manual, value in tenths of a degree */
    LAMPCYGNET_KIND_PART_1 = 12,                /* 140: word_number, value of 8 bits */
    LAMPCYGNET_KIND_PART_2 = 13,                /* 141: value of 16 bits */
    LAMPCYGNET_KIND_PART_3 = 14,                /* 142: value of 16 bits */
    LAMPCYGNET_KIND_PART_4 = 15                 /* 143: parity_good, value of 16 bits */
};

/* The status (SSM) of a word. A frequency has no code for failure. */
enum lampcygnet_status {
    LAMPCYGNET_STATUS_NONE = 0, /* in the parts of group C */
    LAMPCYGNET_STATUS_FAILURE = 1,
    LAMPCYGNET_STATUS_NODATA = 2,
    LAMPCYGNET_STATUS_TEST = 3,
    LAMPCYGNET_STATUS_READY = 4
};

/* The marker beacon of a VOR azimuth: bits 11 to 13. */
enum lampcygnet_marker {
    LAMPCYGNET_MARKER_NONE = 0,
    LAMPCYGNET_MARKER_OUTER = 1,
    LAMPCYGNET_MARKER_MIDDLE = 2,
    LAMPCYGNET_MARKER_INNER = 4
};

/* The category of an ILS frequency: bits 11 and 12. */
enum lampcygnet_category {
    LAMPCYGNET_CATEGORY_NOT_STATED = 0,
    LAMPCYGNET_CATEGORY_I = 1,
    LAMPCYGNET_CATEGORY_II = 2,
    LAMPCYGNET_CATEGORY_III = 3
};

/* A record. Which fields a kind has is told at enum lampcygnet_kind; every other field is 0. */
struct lampcygnet_record {
    uint8_t refusal;     /* enum lampcygnet_refusal */
    uint8_t kind;        /* enum lampcygnet_kind */
    uint8_t source;      /* 0 to 3 (SDI) */
    uint8_t status;      /* enum lampcygnet_status */
    uint8_t marker;      /* enum lampcygnet_marker */
    uint8_t category;    /* enum lampcygnet_category */
    uint8_t inhibit;     /* 0 or 1: test or retune inhibit */
    uint8_t clearance;   /* 0 or 1 */
    uint8_t manual;      /* 0 or 1: set by hand */
    uint8_t parity_good; /* 0 or 1: the parity of the group was good */
    uint8_t word_number; /* 0 to 255 */
    int16_t count;
    uint32_t value;
};

/* A word, or 0 beside a refusal. */
struct lampcygnet_word {
    uint8_t refusal; /* enum lampcygnet_refusal */
    uint32_t word;
};

/*
 * The record of a word. It keeps what its bits say under every status. Refused in the order 1, 2, 3, 5, 4, 6, 7.
 * The record of an accepted word is encoded to that word.
 */
struct lampcygnet_record lampcygnet_decode(uint32_t word);

/*
 * The word of a record. Refused 2 where `kind` is not from 1 to 15, else 4 where a code of the kind or the source is outside its list, else 6
 * where another field of the kind is not legal, as a flag above 1 or a VOR frequency of 178.33 MHz that is ready. `refusal` and the fields that the kind has not are not looked at; the word's record has 0 there.
 */
struct lampcygnet_word lampcygnet_encode(struct lampcygnet_record fields);

/*
 * A page of words at once: into one list the refusal of each word, 0 if it is accepted, into the other the count of its record, 0 where there is none,
 * both as lampcygnet_decode gives them. Elements past the last word are left as they were. The answer is the refusal of the call: 13 where a list is
 * shorter than the words, else 0; a refused word is an answer in the list.
 */
uint8_t lampcygnet_decode_page(const uint32_t *words, size_t length, uint8_t *refusals, size_t refusals_room, int16_t *counts, size_t counts_room);

/* ---- Readings and the chart point ---- */

/* Whether a word shows a reading. */
enum lampcygnet_shown {
    LAMPCYGNET_SHOWN_NONE = 0, /* under failure and nodata, and in the parts of group C */
    LAMPCYGNET_SHOWN_READY = 1,
    LAMPCYGNET_SHOWN_TEST = 2
};

/* What a reading is in. */
enum lampcygnet_unit {
    LAMPCYGNET_UNIT_NONE = 0,
    LAMPCYGNET_UNIT_DEGREES = 1,              /* `value`: VOR azimuth, exactly count x 45 / 1024 */
    LAMPCYGNET_UNIT_DEPTH_DIFFERENCE = 2,     /* `value`: ILS course or glide, one division of the count by 10240 or 5120 */
    LAMPCYGNET_UNIT_MILLIVOLTS = 3,           /* `value`: MLS deviation, exactly count x 75 / 1024 */
    LAMPCYGNET_UNIT_TENS_OF_KHZ = 4,          /* `whole`: a frequency */
    LAMPCYGNET_UNIT_SELECTED_DEGREES = 5,     /* `whole` and `manual`: the selected azimuth */
    LAMPCYGNET_UNIT_GREATEST_TENTHS = 6,      /* `whole`: the greatest glide angle, in tenths of a degree */
    LAMPCYGNET_UNIT_SELECTED_TENTHS = 7       /* `whole` and `manual`: the selected glide angle, in tenths of a degree */
};

/* A reading. The field that its unit does not name is 0. */
struct lampcygnet_reading {
    uint8_t refusal; /* enum lampcygnet_refusal */
    uint8_t shown;   /* enum lampcygnet_shown */
    uint8_t unit;    /* enum lampcygnet_unit */
    uint8_t manual;  /* 0 or 1: set by hand */
    int64_t whole;
    double value;
};

/* The course and glide deviations together, in modulation depth difference. */
struct lampcygnet_point {
    uint8_t refusal; /* enum lampcygnet_refusal */
    double course;
    double glide;
};

/* The reading of a word: there is one exactly under ready and test. Refused as decoding refuses the word. */
struct lampcygnet_reading lampcygnet_reading_of(uint32_t word);

/*
 * The chart point of a course word (label 173) and a glide word (174). Refused by the first word's number, the second's, 2 if they are not such
 * words in this order, 4 if their sources differ, 8 if one has no reading.
 */
struct lampcygnet_point lampcygnet_chart_point(uint32_t course, uint32_t glide);

/* ---- Figures ---- */

/* A figure in whole millionths of a degree (222), of modulation depth difference (173, 174) or of a millivolt (151, 152). */
struct lampcygnet_millionths {
    uint8_t refusal; /* enum lampcygnet_refusal */
    int64_t millionths;
};

/*
 * The word that a figure in millionths is coded to: of that label (a number, 0222 in C) and source, status ready, with the nearest legal count,
 * an even one where two are equally near, and every other field 0. Refused 2 where the label has no measured quantity, 4 where the source is
 * above 3, 8 where the figure is out of reach.
 */
struct lampcygnet_word lampcygnet_code_figure(uint32_t label, uint32_t source, int64_t millionths);

/*
 * The figure that a count of a label is printed as: its exact value, rounded to the nearest millionth, a tie to the even one. It is coded back to
 * that count. Refused 2 where the label has no measured quantity, 6 where the label's 13 or 16 bits do not hold the count.
 */
struct lampcygnet_millionths lampcygnet_print_count(uint32_t label, int64_t count);

/*
 * Whether a figure in millionths agrees with a word: it is coded, under the word's label and source, to the word's count. None agrees with a word
 * that is refused or has no measured quantity.
 */
bool lampcygnet_agrees(uint32_t word, int64_t millionths);

/* What a figure has to do with a word, in the order in which it is looked for. */
enum lampcygnet_reason {
    LAMPCYGNET_REASON_NONE = 0,           /* beside a refusal */
    LAMPCYGNET_REASON_AGREES = 1,         /* the figure agrees */
    LAMPCYGNET_REASON_TENTH = 2,          /* a tenth of it agrees: a whole number of millionths, as the next two */
    LAMPCYGNET_REASON_HUNDREDTH = 3,      /* a hundredth of it agrees */
    LAMPCYGNET_REASON_THOUSANDTH = 4,     /* a thousandth of it agrees */
    LAMPCYGNET_REASON_TEN_TIMES = 5,      /* ten times it agrees: a figure that 64 bits hold, as the next three */
    LAMPCYGNET_REASON_HUNDRED_TIMES = 6,  /* a hundred times it agrees */
    LAMPCYGNET_REASON_THOUSAND_TIMES = 7, /* a thousand times it agrees */
    LAMPCYGNET_REASON_OTHER_SIGN = 8,     /* the figure with the other sign agrees */
    LAMPCYGNET_REASON_NONE_OF_THESE = 9   /* none of these agrees */
};

/* A reason, or 0 beside a refusal. */
struct lampcygnet_explained {
    uint8_t refusal; /* enum lampcygnet_refusal */
    uint8_t reason;  /* enum lampcygnet_reason */
};

/*
 * Why a figure in millionths and a word disagree: the first reason that holds. Refused as decoding refuses the word, then 2 where it has no measured
 * quantity, then 8 where it has no reading.
 */
struct lampcygnet_explained lampcygnet_explain(uint32_t word, int64_t millionths);

/* ---- Reassembly of MLS auxiliary data (labels 140 to 143) ---- */

/* What is held of a group. All 0 holds nothing: start so. */
struct lampcygnet_partial {
    uint8_t parts;  /* how many parts are held, 1 to 3; any other number is none */
    uint8_t source; /* the source of the parts held */
    uint64_t bits;  /* their 16 bits each, those of part 1 lowest */
};

/* The answer to one word. `parity_good` and `bits` are 0 unless the group is complete. */
struct lampcygnet_step {
    struct lampcygnet_partial next; /* what is then held: pass it with the next word */
    uint8_t refusal;                /* enum lampcygnet_refusal */
    uint8_t complete;               /* 0 or 1: the word completes its group */
    uint8_t parity_good;            /* 0 or 1: the mark of part 4 */
    uint64_t bits;                  /* received bit j weighs 2^(j-13), j from 13 to 76 */
};

/*
 * Takes one word. Part 1 starts anew; parts 2, 3 and 4 are taken only next in sequence and from the same source, else refused 14, and what was held
 * is dropped. After part 4 nothing is held. A word that is refused 1 to 4, 2 where it is no part, leaves what is held unchanged. `next` is what is then
 * held beside a refusal too.
 */
struct lampcygnet_step lampcygnet_reassemble(struct lampcygnet_partial held, uint32_t word);

/* ---- Sheets ---- */

/* The most bytes that a sheet has, and the most that a listing has. */
#define LAMPCYGNET_SHEET_MOST 32768
#define LAMPCYGNET_LISTING_MOST 117085

/* What a field of a sheet holds: its tag. */
enum lampcygnet_tag {
    LAMPCYGNET_TAG_NONE = 0,      /* no field: at the end of the sheet, and beside a refusal */
    LAMPCYGNET_TAG_WORD = 0x10,   /* 4 bytes */
    LAMPCYGNET_TAG_FIGURE = 0x11, /* 9 bytes: the label as a number, then the millionths */
    LAMPCYGNET_TAG_NOTE = 0x12,   /* any bytes */
    LAMPCYGNET_TAG_GROUP = 0x20   /* fields, one depth further in */
};

/* A place in a sheet or in a run of fields. */
struct lampcygnet_place {
    uint8_t refusal; /* enum lampcygnet_refusal */
    size_t offset;   /* what it is the offset of is told at each function */
};

/*
 * Whether a sheet is legal. Refused 15 above LAMPCYGNET_SHEET_MOST bytes; then the first from the left, at each field 9 (header cut), 10, 9 (content
 * cut), 11, 12, then a group's inside. `offset` is that of the refused field's tag, and 0 of a legal sheet and beside 15.
 */
struct lampcygnet_place lampcygnet_check_sheet(const uint8_t *sheet, size_t length);

/* Where a walk over a sheet stands. 9, 10, 11, 12 or 15 in `refusal` is that of a refused sheet; beside any other number the place and the ends count. */
struct lampcygnet_walk {
    uint8_t refusal; /* enum lampcygnet_refusal: what the sheet is refused */
    size_t place;    /* the offset of the next field's tag, or of the refused one's */
    size_t end1;     /* the ends of the groups entered last at depth 1, 2 and 3; 0 beside a refusal */
    size_t end2;
    size_t end3;
};

/* A field of a sheet. */
struct lampcygnet_field {
    uint8_t refusal; /* enum lampcygnet_refusal: what the sheet is refused */
    uint8_t tag;     /* enum lampcygnet_tag */
    uint8_t depth;   /* 1 to 4 */
    size_t place;    /* the offset of the field's tag, or of the refused one's; 0 at the end */
    size_t length;   /* of the content, whose first byte has the offset place + 3 */
};

/* A step of a walk: the field, and where the walk then stands. */
struct lampcygnet_walked {
    struct lampcygnet_field field;
    struct lampcygnet_walk next;
};

/* The walk over a sheet from its first field. It checks the whole sheet first, so a refused sheet has no field. */
struct lampcygnet_walk lampcygnet_walk_from_start(const uint8_t *sheet, size_t length);

/*
 * One step: the next field, in the order of the tags, a group before its inside. At the end the tag is 0; after the end or the refusal of the sheet
 * each step gives the same again. A walk of another sheet, or any numbers, may be passed: a field that is given lies inside the sheet, and what is no
 * field there is refused, 9 to 12, at the walk's place.
 */
struct lampcygnet_walked lampcygnet_next_field(const uint8_t *sheet, size_t length, struct lampcygnet_walk walk);

/* The text of a note. */
struct lampcygnet_note {
    uint8_t refusal; /* enum lampcygnet_refusal */
    size_t start;    /* the offset of its first byte; beside a refusal, the offset that the refusal has */
    size_t length;   /* the number of its bytes, which lie inside the sheet */
};

/* The note whose tag stands at a place of a sheet. Refused as the sheet is, else 10 with the place asked for. */
struct lampcygnet_note lampcygnet_find_note(const uint8_t *sheet, size_t length, size_t place);

/* A figure field: the label as a number, and the millionths. */
struct lampcygnet_figure {
    uint8_t refusal; /* enum lampcygnet_refusal */
    uint8_t label;
    int64_t millionths;
};

/* The word that the content of a word field holds. Refused 11 unless it has 4 bytes. */
struct lampcygnet_word lampcygnet_word_in(const uint8_t *content, size_t length);

/* The figure that the content of a figure field holds. Refused 11 unless it has 9 bytes. */
struct lampcygnet_figure lampcygnet_figure_in(const uint8_t *content, size_t length);

/*
 * Each writes one field at a place of a buffer; `offset` is the place after it. Refused 15 with offset 0 if the field would end past
 * LAMPCYGNET_SHEET_MOST bytes, then 13 with offset 0 if it would end past the buffer. A group's run must be one that may stand inside a group at
 * depth 1: it is refused first, 9 to 12, with the offset in the run.
 */
struct lampcygnet_place lampcygnet_write_word(uint8_t *out, size_t room, size_t place, uint32_t word);
struct lampcygnet_place lampcygnet_write_figure(uint8_t *out, size_t room, size_t place, uint8_t label, int64_t millionths);
struct lampcygnet_place lampcygnet_write_note(uint8_t *out, size_t room, size_t place, const uint8_t *text, size_t length);
struct lampcygnet_place lampcygnet_write_group(uint8_t *out, size_t room, size_t place, const uint8_t *run, size_t length);

/* The length of a listing. */
struct lampcygnet_listed {
    uint8_t refusal; /* enum lampcygnet_refusal */
    size_t length;
};

/*
 * Writes the listing of a sheet: a line for each word and each figure, at last the totals; of a refused sheet one line with the refusal and its
 * offset. The text stands in the first `length` bytes of the buffer, with no zero byte after it. Refused 13 if it is longer than the buffer; one of
 * LAMPCYGNET_LISTING_MOST bytes always suffices.
 */
struct lampcygnet_listed lampcygnet_list_sheet(const uint8_t *sheet, size_t length, uint8_t *out, size_t room);

/* The words of a sheet, at every depth, summed up for one label and source. */
struct lampcygnet_summary {
    uint8_t refusal;  /* enum lampcygnet_refusal */
    size_t offset;    /* that of the sheet's refusal; 0 beside 2 and 4, and where nothing is refused */
    uint64_t ready;   /* accepted words of the label and source that are ready */
    uint64_t test;    /* those under test */
    uint64_t nodata;  /* those with no data */
    uint64_t failure; /* those under failure */
    uint64_t refused; /* refused words, of any label */
    uint64_t other;   /* accepted words of other labels or sources */
    uint64_t words;   /* all words: the six numbers before this one add up to it */
    int16_t least;    /* the least count of the ready ones; 0 where `ready` is 0 */
    int16_t greatest; /* their greatest count; 0 where `ready` is 0 */
    int64_t sum;      /* the sum of their counts; the mean is sum / ready, and there is none where `ready` is 0 */
};

/*
 * The summary of a sheet for a label (a number, 0173 in C) and a source. Refused 2 unless the label is 173, 174, 151 or 152, then 4 where the source is
 * above 3, then as the sheet is, 9 to 12 and 15, with its offset.
 */
struct lampcygnet_summary lampcygnet_summarize(const uint8_t *sheet, size_t length, uint32_t label, uint32_t source);

#ifdef __cplusplus
}
#endif

#endif
