/* Plain C for comparison: what a good C programmer writes for the same job. */
#ifndef BASELINE_H
#define BASELINE_H

#include <stddef.h>
#include <stdint.h>

/* The longest listing of a sheet of at most 32,768 bytes: 4,681 words of 25 characters and the total. */
#define BASELINE_TEXT_MAX 117046

enum baseline_status { BASELINE_FAILURE, BASELINE_NODATA, BASELINE_TEST, BASELINE_READY };

/* An accepted word. `label` is the number written in octal. `code` is the marker (0 none, 1 outer, 2 middle, 3 inner), the
   category, or the marks of the label (its lowest bit number lowest). `value` is the count, the frequency in tens of kHz,
   the degrees, the tenths, or bits 14-29 of a part. The status of a part is 0. */
struct baseline_record {
    uint8_t label;
    uint8_t source;
    uint8_t status;
    uint8_t code;
    int32_t value;
};

/* The words of a sheet for one label and source: theirs by status, the refused ones, those of other labels or sources, all; and
   over the ready ones the least and greatest count, 0 where there is none, and the sum of counts. */
struct baseline_summary {
    uint32_t by_status[4];
    uint32_t refused;
    uint32_t other;
    uint32_t words;
    int32_t least;
    int32_t greatest;
    int64_t sum;
};

/* Each gives 0 or the refusal number; after a refusal nothing but an offset is written. */
int baseline_decode(uint32_t word, struct baseline_record *record);
int baseline_code(uint8_t label, uint8_t source, int64_t millionths, uint32_t *word);
/* The reason is 1 to 9. */
int baseline_explain(uint32_t word, int64_t millionths, uint8_t *reason);
/* The offset is 0 for a legal sheet. */
int baseline_check(const uint8_t *sheet, size_t length, size_t *offset);
/* 13 if the text is longer than the room. A refused sheet has its line as text, and the answer is 0. */
int baseline_list(const uint8_t *sheet, size_t length, char *text, size_t room, size_t *used);
/* The offset is 0 but for the sheet's own refusal. */
int baseline_summarize(const uint8_t *sheet, size_t length, uint8_t label, uint8_t source, struct baseline_summary *summary,
                       size_t *offset);
/* A page of words: the refusal and the count of each, 0 where it has none. 13 if a list is shorter than the words. */
int baseline_decode_page(const uint32_t *words, size_t length, uint8_t *refusals, size_t refusals_room, int16_t *counts,
                         size_t counts_room);

#endif
