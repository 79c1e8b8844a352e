/*
 * The word part of the library, called from C and from C++: the layout of its structures, document 01's lines, and the files of test vectors that
 * are named on the command line, line by line: words* and raster*, joins*, explain*, and any other name for figures. The words of words* and raster*
 * are also decoded in pages.
 */
#include "expect.h"
#include "lampcygnet.h"

#include <stddef.h>
#include <stdio.h>
#include <stdlib.h>
#include <string.h>

static void test_layout(void)
{
    EXPECT(sizeof(struct lampcygnet_record) == 20);
    EXPECT(offsetof(struct lampcygnet_record, word_number) == 10);
    EXPECT(offsetof(struct lampcygnet_record, count) == 12);
    EXPECT(offsetof(struct lampcygnet_record, value) == 16);
    EXPECT(sizeof(struct lampcygnet_word) == 8);
    EXPECT(offsetof(struct lampcygnet_word, word) == 4);
    EXPECT(sizeof(struct lampcygnet_reading) == 24);
    EXPECT(offsetof(struct lampcygnet_reading, whole) == 8);
    EXPECT(offsetof(struct lampcygnet_reading, value) == 16);
    EXPECT(sizeof(struct lampcygnet_point) == 24);
    EXPECT(offsetof(struct lampcygnet_point, glide) == 16);
    EXPECT(sizeof(struct lampcygnet_millionths) == 16);
    EXPECT(offsetof(struct lampcygnet_millionths, millionths) == 8);
    EXPECT(sizeof(struct lampcygnet_explained) == 2);
    EXPECT(offsetof(struct lampcygnet_explained, reason) == 1);
    EXPECT(sizeof(struct lampcygnet_partial) == 16);
    EXPECT(offsetof(struct lampcygnet_partial, bits) == 8);
    EXPECT(sizeof(struct lampcygnet_step) == 32);
    EXPECT(offsetof(struct lampcygnet_step, refusal) == 16);
    EXPECT(offsetof(struct lampcygnet_step, parity_good) == 18);
    EXPECT(offsetof(struct lampcygnet_step, bits) == 24);
}

static int is_blank(struct lampcygnet_record r)
{
    return r.kind == 0 && r.source == 0 && r.status == 0 && r.marker == 0 && r.category == 0 && r.inhibit == 0 && r.clearance == 0 && r.manual == 0
        && r.parity_good == 0 && r.word_number == 0 && r.count == 0 && r.value == 0;
}

/* A refused word has no record; an accepted one is encoded to itself. */
static struct lampcygnet_record decoded(uint32_t word)
{
    struct lampcygnet_record r = lampcygnet_decode(word);
    if (r.refusal != LAMPCYGNET_ACCEPTED) {
        EXPECT(is_blank(r));
    } else {
        struct lampcygnet_word w = lampcygnet_encode(r);
        EXPECT(w.refusal == LAMPCYGNET_ACCEPTED);
        EXPECT(w.word == word);
    }
    return r;
}

static void test_decoding(void)
{
    struct lampcygnet_record r = decoded(UINT32_C(0xE8000049));
    EXPECT(r.kind == LAMPCYGNET_KIND_VOR_AZIMUTH && r.source == 0 && r.status == LAMPCYGNET_STATUS_READY && r.count == 2048);
    r = decoded(UINT32_C(0xFC000049));
    EXPECT(r.kind == LAMPCYGNET_KIND_VOR_AZIMUTH && r.count == -1024);
    r = decoded(UINT32_C(0x640000DE));
    EXPECT(r.kind == LAMPCYGNET_KIND_ILS_COURSE && r.count == 1024);
    r = decoded(UINT32_C(0x7FFF00DE));
    EXPECT(r.kind == LAMPCYGNET_KIND_ILS_COURSE && r.count == -1);
    r = decoded(UINT32_C(0x04C80038));
    EXPECT(r.kind == LAMPCYGNET_KIND_VOR_FREQUENCY && r.value == 11320 && r.status == LAMPCYGNET_STATUS_READY);
    r = decoded(UINT32_C(0x841C0078));
    EXPECT(r.kind == LAMPCYGNET_KIND_MLS_FREQUENCY && r.value == 509070);
    r = decoded(UINT32_C(0xEB3C00D6));
    EXPECT(r.kind == LAMPCYGNET_KIND_SELECTED_AZIMUTH && r.value == 359 && r.manual == 1);
    r = decoded(UINT32_C(0x69400036));
    EXPECT(r.kind == LAMPCYGNET_KIND_GREATEST_GLIDE_ANGLE && r.value == 40);
    EXPECT(decoded(UINT32_C(0xEB4400D6)).refusal == LAMPCYGNET_REFUSED_VALUE);
    EXPECT(decoded(UINT32_C(0xE1400036)).refusal == LAMPCYGNET_REFUSED_ANGLE_PARITY);
    EXPECT(decoded(UINT32_C(0xE8000048)).refusal == LAMPCYGNET_REFUSED_PARITY);
}

/* ---- Pages ---- */

#define PAGE_MOST 2000
#define LIST (PAGE_MOST + 16)
#define PATTERN 0xA5

static uint32_t page[PAGE_MOST];
static uint8_t refusals[LIST];
static int16_t counts[LIST];

/* Decodes words of the page into lists that are filled anew and have so much room. */
static uint8_t decode_page(size_t first, size_t length, size_t refusals_room, size_t counts_room)
{
    memset(refusals, PATTERN, sizeof refusals);
    memset(counts, PATTERN, sizeof counts);
    return lampcygnet_decode_page(page + first, length, refusals, refusals_room, counts, counts_room);
}

/* Both lists stand from a place on as they were filled. */
static int are_untouched(size_t place)
{
    const uint8_t *bytes = (const uint8_t *)counts;
    size_t i;
    for (i = place; i < LIST; i++) {
        if (refusals[i] != PATTERN || bytes[2 * i] != PATTERN || bytes[2 * i + 1] != PATTERN) {
            return 0;
        }
    }
    return 1;
}

/* Each word of a page has the answer of the single call. */
static int are_single_answers(size_t first, size_t length)
{
    size_t i;
    for (i = 0; i < length; i++) {
        struct lampcygnet_record r = lampcygnet_decode(page[first + i]);
        if (refusals[i] != r.refusal || counts[i] != r.count) {
            return 0;
        }
    }
    return 1;
}

/* Words of the page into lists longer than they are, as long, and too short by one and by all. */
static void expect_page(size_t first, size_t length)
{
    EXPECT(decode_page(first, length, LIST, LIST) == LAMPCYGNET_ACCEPTED);
    EXPECT(are_single_answers(first, length) && are_untouched(length));
    EXPECT(decode_page(first, length, length, length + 1) == LAMPCYGNET_ACCEPTED);
    EXPECT(are_single_answers(first, length) && are_untouched(length));
    EXPECT(decode_page(first, length, length + 1, length) == LAMPCYGNET_ACCEPTED);
    EXPECT(are_single_answers(first, length) && are_untouched(length));
    if (length > 0) {
        EXPECT(decode_page(first, length, length - 1, LIST) == LAMPCYGNET_REFUSED_ROOM && are_untouched(0));
        EXPECT(decode_page(first, length, LIST, length - 1) == LAMPCYGNET_REFUSED_ROOM && are_untouched(0));
        EXPECT(decode_page(first, length, length - 1, length - 1) == LAMPCYGNET_REFUSED_ROOM && are_untouched(0));
        EXPECT(decode_page(first, length, 0, LIST) == LAMPCYGNET_REFUSED_ROOM && are_untouched(0));
        EXPECT(decode_page(first, length, LIST, 0) == LAMPCYGNET_REFUSED_ROOM && are_untouched(0));
    }
}

/* So many words as one page, and pages of a few of them. */
static void expect_pages(size_t length)
{
    size_t first;
    expect_page(0, length);
    for (first = 0; first < length; first++) {
        const size_t few = first % 37;
        expect_page(first, few < length - first ? few : length - first);
    }
}

/* Words that are accepted with a count, also under nodata and failure, or without one, and refused ones. */
static void test_pages(void)
{
    static const uint32_t words[8] = {UINT32_C(0x640000DE), UINT32_C(0x7FFF00DE), UINT32_C(0x640000DF), UINT32_C(0xA40000DE),
                                      UINT32_C(0x040000DE), UINT32_C(0x04C80038), UINT32_C(0xEB4400D6), UINT32_C(0xE1400036)};
    static const uint8_t refused[8] = {0, 0, LAMPCYGNET_REFUSED_PARITY, 0, 0, 0, LAMPCYGNET_REFUSED_VALUE, LAMPCYGNET_REFUSED_ANGLE_PARITY};
    static const int16_t counted[8] = {1024, -1, 0, 1024, 1024, 0, 0, 0};
    memcpy(page, words, sizeof words);
    EXPECT(decode_page(0, 8, 8, 8) == LAMPCYGNET_ACCEPTED);
    EXPECT(memcmp(refusals, refused, sizeof refused) == 0 && memcmp(counts, counted, sizeof counted) == 0 && are_untouched(8));
    expect_pages(8);
    /* no words and lists of no room, also at null pointers */
    EXPECT(decode_page(0, 0, 0, 0) == LAMPCYGNET_ACCEPTED && are_untouched(0));
    EXPECT(lampcygnet_decode_page(NULL, 0, NULL, 0, NULL, 0) == LAMPCYGNET_ACCEPTED);
    EXPECT(lampcygnet_decode_page(NULL, 0, refusals, LIST, counts, LIST) == LAMPCYGNET_ACCEPTED && are_untouched(0));
    EXPECT(lampcygnet_decode_page(page, 1, NULL, 0, counts, LIST) == LAMPCYGNET_REFUSED_ROOM && are_untouched(0));
    EXPECT(lampcygnet_decode_page(page, 1, refusals, LIST, NULL, 0) == LAMPCYGNET_REFUSED_ROOM && are_untouched(0));
}

/* A legal record of each kind, with every field that the kind has. */
static struct lampcygnet_record example(uint8_t kind)
{
    struct lampcygnet_record r;
    memset(&r, 0, sizeof r);
    r.kind = kind;
    r.source = 2;
    if (kind < LAMPCYGNET_KIND_PART_1) {
        r.status = LAMPCYGNET_STATUS_TEST;
    }
    switch (kind) {
    case LAMPCYGNET_KIND_VOR_AZIMUTH:
        r.marker = LAMPCYGNET_MARKER_INNER;
        r.count = -4096;
        break;
    case LAMPCYGNET_KIND_VOR_FREQUENCY:
        r.value = 11795;
        break;
    case LAMPCYGNET_KIND_ILS_COURSE:
    case LAMPCYGNET_KIND_ILS_GLIDE:
        r.inhibit = 1;
        r.count = 4095;
        break;
    case LAMPCYGNET_KIND_ILS_FREQUENCY:
        r.category = LAMPCYGNET_CATEGORY_II;
        r.value = 11030;
        break;
    case LAMPCYGNET_KIND_MLS_FREQUENCY:
        r.value = 503100;
        break;
    case LAMPCYGNET_KIND_MLS_AZIMUTH_DEVIATION:
        r.inhibit = 1;
        r.count = -32768;
        break;
    case LAMPCYGNET_KIND_MLS_GLIDE_DEVIATION:
        r.clearance = 1;
        r.count = 32767;
        break;
    case LAMPCYGNET_KIND_SELECTED_AZIMUTH:
        r.manual = 1;
        r.value = 359;
        break;
    case LAMPCYGNET_KIND_GREATEST_GLIDE_ANGLE:
        r.value = 255;
        break;
    case LAMPCYGNET_KIND_SELECTED_GLIDE_ANGLE:
        r.manual = 1;
        r.value = 511;
        break;
    case LAMPCYGNET_KIND_PART_1:
        r.word_number = 0xA5;
        r.value = 0x5A;
        break;
    case LAMPCYGNET_KIND_PART_4:
        r.parity_good = 1;
        r.value = 0xC0DE;
        break;
    default:
        r.value = 0xBEEF;
        break;
    }
    return r;
}

static int is_same(struct lampcygnet_record a, struct lampcygnet_record b)
{
    return a.refusal == b.refusal && a.kind == b.kind && a.source == b.source && a.status == b.status && a.marker == b.marker
        && a.category == b.category && a.inhibit == b.inhibit && a.clearance == b.clearance && a.manual == b.manual && a.parity_good == b.parity_good
        && a.word_number == b.word_number && a.count == b.count && a.value == b.value;
}

/* A flag is no code: above 1 it is 6, after 4. */
static void test_flags(void)
{
    int kind;
    for (kind = LAMPCYGNET_KIND_VOR_AZIMUTH; kind <= LAMPCYGNET_KIND_PART_4; kind++) {
        struct lampcygnet_record r = example((uint8_t)kind);
        const int has_inhibit = kind == LAMPCYGNET_KIND_ILS_COURSE || kind == LAMPCYGNET_KIND_ILS_GLIDE;
        const int has_clearance = kind == LAMPCYGNET_KIND_MLS_AZIMUTH_DEVIATION || kind == LAMPCYGNET_KIND_MLS_GLIDE_DEVIATION;
        const int has_manual = kind == LAMPCYGNET_KIND_SELECTED_AZIMUTH || kind == LAMPCYGNET_KIND_SELECTED_GLIDE_ANGLE;
        r.inhibit = 2;
        EXPECT(lampcygnet_encode(r).refusal == (has_inhibit || has_clearance ? LAMPCYGNET_REFUSED_VALUE : LAMPCYGNET_ACCEPTED));
        r = example((uint8_t)kind);
        r.clearance = 255;
        EXPECT(lampcygnet_encode(r).refusal == (has_clearance ? LAMPCYGNET_REFUSED_VALUE : LAMPCYGNET_ACCEPTED));
        r = example((uint8_t)kind);
        r.manual = 2;
        EXPECT(lampcygnet_encode(r).refusal == (has_manual ? LAMPCYGNET_REFUSED_VALUE : LAMPCYGNET_ACCEPTED));
        r = example((uint8_t)kind);
        r.parity_good = 2;
        EXPECT(lampcygnet_encode(r).refusal == (kind == LAMPCYGNET_KIND_PART_4 ? LAMPCYGNET_REFUSED_VALUE : LAMPCYGNET_ACCEPTED));
        r.source = 4;
        EXPECT(lampcygnet_encode(r).refusal == LAMPCYGNET_REFUSED_CODE);
    }
}

static void test_encoding(void)
{
    struct lampcygnet_record r;
    struct lampcygnet_record s;
    struct lampcygnet_word w;
    int kind;
    for (kind = LAMPCYGNET_KIND_VOR_AZIMUTH; kind <= LAMPCYGNET_KIND_PART_4; kind++) {
        r = example((uint8_t)kind);
        w = lampcygnet_encode(r);
        EXPECT(w.refusal == LAMPCYGNET_ACCEPTED);
        EXPECT(is_same(decoded(w.word), r));
        /* the source is a code, and 4 comes before 6 */
        r.source = 4;
        r.value = 0xFFFFFFFF;
        w = lampcygnet_encode(r);
        EXPECT(w.refusal == LAMPCYGNET_REFUSED_CODE && w.word == 0);
    }
    for (kind = LAMPCYGNET_KIND_VOR_AZIMUTH; kind < LAMPCYGNET_KIND_PART_1; kind++) {
        r = example((uint8_t)kind);
        r.status = 0;
        EXPECT(lampcygnet_encode(r).refusal == LAMPCYGNET_REFUSED_CODE);
        r.status = 5;
        EXPECT(lampcygnet_encode(r).refusal == LAMPCYGNET_REFUSED_CODE);
    }
    for (kind = LAMPCYGNET_KIND_SELECTED_AZIMUTH; kind <= LAMPCYGNET_KIND_PART_4; kind++) {
        r = example((uint8_t)kind);
        r.value = 65536;
        EXPECT(lampcygnet_encode(r).refusal == LAMPCYGNET_REFUSED_VALUE);
    }
    r = example(LAMPCYGNET_KIND_VOR_AZIMUTH);
    r.kind = 0;
    EXPECT(lampcygnet_encode(r).refusal == LAMPCYGNET_REFUSED_LABEL);
    r.kind = 16;
    r.source = 9;
    EXPECT(lampcygnet_encode(r).refusal == LAMPCYGNET_REFUSED_LABEL);
    r = example(LAMPCYGNET_KIND_VOR_AZIMUTH);
    r.marker = 3;
    EXPECT(lampcygnet_encode(r).refusal == LAMPCYGNET_REFUSED_CODE);
    r = example(LAMPCYGNET_KIND_VOR_AZIMUTH);
    r.count = 4096;
    EXPECT(lampcygnet_encode(r).refusal == LAMPCYGNET_REFUSED_VALUE);
    r.count = 4095;
    r.value = 77; /* not looked at */
    r.category = 9;
    r.refusal = 3;
    w = lampcygnet_encode(r);
    EXPECT(w.refusal == LAMPCYGNET_ACCEPTED);
    s = decoded(w.word);
    EXPECT(s.count == 4095 && s.value == 0 && s.category == 0);
    r = example(LAMPCYGNET_KIND_ILS_FREQUENCY);
    r.status = LAMPCYGNET_STATUS_FAILURE;
    r.value = 1;
    EXPECT(lampcygnet_encode(r).refusal == LAMPCYGNET_REFUSED_CODE);
    r.status = LAMPCYGNET_STATUS_READY;
    EXPECT(lampcygnet_encode(r).refusal == LAMPCYGNET_REFUSED_VALUE);
    r.category = 4;
    EXPECT(lampcygnet_encode(r).refusal == LAMPCYGNET_REFUSED_CODE);
    r = example(LAMPCYGNET_KIND_PART_1);
    r.value = 256;
    EXPECT(lampcygnet_encode(r).refusal == LAMPCYGNET_REFUSED_VALUE);
}

/* VOR and ILS words off the raster: 178.33 under ready, test, nodata and ready with a minus; 108.10 is of ILS, 112.00 of VOR. */
static void test_raster(void)
{
    struct lampcygnet_record r = decoded(UINT32_C(0xBE0CC038));
    EXPECT(r.kind == LAMPCYGNET_KIND_VOR_FREQUENCY && r.status == LAMPCYGNET_STATUS_NODATA && r.value == 17833);
    EXPECT(decoded(UINT32_C(0x1E0CC038)).refusal == LAMPCYGNET_REFUSED_VALUE);
    EXPECT(decoded(UINT32_C(0xDE0CC038)).refusal == LAMPCYGNET_REFUSED_VALUE);
    EXPECT(decoded(UINT32_C(0x7E0CC038)).refusal == LAMPCYGNET_REFUSED_CODE);
    r = decoded(UINT32_C(0x3E0CC0D8));
    EXPECT(r.kind == LAMPCYGNET_KIND_ILS_FREQUENCY && r.status == LAMPCYGNET_STATUS_NODATA && r.value == 17833);
    EXPECT(decoded(UINT32_C(0x9E0CC0D8)).refusal == LAMPCYGNET_REFUSED_VALUE);
    EXPECT(decoded(UINT32_C(0x5E0CC0D8)).refusal == LAMPCYGNET_REFUSED_VALUE);
    EXPECT(decoded(UINT32_C(0xFE0CC0D8)).refusal == LAMPCYGNET_REFUSED_CODE);
    r = decoded(UINT32_C(0x820400D8));
    EXPECT(r.kind == LAMPCYGNET_KIND_ILS_FREQUENCY && r.status == LAMPCYGNET_STATUS_READY && r.value == 10810);
    EXPECT(decoded(UINT32_C(0x02040038)).refusal == LAMPCYGNET_REFUSED_VALUE);
    r = decoded(UINT32_C(0xC4800038));
    EXPECT(r.kind == LAMPCYGNET_KIND_VOR_FREQUENCY && r.status == LAMPCYGNET_STATUS_TEST && r.value == 11200);
    EXPECT(decoded(UINT32_C(0x448000D8)).refusal == LAMPCYGNET_REFUSED_VALUE);
    EXPECT(lampcygnet_reading_of(UINT32_C(0x1E0CC038)).refusal == LAMPCYGNET_REFUSED_VALUE);
    EXPECT(lampcygnet_explain(UINT32_C(0x1E0CC038), 0).refusal == LAMPCYGNET_REFUSED_VALUE);
    EXPECT(lampcygnet_explain(UINT32_C(0xBE0CC038), 0).refusal == LAMPCYGNET_REFUSED_LABEL);
}

/* The refusal of a frequency as a record; if there is none, its word is decoded to the record. */
static int frequency_refusal(uint8_t kind, uint8_t status, uint32_t frequency)
{
    struct lampcygnet_record r = example(kind);
    struct lampcygnet_word w;
    r.status = status;
    r.value = frequency;
    w = lampcygnet_encode(r);
    EXPECT(w.refusal == LAMPCYGNET_ACCEPTED ? is_same(decoded(w.word), r) : w.word == 0);
    return w.refusal;
}

/* Every frequency up to 200 MHz as a record of VOR and of ILS: under ready and test 160 and 40 are channels, none of both; under nodata all digits pass. */
static void test_channels(void)
{
    static const uint8_t kinds[2] = {LAMPCYGNET_KIND_VOR_FREQUENCY, LAMPCYGNET_KIND_ILS_FREQUENCY};
    static const uint8_t statuses[2] = {LAMPCYGNET_STATUS_READY, LAMPCYGNET_STATUS_TEST};
    int channels[2] = {0, 0};
    uint32_t frequency;
    int i;
    int j;
    for (frequency = 0; frequency <= 20000; frequency++) {
        const int on_raster = 10800 <= frequency && frequency <= 11795 && frequency % 5 == 0;
        const int is_ils = on_raster && frequency < 11200 && frequency / 10 % 2 == 1;
        const int is_legal[2] = {on_raster && !is_ils, is_ils};
        for (i = 0; i < 2; i++) {
            const int digits = 10000 <= frequency && frequency <= 17999;
            channels[i] += is_legal[i];
            for (j = 0; j < 2; j++) {
                EXPECT(frequency_refusal(kinds[i], statuses[j], frequency) == (is_legal[i] ? LAMPCYGNET_ACCEPTED : LAMPCYGNET_REFUSED_VALUE));
            }
            EXPECT(frequency_refusal(kinds[i], LAMPCYGNET_STATUS_NODATA, frequency) == (digits ? LAMPCYGNET_ACCEPTED : LAMPCYGNET_REFUSED_VALUE));
            EXPECT(frequency_refusal(kinds[i], LAMPCYGNET_STATUS_FAILURE, frequency) == LAMPCYGNET_REFUSED_CODE);
        }
    }
    EXPECT(channels[0] == 160 && channels[1] == 40);
    /* the frequency of MLS has its rule under every status */
    EXPECT(frequency_refusal(LAMPCYGNET_KIND_MLS_FREQUENCY, LAMPCYGNET_STATUS_NODATA, 503130) == LAMPCYGNET_ACCEPTED);
    EXPECT(frequency_refusal(LAMPCYGNET_KIND_MLS_FREQUENCY, LAMPCYGNET_STATUS_NODATA, 503140) == LAMPCYGNET_REFUSED_VALUE);
}

static void test_readings(void)
{
    struct lampcygnet_reading r = lampcygnet_reading_of(UINT32_C(0xE8000049));
    struct lampcygnet_point p;
    int kind;
    long count;
    EXPECT(r.refusal == 0 && r.shown == LAMPCYGNET_SHOWN_READY && r.unit == LAMPCYGNET_UNIT_DEGREES && r.value == 90.0 && r.whole == 0);
    EXPECT(lampcygnet_reading_of(UINT32_C(0xFC000049)).value == -45.0);
    r = lampcygnet_reading_of(UINT32_C(0x640000DE));
    EXPECT(r.unit == LAMPCYGNET_UNIT_DEPTH_DIFFERENCE && r.value == 0.1);
    r = lampcygnet_reading_of(UINT32_C(0xC40000DE));
    EXPECT(r.shown == LAMPCYGNET_SHOWN_TEST && r.value == 0.1);
    r = lampcygnet_reading_of(UINT32_C(0x040000DE));
    EXPECT(r.refusal == 0 && r.shown == LAMPCYGNET_SHOWN_NONE && r.unit == LAMPCYGNET_UNIT_NONE && r.value == 0.0);
    r = lampcygnet_reading_of(UINT32_C(0x60002096));
    EXPECT(r.unit == LAMPCYGNET_UNIT_MILLIVOLTS && r.value == 75.0 / 1024.0 && r.whole == 0);
    r = lampcygnet_reading_of(UINT32_C(0x04C80038));
    EXPECT(r.unit == LAMPCYGNET_UNIT_TENS_OF_KHZ && r.whole == 11320);
    r = lampcygnet_reading_of(UINT32_C(0xEB3C00D6));
    EXPECT(r.unit == LAMPCYGNET_UNIT_SELECTED_DEGREES && r.whole == 359 && r.manual == 1);
    r = lampcygnet_reading_of(UINT32_C(0x69400036));
    EXPECT(r.unit == LAMPCYGNET_UNIT_GREATEST_TENTHS && r.whole == 40 && r.manual == 0);
    r = lampcygnet_reading_of(UINT32_C(0xE8000048));
    EXPECT(r.refusal == LAMPCYGNET_REFUSED_PARITY && r.shown == 0 && r.unit == 0 && r.whole == 0 && r.value == 0.0);
    /* every MLS count: a double holds both products exactly */
    for (kind = LAMPCYGNET_KIND_MLS_AZIMUTH_DEVIATION; kind <= LAMPCYGNET_KIND_MLS_GLIDE_DEVIATION; kind++) {
        struct lampcygnet_record mls = example((uint8_t)kind);
        for (count = -32768; count < 32768; count++) {
            mls.count = (int16_t)count;
            r = lampcygnet_reading_of(lampcygnet_encode(mls).word);
            EXPECT(r.shown == LAMPCYGNET_SHOWN_TEST && r.unit == LAMPCYGNET_UNIT_MILLIVOLTS && r.value * 1024.0 == count * 75.0 && r.whole == 0);
        }
    }

    p = lampcygnet_chart_point(lampcygnet_code_figure(0173, 1, 100000).word, lampcygnet_code_figure(0174, 1, -200000).word);
    EXPECT(p.refusal == 0 && p.course == 0.1 && p.glide == -0.2);
    p = lampcygnet_chart_point(lampcygnet_code_figure(0174, 1, -200000).word, lampcygnet_code_figure(0173, 1, 100000).word);
    EXPECT(p.refusal == LAMPCYGNET_REFUSED_LABEL && p.course == 0.0 && p.glide == 0.0);
    EXPECT(lampcygnet_chart_point(lampcygnet_code_figure(0173, 1, 0).word, lampcygnet_code_figure(0174, 2, 0).word).refusal == LAMPCYGNET_REFUSED_CODE);
    EXPECT(lampcygnet_chart_point(UINT32_C(0xE8000048), 0).refusal == LAMPCYGNET_REFUSED_PARITY);
    EXPECT(lampcygnet_chart_point(UINT32_C(0x040000DE), lampcygnet_code_figure(0174, 0, 0).word).refusal == LAMPCYGNET_REFUSED_REACH);
}

static int codes_to(uint32_t label, int64_t millionths, int16_t count)
{
    struct lampcygnet_word w = lampcygnet_code_figure(label, 3, millionths);
    struct lampcygnet_record r = lampcygnet_decode(w.word);
    return w.refusal == 0 && r.refusal == 0 && r.source == 3 && r.status == LAMPCYGNET_STATUS_READY && r.count == count
        && lampcygnet_agrees(w.word, millionths);
}

static void test_figures(void)
{
    static const uint32_t labels[5] = {0222, 0173, 0174, 0151, 0152};
    int i;
    long count;
    EXPECT(codes_to(0173, 399951, 4095) && codes_to(0173, -400048, -4096));
    EXPECT(lampcygnet_code_figure(0173, 0, 399952).refusal == LAMPCYGNET_REFUSED_REACH);
    EXPECT(lampcygnet_code_figure(0173, 0, -400049).refusal == LAMPCYGNET_REFUSED_REACH);
    EXPECT(codes_to(0174, 799902, 4095));
    EXPECT(lampcygnet_code_figure(0174, 0, 799903).refusal == LAMPCYGNET_REFUSED_REACH);
    for (i = 3; i < 5; i++) {
        EXPECT(codes_to(labels[i], 36600, 0) && codes_to(labels[i], 109800, 1) && codes_to(labels[i], -109800, -1));
        EXPECT(codes_to(labels[i], INT64_C(2399963378), 32767) && codes_to(labels[i], -INT64_C(2400036621), -32768));
        EXPECT(lampcygnet_code_figure(labels[i], 0, INT64_C(2399963379)).refusal == LAMPCYGNET_REFUSED_REACH);
        EXPECT(lampcygnet_code_figure(labels[i], 0, -INT64_C(2400036622)).refusal == LAMPCYGNET_REFUSED_REACH);
        EXPECT(lampcygnet_print_count(labels[i], 1).millionths == 73242 && lampcygnet_print_count(labels[i], -1).millionths == -73242);
        /* ties: 0.5859375 and 1.7578125 */
        EXPECT(lampcygnet_print_count(labels[i], 8).millionths == 585938 && lampcygnet_print_count(labels[i], -8).millionths == -585938);
        EXPECT(lampcygnet_print_count(labels[i], 24).millionths == 1757812 && lampcygnet_print_count(labels[i], -24).millionths == -1757812);
        EXPECT(lampcygnet_print_count(labels[i], 16384).millionths == 1200000000);
        EXPECT(lampcygnet_print_count(labels[i], -32768).millionths == -INT64_C(2400000000));
    }
    EXPECT(codes_to(0222, 179980000, -4096) && codes_to(0222, 180000000, -4096) && codes_to(0222, 315000000, -1024));
    EXPECT(lampcygnet_code_figure(0222, 0, 360000000).refusal == LAMPCYGNET_REFUSED_REACH);
    EXPECT(lampcygnet_code_figure(0222, 0, INT64_MIN).refusal == LAMPCYGNET_REFUSED_REACH);
    EXPECT(lampcygnet_code_figure(0222, 4, INT64_MIN).refusal == LAMPCYGNET_REFUSED_CODE);
    EXPECT(lampcygnet_code_figure(0222, 256, 0).refusal == LAMPCYGNET_REFUSED_CODE);
    EXPECT(lampcygnet_code_figure(0222 + 256, 9, 0).refusal == LAMPCYGNET_REFUSED_LABEL);
    EXPECT(lampcygnet_code_figure(0034, 9, 0).refusal == LAMPCYGNET_REFUSED_LABEL);
    EXPECT(lampcygnet_print_count(0173, -1).millionths == -98);
    EXPECT(lampcygnet_print_count(0222, 8).millionths == 351562 && lampcygnet_print_count(0222, 24).millionths == 1054688);
    EXPECT(lampcygnet_print_count(0034, 0).refusal == LAMPCYGNET_REFUSED_LABEL);
    EXPECT(lampcygnet_print_count(0222, 4096).refusal == LAMPCYGNET_REFUSED_VALUE);
    EXPECT(lampcygnet_print_count(0151, 32768).refusal == LAMPCYGNET_REFUSED_VALUE);
    EXPECT(lampcygnet_print_count(0151, INT64_MIN).refusal == LAMPCYGNET_REFUSED_VALUE);
    EXPECT(lampcygnet_print_count(0151, INT64_MIN).millionths == 0);
    EXPECT(!lampcygnet_agrees(UINT32_C(0x640000DE), 1000000) && lampcygnet_agrees(UINT32_C(0x640000DE), 100000));
    EXPECT(!lampcygnet_agrees(UINT32_C(0x640000DF), 100000) && !lampcygnet_agrees(UINT32_C(0x04C80038), 0));
    /* every legal count, printed, is coded back */
    for (i = 0; i < 5; i++) {
        long last = labels[i] == 0151 || labels[i] == 0152 ? 32768 : 4096;
        for (count = -last; count < last; count++) {
            struct lampcygnet_millionths m = lampcygnet_print_count(labels[i], count);
            EXPECT(m.refusal == 0 && codes_to(labels[i], m.millionths, (int16_t)count));
        }
    }
}

/* The reason that a figure has beside a word that is not refused, or 0. */
static int reason(uint32_t word, int64_t millionths)
{
    struct lampcygnet_explained e = lampcygnet_explain(word, millionths);
    EXPECT(e.refusal == LAMPCYGNET_ACCEPTED ? 1 <= e.reason && e.reason <= 9 : e.reason == LAMPCYGNET_REASON_NONE);
    return e.reason;
}

static void test_explaining(void)
{
    const uint32_t course = UINT32_C(0x640000DE); /* it says 0.1 */
    const uint32_t west = lampcygnet_code_figure(0222, 0, -351562).word;
    const uint32_t zero = lampcygnet_code_figure(0152, 2, 0).word;
    EXPECT(reason(course, 100000) == LAMPCYGNET_REASON_AGREES);
    EXPECT(reason(course, 1000000) == LAMPCYGNET_REASON_TENTH); /* typed as 1.0 */
    EXPECT(reason(course, 10000000) == LAMPCYGNET_REASON_HUNDREDTH);
    EXPECT(reason(course, 100000000) == LAMPCYGNET_REASON_THOUSANDTH);
    EXPECT(reason(course, 10000) == LAMPCYGNET_REASON_TEN_TIMES);
    EXPECT(reason(course, 1000) == LAMPCYGNET_REASON_HUNDRED_TIMES);
    EXPECT(reason(course, 100) == LAMPCYGNET_REASON_THOUSAND_TIMES);
    EXPECT(reason(course, -100000) == LAMPCYGNET_REASON_OTHER_SIGN);
    EXPECT(reason(course, 200000) == LAMPCYGNET_REASON_NONE_OF_THESE);
    EXPECT(reason(course, INT64_MAX) == LAMPCYGNET_REASON_NONE_OF_THESE && reason(course, INT64_MIN) == LAMPCYGNET_REASON_NONE_OF_THESE);
    /* ten does not divide it */
    EXPECT(reason(course, 1000001) == LAMPCYGNET_REASON_NONE_OF_THESE);
    /* times ten it is 2^64 + 4: a product that wrapped would be 4 */
    EXPECT(reason(zero, INT64_C(1844674407370955162)) == LAMPCYGNET_REASON_NONE_OF_THESE);
    EXPECT(reason(zero, INT64_MIN) == LAMPCYGNET_REASON_NONE_OF_THESE);
    /* a thousand times it agrees, and so does the other sign: the first is told */
    EXPECT(lampcygnet_agrees(west, 359640000) && lampcygnet_agrees(west, -359640));
    EXPECT(reason(west, 359640) == LAMPCYGNET_REASON_THOUSAND_TIMES);
    EXPECT(reason(zero, 0) == LAMPCYGNET_REASON_AGREES);
    /* under test, not under nodata; 2 before 8 */
    EXPECT(reason(UINT32_C(0xC40000DE), 1000000) == LAMPCYGNET_REASON_TENTH);
    EXPECT(lampcygnet_explain(UINT32_C(0xA40000DE), 100000).refusal == LAMPCYGNET_REFUSED_REACH && reason(UINT32_C(0xA40000DE), 100000) == 0);
    EXPECT(lampcygnet_explain(UINT32_C(0x040000DE), 100000).refusal == LAMPCYGNET_REFUSED_REACH && reason(UINT32_C(0x040000DE), 100000) == 0);
    EXPECT(lampcygnet_explain(UINT32_C(0x04C80038), 113200000).refusal == LAMPCYGNET_REFUSED_LABEL && reason(UINT32_C(0x04C80038), 0) == 0);
    EXPECT(lampcygnet_explain(UINT32_C(0xA4C80038), 113200000).refusal == LAMPCYGNET_REFUSED_LABEL);
    EXPECT(lampcygnet_explain(UINT32_C(0xE8000048), 90000000).refusal == LAMPCYGNET_REFUSED_PARITY && reason(UINT32_C(0xE8000048), 0) == 0);
}

static void test_reassembly(void)
{
    static const uint32_t words[4] = {UINT32_C(0x1FFC0306), UINT32_C(0xBFFFE386), UINT32_C(0xD09F2346), UINT32_C(0x724B07C6)};
    struct lampcygnet_partial held = {0, 0, 0};
    struct lampcygnet_step s;
    int i;
    for (i = 0; i < 3; i++) {
        s = lampcygnet_reassemble(held, words[i]);
        EXPECT(s.refusal == 0 && s.complete == 0 && s.bits == 0 && s.parity_good == 0);
        EXPECT(s.next.parts == i + 1 && s.next.source == 3);
        /* a refused word changes nothing */
        held = lampcygnet_reassemble(s.next, UINT32_C(0xE8000048)).next;
        EXPECT(held.parts == s.next.parts && held.source == s.next.source && held.bits == s.next.bits);
        EXPECT(lampcygnet_reassemble(s.next, UINT32_C(0xE8000049)).refusal == LAMPCYGNET_REFUSED_LABEL);
    }
    EXPECT(held.bits == (UINT64_C(10545324736764706784) & UINT64_C(0xFFFFFFFFFFFF)));
    s = lampcygnet_reassemble(held, words[3]);
    EXPECT(s.refusal == 0 && s.complete == 1 && s.parity_good == 1 && s.bits == UINT64_C(10545324736764706784));
    EXPECT(s.next.parts == 0 && s.next.source == 0 && s.next.bits == 0);
    s = lampcygnet_reassemble(s.next, words[3]);
    EXPECT(s.refusal == LAMPCYGNET_REFUSED_SEQUENCE && s.complete == 0 && s.bits == 0 && s.next.parts == 0);
    held.parts = 200; /* holds nothing */
    EXPECT(lampcygnet_reassemble(held, words[3]).refusal == LAMPCYGNET_REFUSED_SEQUENCE);
    held.parts = 3;
    held.source = 2;
    s = lampcygnet_reassemble(held, words[3]);
    EXPECT(s.refusal == LAMPCYGNET_REFUSED_SEQUENCE && s.next.parts == 0 && s.next.bits == 0);
}

/* A word in hexadecimal, the number of its refusal, its count. The page takes the word too. */
static void word_line(size_t *length, const char *text, long line)
{
    unsigned long word;
    unsigned refusal;
    int count;
    struct lampcygnet_record r;
    if (sscanf(text, "%lx %u %d", &word, &refusal, &count) != 3) {
        expect(0, "a line that cannot be read", line);
        return;
    }
    r = decoded((uint32_t)word);
    expect(r.refusal == refusal, "refusal", line);
    expect(r.count == count, "count", line);
    if (*length == PAGE_MOST) {
        expect(0, "more words than a page has here", line);
        return;
    }
    page[(*length)++] = (uint32_t)word;
}

/* A label in octal, a source, a figure, and a word in hexadecimal or `refused` and its number. */
static void figure_line(const char *text, long line)
{
    unsigned label;
    unsigned source;
    long long figure;
    char answer[16];
    unsigned refusal = 0;
    struct lampcygnet_word w;
    if (sscanf(text, "%o %u %lld %15s %u", &label, &source, &figure, answer, &refusal) < 4) {
        expect(0, "a line that cannot be read", line);
        return;
    }
    w = lampcygnet_code_figure(label, source, figure);
    expect(w.refusal == refusal, "refusal", line);
    expect(w.word == (refusal == 0 ? strtoul(answer, NULL, 16) : 0), "word", line);
}

/* A word in hexadecimal, a figure, and the short name of the reason, or `refused` and its number. */
static void explain_line(const char *text, long line)
{
    static const char *const names[9] = {"agrees", "tenth", "hundredth", "thousandth", "ten", "hundred", "thousand", "sign", "none"};
    unsigned long word;
    long long figure;
    char answer[16];
    unsigned refusal = 0;
    struct lampcygnet_explained e;
    if (sscanf(text, "%lx %lld %15s %u", &word, &figure, answer, &refusal) < 3) {
        expect(0, "a line that cannot be read", line);
        return;
    }
    e = lampcygnet_explain((uint32_t)word, figure);
    expect(e.refusal == refusal && (refusal == 0) == (strcmp(answer, "refused") != 0), "refusal", line);
    expect(refusal != 0 ? e.reason == 0 : 1 <= e.reason && e.reason <= 9 && strcmp(names[e.reason - 1], answer) == 0, "reason", line);
}

/* A word in hexadecimal, and `begun C` with the parts held, `joined C` with the bits and the mark, or `refused` and its number. */
static void join_line(struct lampcygnet_partial *held, const char *text, long line)
{
    unsigned long word;
    char answer[8];
    char rest[64] = "";
    struct lampcygnet_step s;
    if (sscanf(text, "%lx %7s %63[^\n]", &word, answer, rest) != 3) {
        expect(0, "a line that cannot be read", line);
        return;
    }
    s = lampcygnet_reassemble(*held, (uint32_t)word);
    *held = s.next;
    if (strcmp(answer, "refused") == 0) {
        expect(s.refusal == strtoul(rest, NULL, 10) && s.complete == 0, "refusal", line);
    } else if (strcmp(answer, "begun") == 0) {
        expect(s.refusal == 0 && s.complete == 0 && s.next.parts == strtoul(rest + 2, NULL, 10), "parts", line);
    } else {
        char *end;
        expect(s.refusal == 0 && s.complete == 1 && s.bits == strtoull(rest + 2, &end, 10), "bits", line);
        expect(s.parity_good == (strncmp(end, " True", 5) == 0), "parity", line);
    }
}

static void run_file(const char *path)
{
    char text[128];
    long line = 0;
    size_t words = 0;
    struct lampcygnet_partial held = {0, 0, 0};
    const char *slash = strrchr(path, '/');
    const char *name = slash != NULL ? slash + 1 : path;
    FILE *file = fopen(path, "r");
    if (file == NULL) {
        expect(0, path, 0);
        return;
    }
    while (fgets(text, (int)sizeof text, file) != NULL) {
        line++;
        if (strncmp(name, "words", 5) == 0 || strncmp(name, "raster", 6) == 0) {
            word_line(&words, text, line);
        } else if (strncmp(name, "joins", 5) == 0) {
            join_line(&held, text, line);
        } else if (strncmp(name, "explain", 7) == 0) {
            explain_line(text, line);
        } else {
            figure_line(text, line);
        }
    }
    fclose(file);
    expect_pages(words);
    printf("%s: %ld lines\n", name, line);
}

int main(int argc, char **argv)
{
    int i;
    test_layout();
    test_decoding();
    test_pages();
    test_encoding();
    test_flags();
    test_raster();
    test_channels();
    test_readings();
    test_figures();
    test_explaining();
    test_reassembly();
    for (i = 1; i < argc; i++) {
        run_file(argv[i]);
    }
    return told();
}
