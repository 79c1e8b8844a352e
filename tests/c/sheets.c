/*
 * The sheet part of the library, called from C and from C++: the layout of its structures, refusals with their offsets, the writers, summaries, walks
 * from any numbers, and the sheets that are named on the command line (NAME.bin), each with its listing beside it (NAME.txt). A sheet is checked, walked,
 * asked for its notes, written again from its fields, listed and summed up. In a folder `faulty` the text is not the listing. A file that is named
 * itself by its .txt has test vectors of summaries, line by line.
 */
#include "expect.h"
#include "lampcygnet.h"

#include <stddef.h>
#include <stdio.h>
#include <stdlib.h>
#include <string.h>

#define PATTERN 0xA5
#define GUARD 16
#define DEEPEST 4
#define FIELDS_MOST (LAMPCYGNET_SHEET_MOST / 3)

static void test_layout(void)
{
    EXPECT(sizeof(struct lampcygnet_place) == 16);
    EXPECT(offsetof(struct lampcygnet_place, offset) == 8);
    EXPECT(sizeof(struct lampcygnet_walk) == 40);
    EXPECT(offsetof(struct lampcygnet_walk, place) == 8);
    EXPECT(offsetof(struct lampcygnet_walk, end3) == 32);
    EXPECT(sizeof(struct lampcygnet_field) == 24);
    EXPECT(offsetof(struct lampcygnet_field, depth) == 2);
    EXPECT(offsetof(struct lampcygnet_field, length) == 16);
    EXPECT(sizeof(struct lampcygnet_walked) == 64);
    EXPECT(offsetof(struct lampcygnet_walked, next) == 24);
    EXPECT(sizeof(struct lampcygnet_note) == 24);
    EXPECT(offsetof(struct lampcygnet_note, length) == 16);
    EXPECT(sizeof(struct lampcygnet_figure) == 16);
    EXPECT(offsetof(struct lampcygnet_figure, label) == 1);
    EXPECT(offsetof(struct lampcygnet_figure, millionths) == 8);
    EXPECT(sizeof(struct lampcygnet_listed) == 16);
    EXPECT(offsetof(struct lampcygnet_listed, length) == 8);
    EXPECT(sizeof(struct lampcygnet_summary) == 88);
    EXPECT(offsetof(struct lampcygnet_summary, offset) == 8);
    EXPECT(offsetof(struct lampcygnet_summary, ready) == 16);
    EXPECT(offsetof(struct lampcygnet_summary, words) == 64);
    EXPECT(offsetof(struct lampcygnet_summary, least) == 72);
    EXPECT(offsetof(struct lampcygnet_summary, greatest) == 74);
    EXPECT(offsetof(struct lampcygnet_summary, sum) == 80);
}

/* Bytes of a size of their own, so that a read past them can be seen. */
static uint8_t *bytes_of(size_t length)
{
    uint8_t *bytes = (uint8_t *)malloc(length == 0 ? 1 : length);
    if (bytes == NULL) {
        printf("no memory\n");
        exit(2);
    }
    return bytes;
}

static int is_filled(const uint8_t *bytes, size_t length)
{
    size_t i;
    for (i = 0; i < length; i++) {
        if (bytes[i] != PATTERN) {
            return 0;
        }
    }
    return 1;
}

static int are_same_walks(struct lampcygnet_walk a, struct lampcygnet_walk b)
{
    return a.refusal == b.refusal && a.place == b.place && a.end1 == b.end1 && a.end2 == b.end2 && a.end3 == b.end3;
}

static int are_same_fields(struct lampcygnet_field a, struct lampcygnet_field b)
{
    return a.refusal == b.refusal && a.tag == b.tag && a.depth == b.depth && a.place == b.place && a.length == b.length;
}

static struct lampcygnet_field field_of(uint8_t refusal, uint8_t tag, uint8_t depth, size_t place, size_t length)
{
    struct lampcygnet_field f;
    f.refusal = refusal;
    f.tag = tag;
    f.depth = depth;
    f.place = place;
    f.length = length;
    return f;
}

static int is_place(struct lampcygnet_place p, uint8_t refusal, size_t offset)
{
    return p.refusal == refusal && p.offset == offset;
}

/* ---- The fields of a legal sheet, found here once more ---- */

static struct lampcygnet_field found[FIELDS_MOST];
static size_t found_count;

static void find_fields(const uint8_t *sheet, size_t at, size_t end, uint8_t depth)
{
    while (at < end) {
        size_t length = (size_t)sheet[at + 1] * 256 + sheet[at + 2];
        found[found_count++] = field_of(0, sheet[at], depth, at, length);
        if (sheet[at] == LAMPCYGNET_TAG_GROUP) {
            find_fields(sheet, at + 3, at + 3 + length, (uint8_t)(depth + 1));
        }
        at += 3 + length;
    }
}

/* The walk gives these fields, then the end again and again. */
static void test_walk(const uint8_t *sheet, size_t length)
{
    struct lampcygnet_walk walk = lampcygnet_walk_from_start(sheet, length);
    struct lampcygnet_walked step;
    size_t i;
    EXPECT(walk.refusal == 0 && walk.place == 0 && walk.end1 == 0 && walk.end2 == 0 && walk.end3 == 0);
    for (i = 0; i < found_count; i++) {
        step = lampcygnet_next_field(sheet, length, walk);
        EXPECT(are_same_fields(step.field, found[i]));
        EXPECT(walk.place == found[i].place && step.next.refusal == 0);
        walk = step.next;
    }
    for (i = 0; i < 2; i++) {
        step = lampcygnet_next_field(sheet, length, walk);
        EXPECT(are_same_fields(step.field, field_of(0, LAMPCYGNET_TAG_NONE, 0, 0, 0)));
        EXPECT(are_same_walks(step.next, walk));
    }
}

/* ---- Contents and notes ---- */

static struct lampcygnet_word word_at(const uint8_t *sheet, struct lampcygnet_field field)
{
    const uint8_t *content = sheet + field.place + 3;
    struct lampcygnet_word w = lampcygnet_word_in(content, field.length);
    EXPECT(w.refusal == 0);
    EXPECT(w.word == ((uint32_t)content[0] << 24 | (uint32_t)content[1] << 16 | (uint32_t)content[2] << 8 | content[3]));
    return w;
}

static struct lampcygnet_figure figure_at(const uint8_t *sheet, struct lampcygnet_field field)
{
    const uint8_t *content = sheet + field.place + 3;
    struct lampcygnet_figure f = lampcygnet_figure_in(content, field.length);
    uint64_t digits = 0;
    int i;
    for (i = 1; i < 9; i++) {
        digits = digits << 8 | content[i];
    }
    EXPECT(f.refusal == 0 && f.label == content[0] && (uint64_t)f.millionths == digits);
    return f;
}

static void expect_note(const uint8_t *sheet, size_t length, size_t place, uint8_t refusal, size_t start, size_t size)
{
    struct lampcygnet_note n = lampcygnet_find_note(sheet, length, place);
    EXPECT(n.refusal == refusal && n.start == start && n.length == size);
}

/* At each field a note or 10; of a short sheet at every place. */
static void test_notes(const uint8_t *sheet, size_t length)
{
    size_t step = 1 + found_count / 200;
    size_t next = 0;
    size_t i;
    for (i = 0; i < found_count; i += step) {
        struct lampcygnet_field f = found[i];
        if (f.tag == LAMPCYGNET_TAG_NOTE) {
            expect_note(sheet, length, f.place, 0, f.place + 3, f.length);
        } else {
            expect_note(sheet, length, f.place, LAMPCYGNET_REFUSED_TAG, f.place, 0);
        }
    }
    if (length < 1000) {
        for (i = 0; i < length + 4; i++) {
            if (next < found_count && found[next].place == i) {
                next++;
            } else {
                expect_note(sheet, length, i, LAMPCYGNET_REFUSED_TAG, i, 0);
            }
        }
    }
    expect_note(sheet, length, SIZE_MAX, LAMPCYGNET_REFUSED_TAG, SIZE_MAX, 0);
}

/* The words of a sheet and how many of them are refused: what the listing's last line says. */
static void test_totals(const uint8_t *sheet, const char *text, size_t size)
{
    unsigned long words = 0;
    unsigned long refused = 0;
    char last[64];
    size_t i;
    size_t n;
    for (i = 0; i < found_count; i++) {
        if (found[i].tag == LAMPCYGNET_TAG_WORD) {
            words++;
            refused += lampcygnet_decode(word_at(sheet, found[i]).word).refusal != 0;
        } else if (found[i].tag == LAMPCYGNET_TAG_FIGURE) {
            figure_at(sheet, found[i]);
        }
    }
    n = (size_t)sprintf(last, "words %lu refused %lu\n", words, refused);
    EXPECT(n <= size && memcmp(text + size - n, last, n) == 0);
}

/* ---- Writing again ---- */

static uint8_t written[DEEPEST][LAMPCYGNET_SHEET_MOST];

/* Writes the fields from `*at` on that start before `end`, into the buffer of their depth; gives the place after them. */
static size_t rewrite(const uint8_t *sheet, size_t *at, size_t end, int depth)
{
    uint8_t *out = written[depth - 1];
    size_t place = 0;
    struct lampcygnet_place p;
    while (*at < found_count && found[*at].place < end) {
        struct lampcygnet_field f = found[(*at)++];
        if (f.tag == LAMPCYGNET_TAG_WORD) {
            p = lampcygnet_write_word(out, LAMPCYGNET_SHEET_MOST, place, word_at(sheet, f).word);
        } else if (f.tag == LAMPCYGNET_TAG_FIGURE) {
            struct lampcygnet_figure g = figure_at(sheet, f);
            p = lampcygnet_write_figure(out, LAMPCYGNET_SHEET_MOST, place, g.label, g.millionths);
        } else if (f.tag == LAMPCYGNET_TAG_NOTE) {
            p = lampcygnet_write_note(out, LAMPCYGNET_SHEET_MOST, place, sheet + f.place + 3, f.length);
        } else {
            size_t inside = rewrite(sheet, at, f.place + 3 + f.length, depth + 1);
            p = lampcygnet_write_group(out, LAMPCYGNET_SHEET_MOST, place, written[depth], inside);
        }
        EXPECT(is_place(p, 0, place + 3 + f.length));
        place = p.offset;
    }
    return place;
}

static void test_rewriting(const uint8_t *sheet, size_t length)
{
    size_t at = 0;
    size_t end;
    memset(written, PATTERN, sizeof written);
    end = rewrite(sheet, &at, length, 1);
    EXPECT(at == found_count);
    EXPECT(end == length && (length == 0 || memcmp(written[0], sheet, length) == 0));
    EXPECT(is_filled(written[0] + end, LAMPCYGNET_SHEET_MOST - end));
}

/* ---- The listing ---- */

/* Lists into so much room; past it nothing is written. */
static void expect_listing(const uint8_t *sheet, size_t length, const char *text, size_t size, size_t room)
{
    uint8_t *out = bytes_of(room + GUARD);
    struct lampcygnet_listed l;
    memset(out, PATTERN, room + GUARD);
    l = lampcygnet_list_sheet(sheet, length, out, room);
    if (room < size) {
        EXPECT(l.refusal == LAMPCYGNET_REFUSED_ROOM && l.length == 0);
        EXPECT(is_filled(out, room + GUARD));
    } else {
        EXPECT(l.refusal == 0 && l.length == size);
        EXPECT(memcmp(out, text, size) == 0);
        EXPECT(is_filled(out + size, room + GUARD - size));
    }
    free(out);
}

static void test_listing(const uint8_t *sheet, size_t length, const char *text, size_t size)
{
    EXPECT(0 < size && size <= LAMPCYGNET_LISTING_MOST);
    expect_listing(sheet, length, text, size, size);
    expect_listing(sheet, length, text, size, size - 1);
    expect_listing(sheet, length, text, size, 0);
    expect_listing(sheet, length, text, size, LAMPCYGNET_LISTING_MOST);
}

/* ---- Summaries ---- */

static int are_same_summaries(struct lampcygnet_summary a, struct lampcygnet_summary b)
{
    return a.refusal == b.refusal && a.offset == b.offset && a.ready == b.ready && a.test == b.test && a.nodata == b.nodata && a.failure == b.failure
        && a.refused == b.refused && a.other == b.other && a.words == b.words && a.least == b.least && a.greatest == b.greatest && a.sum == b.sum;
}

/* All 0 but the refusal and its offset. */
static struct lampcygnet_summary no_summary(uint8_t refusal, size_t offset)
{
    struct lampcygnet_summary s;
    memset(&s, 0, sizeof s);
    s.refusal = refusal;
    s.offset = offset;
    return s;
}

/* The kind of the words that are summed up under a label, or 0. */
static uint8_t deviation(uint32_t label)
{
    switch (label) {
    case 0173: return LAMPCYGNET_KIND_ILS_COURSE;
    case 0174: return LAMPCYGNET_KIND_ILS_GLIDE;
    case 0151: return LAMPCYGNET_KIND_MLS_AZIMUTH_DEVIATION;
    case 0152: return LAMPCYGNET_KIND_MLS_GLIDE_DEVIATION;
    default: return LAMPCYGNET_KIND_NONE;
    }
}

/* The fields that were found, summed up here once more. */
static struct lampcygnet_summary sum_up(const uint8_t *sheet, uint8_t kind, uint32_t source)
{
    struct lampcygnet_summary s = no_summary(0, 0);
    size_t i;
    for (i = 0; i < found_count; i++) {
        if (found[i].tag == LAMPCYGNET_TAG_WORD) {
            struct lampcygnet_record r = lampcygnet_decode(lampcygnet_word_in(sheet + found[i].place + 3, found[i].length).word);
            s.words++;
            if (r.refusal != 0) {
                s.refused++;
            } else if (r.kind != kind || r.source != source) {
                s.other++;
            } else if (r.status == LAMPCYGNET_STATUS_READY) {
                s.least = s.ready == 0 || r.count < s.least ? r.count : s.least;
                s.greatest = s.ready == 0 || s.greatest < r.count ? r.count : s.greatest;
                s.sum += r.count;
                s.ready++;
            } else {
                s.test += r.status == LAMPCYGNET_STATUS_TEST;
                s.nodata += r.status == LAMPCYGNET_STATUS_NODATA;
                s.failure += r.status == LAMPCYGNET_STATUS_FAILURE;
            }
        }
    }
    return s;
}

/* 2 before 4 before the sheet's own refusal. A legal sheet, with 0 here, has the numbers of its fields. */
static void test_summary(const uint8_t *sheet, size_t length, uint8_t refusal, size_t offset)
{
    static const uint32_t labels[14] = {0173, 0174, 0151, 0152, 0222, 0, 0153, 0150, 0172, 0175, 0377, 0173 + 256, 0152 + 65536, UINT32_MAX};
    static const uint32_t sources[8] = {0, 1, 2, 3, 4, 255, 256, UINT32_MAX};
    size_t i;
    size_t j;
    for (i = 0; i < sizeof labels / sizeof labels[0]; i++) {
        for (j = 0; j < sizeof sources / sizeof sources[0]; j++) {
            uint8_t kind = deviation(labels[i]);
            struct lampcygnet_summary s = lampcygnet_summarize(sheet, length, labels[i], sources[j]);
            if (kind == LAMPCYGNET_KIND_NONE) {
                EXPECT(are_same_summaries(s, no_summary(LAMPCYGNET_REFUSED_LABEL, 0)));
            } else if (3 < sources[j]) {
                EXPECT(are_same_summaries(s, no_summary(LAMPCYGNET_REFUSED_CODE, 0)));
            } else if (refusal != 0) {
                EXPECT(are_same_summaries(s, no_summary(refusal, offset)));
            } else {
                EXPECT(are_same_summaries(s, sum_up(sheet, kind, sources[j])));
                EXPECT(s.ready + s.test + s.nodata + s.failure + s.refused + s.other == s.words);
            }
        }
    }
}

/* ---- A sheet with its listing ---- */

/* A refused sheet has this refusal everywhere, and no field. */
static void test_refused(const uint8_t *sheet, size_t length, uint8_t refusal, size_t offset)
{
    struct lampcygnet_walk walk = lampcygnet_walk_from_start(sheet, length);
    struct lampcygnet_walked step;
    EXPECT(is_place(lampcygnet_check_sheet(sheet, length), refusal, offset));
    EXPECT(walk.refusal == refusal && walk.place == offset && walk.end1 == 0 && walk.end2 == 0 && walk.end3 == 0);
    step = lampcygnet_next_field(sheet, length, walk);
    EXPECT(are_same_fields(step.field, field_of(refusal, LAMPCYGNET_TAG_NONE, 0, offset, 0)));
    EXPECT(are_same_walks(step.next, walk));
    expect_note(sheet, length, 0, refusal, offset, 0);
    expect_note(sheet, length, length, refusal, offset, 0);
    test_summary(sheet, length, refusal, offset);
}

static void test_legal(const uint8_t *sheet, size_t length)
{
    EXPECT(is_place(lampcygnet_check_sheet(sheet, length), 0, 0));
    found_count = 0;
    find_fields(sheet, 0, length, 1);
    test_walk(sheet, length);
    test_notes(sheet, length);
    test_rewriting(sheet, length);
    test_summary(sheet, length, 0, 0);
}

static void test_sheet(const uint8_t *sheet, size_t length, const char *text, size_t size)
{
    unsigned refusal;
    unsigned long offset;
    if (sscanf(text, "sheet refused %u at %lu", &refusal, &offset) == 2) {
        test_refused(sheet, length, (uint8_t)refusal, offset);
    } else {
        test_legal(sheet, length);
        test_totals(sheet, text, size);
    }
    test_listing(sheet, length, text, size);
}

/* The bytes of a file, and a zero byte after them. */
static uint8_t *read_file(const char *path, size_t *length)
{
    FILE *file = fopen(path, "rb");
    uint8_t *bytes;
    long size;
    if (file == NULL || fseek(file, 0, SEEK_END) != 0 || (size = ftell(file)) < 0 || fseek(file, 0, SEEK_SET) != 0) {
        printf("%s cannot be read\n", path);
        exit(2);
    }
    *length = (size_t)size;
    bytes = bytes_of(*length + 1);
    if (fread(bytes, 1, *length, file) != *length) {
        printf("%s cannot be read\n", path);
        exit(2);
    }
    bytes[*length] = 0;
    fclose(file);
    return bytes;
}

static void run_file(const char *path)
{
    char beside[256];
    size_t length;
    size_t size;
    size_t n = strlen(path);
    uint8_t *read;
    uint8_t *sheet;
    uint8_t *text;
    about = path;
    EXPECT(4 <= n && n < sizeof beside);
    if (n < 4 || sizeof beside <= n) {
        return;
    }
    memcpy(beside, path, n + 1);
    memcpy(beside + n - 4, ".txt", 4);
    read = read_file(path, &length);
    text = read_file(beside, &size);
    sheet = bytes_of(length);
    memcpy(sheet, read, length);
    if (strstr(path, "faulty/") == NULL) {
        test_sheet(sheet, length, (const char *)text, size);
    } else {
        static uint8_t out[LAMPCYGNET_LISTING_MOST];
        struct lampcygnet_listed l = lampcygnet_list_sheet(sheet, length, out, sizeof out);
        EXPECT(l.refusal == 0 && (l.length != size || memcmp(out, text, size) != 0));
    }
    free(read);
    free(sheet);
    free(text);
    about = "";
}

/* ---- Test vectors of summaries ---- */

static uint8_t hex_digit(char c)
{
    return (uint8_t)(c <= '9' ? c - '0' : (c | 32) - 'a' + 10);
}

/* The answer as a line has it: `refused` and its number, with the offset that a sheet's own has; or the numbers, `-` for what is not there. */
static void summary_text(char *out, struct lampcygnet_summary s)
{
    if (s.refusal != 0) {
        out += sprintf(out, "refused %u", (unsigned)s.refusal);
        if (LAMPCYGNET_REFUSED_CODE < s.refusal) {
            sprintf(out, " %lu", (unsigned long)s.offset);
        }
        return;
    }
    out += sprintf(out, "ready=%lu test=%lu nodata=%lu failure=%lu refused=%lu others=%lu words=%lu ", (unsigned long)s.ready, (unsigned long)s.test,
        (unsigned long)s.nodata, (unsigned long)s.failure, (unsigned long)s.refused, (unsigned long)s.other, (unsigned long)s.words);
    if (s.ready == 0) {
        sprintf(out, "least=- greatest=- sum=%ld mean=-", (long)s.sum);
    } else {
        sprintf(out, "least=%d greatest=%d sum=%ld mean=%ld/%lu", s.least, s.greatest, (long)s.sum, (long)s.sum, (unsigned long)s.ready);
    }
}

/* A sheet in hexadecimal digits (`-`: empty), a label in octal, a source, and the answer. */
static void summary_line(const char *text, long line)
{
    size_t digits = strcspn(text, " ");
    size_t length = digits / 2;
    size_t i;
    uint8_t *sheet = bytes_of(length);
    unsigned label;
    unsigned source;
    int n = 0;
    char answer[400];
    for (i = 0; i < length; i++) {
        sheet[i] = (uint8_t)(hex_digit(text[2 * i]) << 4 | hex_digit(text[2 * i + 1]));
    }
    if (sscanf(text + digits, "%o %u %n", &label, &source, &n) != 2) {
        expect(0, "a line that cannot be read", line);
    } else {
        struct lampcygnet_summary s = lampcygnet_summarize(sheet, length, label, source);
        summary_text(answer, s);
        expect(strcmp(answer, text + digits + n) == 0, answer, line);
        expect(s.refusal == 0 || are_same_summaries(s, no_summary(s.refusal, s.offset)), "a refusal beside numbers", line);
    }
    free(sheet);
}

static void run_summaries(const char *path)
{
    size_t size;
    char *text = (char *)read_file(path, &size);
    char *at = text;
    char *end;
    long line = 0;
    about = path;
    for (; (end = strchr(at, '\n')) != NULL; at = end + 1) {
        *end = 0;
        summary_line(at, ++line);
    }
    EXPECT(0 < line && *at == 0);
    printf("%ld summaries\n", line);
    free(text);
    about = "";
}

/* ---- Small sheets ---- */

struct refused_sheet {
    uint8_t refusal;
    size_t offset;
    size_t length;
    uint8_t bytes[20];
};

static void test_refusals(void)
{
    static const struct refused_sheet sheets[] = {
        {9, 0, 1, {0x10}},
        {9, 0, 2, {0x77, 0}},
        {10, 0, 3, {0x13, 0, 0}},
        {10, 0, 3, {0x00, 0, 1}},
        {9, 0, 6, {0x10, 0, 4, 1, 2, 3}},
        {9, 0, 5, {0x10, 0, 3, 1, 2}},
        {11, 0, 6, {0x10, 0, 3, 1, 2, 3}},
        {11, 0, 3, {0x11, 0, 0}},
        {9, 0, 4, {0x12, 0, 2, 65}},
        {9, 7, 8, {0x10, 0, 4, 0, 0, 0, 0, 0x10}},
        {10, 7, 10, {0x10, 0, 4, 0, 0, 0, 0, 0x21, 0, 0}},
        {9, 3, 8, {0x20, 0, 4, 0x12, 0, 2, 65, 66}},
        {9, 3, 5, {0x20, 0, 2, 0x12, 0}},
        {10, 3, 9, {0x20, 0, 3, 0x40, 0, 0, 0x10, 0, 0}},
        {12, 9, 12, {0x20, 0, 9, 0x20, 0, 6, 0x20, 0, 3, 0x20, 0, 0}},
        {12, 9, 15, {0x20, 0, 12, 0x20, 0, 9, 0x20, 0, 6, 0x20, 0, 3, 0x99, 0, 0}},
        {9, 9, 12, {0x20, 0, 9, 0x20, 0, 6, 0x20, 0, 3, 0x20, 0, 1}},
    };
    static uint8_t large[LAMPCYGNET_SHEET_MOST + 1];
    size_t i;
    for (i = 0; i < sizeof sheets / sizeof sheets[0]; i++) {
        uint8_t *bytes = bytes_of(sheets[i].length);
        memcpy(bytes, sheets[i].bytes, sheets[i].length);
        test_refused(bytes, sheets[i].length, sheets[i].refusal, sheets[i].offset);
        free(bytes);
    }
    test_refused(large, LAMPCYGNET_SHEET_MOST + 1, LAMPCYGNET_REFUSED_OVERSIZE, 0);
    test_refused(large, LAMPCYGNET_SHEET_MOST, LAMPCYGNET_REFUSED_TAG, 0);
    large[0] = LAMPCYGNET_TAG_NOTE;
    large[1] = (LAMPCYGNET_SHEET_MOST - 3) >> 8;
    large[2] = (LAMPCYGNET_SHEET_MOST - 3) & 0xFF;
    test_legal(large, LAMPCYGNET_SHEET_MOST);
    test_refused(large, LAMPCYGNET_SHEET_MOST + 1, LAMPCYGNET_REFUSED_OVERSIZE, 0);
}

static void test_contents(void)
{
    static const uint8_t bytes[12] = {0xE8, 0x80, 0, 0, 0, 0, 0, 0, 0, 1, 2, 3};
    size_t n;
    for (n = 0; n <= sizeof bytes; n++) {
        struct lampcygnet_word w = lampcygnet_word_in(bytes, n);
        struct lampcygnet_figure f = lampcygnet_figure_in(bytes, n);
        if (n == 4) {
            EXPECT(w.refusal == 0 && w.word == UINT32_C(0xE8800000));
        } else {
            EXPECT(w.refusal == LAMPCYGNET_REFUSED_LENGTH && w.word == 0);
        }
        if (n == 9) {
            EXPECT(f.refusal == 0 && f.label == 0xE8 && f.millionths == INT64_MIN);
        } else {
            EXPECT(f.refusal == LAMPCYGNET_REFUSED_LENGTH && f.label == 0 && f.millionths == 0);
        }
    }
}

/* A flight summed up by hand: words at every depth, and one in a note, which does not count. */
static void test_flight(void)
{
    static const uint8_t sheet[] = {
        0x10, 0, 4, 0xE4, 0, 0x01, 0xDE,                                     /* 173 1 ready 1024 */
        0x11, 0, 9, 0x7B, 0, 0, 0, 0, 0, 0x01, 0x86, 0xA0,                   /* its figure */
        0x20, 0, 45, 0x10, 0, 4, 0x70, 0, 0x05, 0xDE,                        /* 173 1 ready -4096, inhibited */
        0x20, 0, 28, 0x20, 0, 14, 0x10, 0, 4, 0x6F, 0xFF, 0x01, 0xDE,        /* 173 1 ready 4095, at depth 4 */
        0x10, 0, 4, 0x50, 0, 0x01, 0xDE,                                     /* 173 1 test -4096 */
        0x12, 0, 8, 0x10, 0, 4, 0xE4, 0, 0x01, 0xDE, 0x20,                   /* a note */
        0x10, 0, 4, 0xAF, 0xFF, 0x01, 0xDE,                                  /* 173 1 nodata 4095 */
        0x10, 0, 4, 0x90, 0, 0x01, 0xDE,                                     /* 173 1 failure -4096 */
        0x10, 0, 4, 0x6F, 0xFF, 0x01, 0xDF,                                  /* refused 1 */
        0x10, 0, 4, 0x64, 0, 0, 0xDE,                                        /* 173 0 ready 1024 */
        0x10, 0, 4, 0x64, 0, 0x01, 0x3E,                                     /* 174 1 */
        0x10, 0, 4, 0x70, 0, 0x05, 0xDE                                      /* 173 1 ready -4096, inhibited */
    };
    struct lampcygnet_summary s = no_summary(0, 0);
    test_legal(sheet, sizeof sheet);
    s.ready = 4;
    s.test = 1;
    s.nodata = 1;
    s.failure = 1;
    s.refused = 1;
    s.other = 2;
    s.words = 10;
    s.least = -4096;
    s.greatest = 4095;
    s.sum = -3073;
    EXPECT(are_same_summaries(lampcygnet_summarize(sheet, sizeof sheet, 0173, 1), s));
    /* no word of that label and source */
    s = no_summary(0, 0);
    s.refused = 1;
    s.other = 9;
    s.words = 10;
    EXPECT(are_same_summaries(lampcygnet_summarize(sheet, sizeof sheet, 0151, 1), s));
    EXPECT(are_same_summaries(lampcygnet_summarize(sheet, sizeof sheet, 0173, 2), s));
    /* one byte less: the last word is cut */
    test_summary(sheet, sizeof sheet - 1, LAMPCYGNET_REFUSED_TRUNCATED, sizeof sheet - 7);
}

/* ---- The writers ---- */

static uint8_t buffer[LAMPCYGNET_SHEET_MOST + 64];

/* Nothing was written, and the refusal is this. */
static void expect_refused(struct lampcygnet_place p, uint8_t refusal, size_t offset, long line)
{
    expect(is_place(p, refusal, offset), "refusal of a writer", line);
    expect(is_filled(buffer, sizeof buffer), "a refused writer leaves the buffer", line);
}

#define REFUSED(call, refusal, offset) expect_refused((call), (refusal), (offset), (long)__LINE__)

/* These bytes were written at a place, and nothing else; the buffer is filled again. */
static void expect_written(struct lampcygnet_place p, size_t place, const uint8_t *bytes, size_t length, long line)
{
    expect(is_place(p, 0, place + length), "the place after a field", line);
    expect(memcmp(buffer + place, bytes, length) == 0, "a field's bytes", line);
    memset(buffer + place, PATTERN, length);
    expect(is_filled(buffer, sizeof buffer), "nothing but the field is written", line);
}

#define WRITTEN(call, place, bytes) expect_written((call), (place), (bytes), sizeof(bytes), (long)__LINE__)

static void test_writers(void)
{
    static const uint8_t word[7] = {0x10, 0, 4, 0xE8, 0, 0, 0x49};
    static const uint8_t figure[12] = {0x11, 0, 9, 0x7B, 0xFF, 0xFF, 0xFF, 0xFF, 0xFF, 0xFF, 0xFF, 0xFE};
    static const uint8_t note[5] = {0x12, 0, 2, 'H', 'i'};
    static const uint8_t group[8] = {0x20, 0, 5, 0x12, 0, 2, 'H', 'i'};
    static const uint8_t empty_group[3] = {0x20, 0, 0};
    static const uint8_t cut[4] = {0x20, 0, 2, 0x12};
    static const uint8_t deep[9] = {0x20, 0, 6, 0x20, 0, 3, 0x20, 0, 0};
    static const uint8_t large[LAMPCYGNET_SHEET_MOST + 1] = {0x12, (LAMPCYGNET_SHEET_MOST - 2) >> 8, (LAMPCYGNET_SHEET_MOST - 2) & 0xFF};
    const uint8_t *text = (const uint8_t *)"Hi";
    const size_t most = LAMPCYGNET_SHEET_MOST;
    struct lampcygnet_place p;
    memset(buffer, PATTERN, sizeof buffer);

    WRITTEN(lampcygnet_write_word(buffer, 7, 0, UINT32_C(0xE8000049)), 0, word);
    WRITTEN(lampcygnet_write_word(buffer, most, most - 7, UINT32_C(0xE8000049)), most - 7, word);
    REFUSED(lampcygnet_write_word(buffer, 6, 0, 0), LAMPCYGNET_REFUSED_ROOM, 0);
    REFUSED(lampcygnet_write_word(buffer, 0, 0, 0), LAMPCYGNET_REFUSED_ROOM, 0);
    REFUSED(lampcygnet_write_word(buffer, 7, 1, 0), LAMPCYGNET_REFUSED_ROOM, 0);
    REFUSED(lampcygnet_write_word(buffer, 7, 20000, 0), LAMPCYGNET_REFUSED_ROOM, 0);
    REFUSED(lampcygnet_write_word(buffer, sizeof buffer, most - 6, 0), LAMPCYGNET_REFUSED_OVERSIZE, 0);
    REFUSED(lampcygnet_write_word(buffer, 0, most - 6, 0), LAMPCYGNET_REFUSED_OVERSIZE, 0);
    REFUSED(lampcygnet_write_word(buffer, sizeof buffer, SIZE_MAX, 0), LAMPCYGNET_REFUSED_OVERSIZE, 0);

    WRITTEN(lampcygnet_write_figure(buffer, 12, 0, 0173, -2), 0, figure);
    WRITTEN(lampcygnet_write_figure(buffer, sizeof buffer, 100, 0173, -2), 100, figure);
    REFUSED(lampcygnet_write_figure(buffer, 11, 0, 0173, -2), LAMPCYGNET_REFUSED_ROOM, 0);
    REFUSED(lampcygnet_write_figure(buffer, sizeof buffer, most - 11, 0173, -2), LAMPCYGNET_REFUSED_OVERSIZE, 0);

    WRITTEN(lampcygnet_write_note(buffer, 5, 0, text, 2), 0, note);
    WRITTEN(lampcygnet_write_note(buffer, sizeof buffer, most - 5, text, 2), most - 5, note);
    REFUSED(lampcygnet_write_note(buffer, 4, 0, text, 2), LAMPCYGNET_REFUSED_ROOM, 0);
    REFUSED(lampcygnet_write_note(buffer, sizeof buffer, 1, large, most - 3), LAMPCYGNET_REFUSED_OVERSIZE, 0);
    REFUSED(lampcygnet_write_note(buffer, sizeof buffer, 0, large, most + 1), LAMPCYGNET_REFUSED_OVERSIZE, 0);
    p = lampcygnet_write_note(buffer, most, 0, large + 3, most - 3);
    EXPECT(is_place(p, 0, most) && buffer[0] == 0x12 && buffer[1] == 0x7F && buffer[2] == 0xFD && buffer[3] == 0 && buffer[most - 1] == 0);
    EXPECT(is_filled(buffer + most, sizeof buffer - most));
    memset(buffer, PATTERN, sizeof buffer);

    WRITTEN(lampcygnet_write_group(buffer, 8, 0, note, 5), 0, group);
    WRITTEN(lampcygnet_write_group(buffer, sizeof buffer, 9, note, 0), 9, empty_group);
    REFUSED(lampcygnet_write_group(buffer, 7, 0, note, 5), LAMPCYGNET_REFUSED_ROOM, 0);
    REFUSED(lampcygnet_write_group(buffer, sizeof buffer, most - 7, note, 5), LAMPCYGNET_REFUSED_OVERSIZE, 0);
    /* the run is refused first, with the offset in the run */
    REFUSED(lampcygnet_write_group(buffer, 0, SIZE_MAX, cut, 4), LAMPCYGNET_REFUSED_TRUNCATED, 0);
    REFUSED(lampcygnet_write_group(buffer, 0, SIZE_MAX, word, 6), LAMPCYGNET_REFUSED_TRUNCATED, 0);
    REFUSED(lampcygnet_write_group(buffer, sizeof buffer, 0, deep, 9), LAMPCYGNET_REFUSED_DEPTH, 6);
    WRITTEN(lampcygnet_write_group(buffer, sizeof buffer, 0, deep + 3, 6), 0, deep);
}

/* Where a length is 0 the pointer may be null. */
static void test_null(void)
{
    static const char text[] = "words 0 refused 0\n";
    static const uint8_t empty_note[3] = {0x12, 0, 0};
    static const uint8_t empty_group[3] = {0x20, 0, 0};
    memset(buffer, PATTERN, sizeof buffer);
    test_legal(NULL, 0);
    test_listing(NULL, 0, text, sizeof text - 1);
    EXPECT(lampcygnet_list_sheet(NULL, 0, NULL, 0).refusal == LAMPCYGNET_REFUSED_ROOM);
    EXPECT(lampcygnet_word_in(NULL, 0).refusal == LAMPCYGNET_REFUSED_LENGTH);
    EXPECT(lampcygnet_figure_in(NULL, 0).refusal == LAMPCYGNET_REFUSED_LENGTH);
    REFUSED(lampcygnet_write_word(NULL, 0, 0, 0), LAMPCYGNET_REFUSED_ROOM, 0);
    REFUSED(lampcygnet_write_figure(NULL, 0, 0, 0, 0), LAMPCYGNET_REFUSED_ROOM, 0);
    REFUSED(lampcygnet_write_note(NULL, 0, 0, NULL, 0), LAMPCYGNET_REFUSED_ROOM, 0);
    REFUSED(lampcygnet_write_group(NULL, 0, 0, NULL, 0), LAMPCYGNET_REFUSED_ROOM, 0);
    WRITTEN(lampcygnet_write_note(buffer, sizeof buffer, 5, NULL, 0), 5, empty_note);
    WRITTEN(lampcygnet_write_group(buffer, sizeof buffer, 5, NULL, 0), 5, empty_group);
}

/* ---- Walks from any numbers ---- */

static uint64_t state = 1;

static uint64_t random_number(void)
{
    state = state * UINT64_C(6364136223846793005) + UINT64_C(1442695040888963407);
    return state >> 33;
}

/* Mostly near the sheet, sometimes far. */
static size_t random_offset(size_t length)
{
    uint64_t r = random_number();
    return r % 8 == 0 ? SIZE_MAX - (size_t)(r / 8 % 8) : (size_t)(r / 8 % (length + 8));
}

static void test_any_walk(const uint8_t *sheet, size_t length)
{
    struct lampcygnet_walk walk;
    struct lampcygnet_walked step;
    walk.refusal = (uint8_t)random_number();
    walk.place = random_offset(length);
    walk.end1 = random_offset(length);
    walk.end2 = random_offset(length);
    walk.end3 = random_offset(length);
    step = lampcygnet_next_field(sheet, length, walk);
    if ((9 <= walk.refusal && walk.refusal <= 12) || walk.refusal == 15) {
        EXPECT(are_same_fields(step.field, field_of(walk.refusal, LAMPCYGNET_TAG_NONE, 0, walk.place, 0)));
        EXPECT(step.next.refusal == walk.refusal && step.next.place == walk.place);
        EXPECT(step.next.end1 == 0 && step.next.end2 == 0 && step.next.end3 == 0);
    } else {
        EXPECT(step.next.refusal == 0);
        if (step.field.tag != LAMPCYGNET_TAG_NONE) {
            EXPECT(step.field.refusal == 0 && 1 <= step.field.depth && step.field.depth <= 4);
            EXPECT(step.field.place < length && step.field.length <= length && step.field.place + 3 + step.field.length <= length);
        } else {
            EXPECT(step.field.depth == 0 && step.field.length == 0);
            EXPECT(step.field.refusal == 0 || (LAMPCYGNET_REFUSED_TRUNCATED <= step.field.refusal && step.field.refusal <= LAMPCYGNET_REFUSED_DEPTH));
            EXPECT(step.field.place == (step.field.refusal != 0 ? walk.place : 0));
        }
    }
}

static void test_any_walks(void)
{
    static const uint8_t sheet[] = {0x20, 0, 17, 0x10, 0, 4, 0xE8, 0, 0, 0x49, 0x20, 0, 7, 0x12, 0, 1, 0x20, 0x20, 0, 0, 0x12, 0, 0};
    static uint8_t bytes[64];
    size_t i;
    size_t n;
    test_legal(sheet, 20);
    test_legal(sheet, sizeof sheet);
    for (n = 0; n < 200000; n++) {
        test_any_walk(sheet, sizeof sheet);
        for (i = 0; i < sizeof bytes; i++) {
            static const uint8_t likely[8] = {0x10, 0x11, 0x12, 0x20, 0, 4, 9, 3};
            bytes[i] = likely[random_number() % 8];
        }
        test_any_walk(bytes, random_number() % (sizeof bytes + 1));
    }
}

int main(int argc, char **argv)
{
    int sheets = 0;
    int i;
    test_layout();
    test_refusals();
    test_contents();
    test_flight();
    test_writers();
    test_null();
    test_any_walks();
    for (i = 1; i < argc; i++) {
        size_t n = strlen(argv[i]);
        if (4 <= n && strcmp(argv[i] + n - 4, ".txt") == 0) {
            run_summaries(argv[i]);
        } else {
            run_file(argv[i]);
            sheets++;
        }
    }
    printf("%d sheets\n", sheets);
    return told();
}
