/* The parts of a number's text, in English and by the tables whose file is the first word: in rooms of each length for the
 * text and for its parts, refused, and null with length 0. */
#include "talmuiga.h"

#include <stdio.h>

enum { MOST = 48, SPANS = 8 };

static const talmuiga_span unwritten = {77, 78, 79};

/* A number, in a locale or in English without tables, its text, and its parts. */
struct sample {
    const char *locale, *style, *number, *text;
    size_t count;
    talmuiga_span parts[SPANS];
};

static const struct sample samples[] = {
    {NULL, NULL, "-1234.5", "-1,234.5", 5,
     {{0, 1, TALMUIGA_PART_MINUS_SIGN}, {1, 6, TALMUIGA_PART_INTEGER}, {2, 3, TALMUIGA_PART_GROUP},
      {6, 7, TALMUIGA_PART_DECIMAL}, {7, 8, TALMUIGA_PART_FRACTION}}},
    {NULL, NULL, "+7", "+7", 2, {{0, 1, TALMUIGA_PART_PLUS_SIGN}, {1, 2, TALMUIGA_PART_INTEGER}}},
    {"bn", "plain", "-1234.5", "-১,২৩৪.৫", 5,
     {{0, 1, TALMUIGA_PART_MINUS_SIGN}, {1, 14, TALMUIGA_PART_INTEGER}, {4, 5, TALMUIGA_PART_GROUP},
      {14, 15, TALMUIGA_PART_DECIMAL}, {15, 18, TALMUIGA_PART_FRACTION}}},
    {"en", "short", "-1650", "-1.6K", 1, {{0, 1, TALMUIGA_PART_MINUS_SIGN}}},
    {"en", "short", "1650", "1.6K", 0, {{0, 0, 0}}},
};

static char tables[1 << 20];
static size_t tables_len;
static int failed;

static void judge(const char *what, const char *number, size_t room, size_t spans, int holds) {
    if (!holds) {
        fprintf(stderr, "c_parts: %s: %s in %zu bytes and %zu spans\n", what, number, room, spans);
        failed = 1;
    }
}

static int is_same(const talmuiga_span *spans, const talmuiga_span *wanted, size_t count) {
    for (size_t i = 0; i < count; i++)
        if (spans[i].start != wanted[i].start || spans[i].end != wanted[i].end || spans[i].part != wanted[i].part) return 0;
    return 1;
}

static talmuiga_formatter *opened(const struct sample *it) {
    talmuiga_formatter *formatter;
    uint32_t status = it->locale ? talmuiga_formatter_open(tables, tables_len, it->locale, "-", it->style, NULL, &formatter)
                                 : talmuiga_formatter_open_english(&formatter);
    judge("not opened", it->number, 0, 0, status == TALMUIGA_DONE);
    return formatter;
}

/* A number in so much room: what fits is written, and all else is as it was. */
static void judge_room(const talmuiga_formatter *formatter, const struct sample *it, size_t room, size_t spans_room) {
    char output[MOST], untouched[MOST];
    talmuiga_span spans[SPANS + 1], before[SPANS + 1];
    size_t length = 99, count = 99, wanted = strlen(it->text);
    memset(untouched, 'x', MOST);
    memcpy(output, untouched, MOST);
    for (size_t i = 0; i <= SPANS; i++) spans[i] = before[i] = unwritten;
    uint32_t status = talmuiga_formatter_parts(formatter, it->number, strlen(it->number), output, room, &length, spans,
                                               spans_room, &count);
    int fits = wanted <= room, spans_fit = it->count <= spans_room;
    judge("another status", it->number, room, spans_room,
          status == (uint32_t)(fits && spans_fit ? TALMUIGA_DONE : TALMUIGA_OUTPUT_TOO_SMALL));
    judge("another length", it->number, room, spans_room, length == wanted && count == it->count);
    if (fits) memcpy(untouched, it->text, wanted);
    if (spans_fit) memcpy(before, it->parts, it->count * sizeof *before);
    judge("another text", it->number, room, spans_room, memcmp(output, untouched, MOST) == 0);
    judge("other parts", it->number, room, spans_room, is_same(spans, before, SPANS + 1));
}

static void judge_refusal(const talmuiga_formatter *formatter, const char *number, uint32_t wanted) {
    char output[] = "x";
    talmuiga_span span = unwritten;
    size_t length = 99, count = 99;
    uint32_t status = talmuiga_formatter_parts(formatter, number, strlen(number), output, 1, &length, &span, 1, &count);
    judge("not refused", number, 1, 1, status == wanted && length == 0 && count == 0);
    judge("written", number, 1, 1, output[0] == 'x' && is_same(&span, &unwritten, 1));
}

int main(int argc, char **words) {
    FILE *file = argc > 1 ? fopen(words[1], "rb") : NULL;
    if (!file) return 2;
    tables_len = fread(tables, 1, sizeof tables, file);
    fclose(file);
    for (size_t i = 0; i < sizeof samples / sizeof *samples; i++) {
        talmuiga_formatter *formatter = opened(&samples[i]);
        if (!formatter) return 1;
        for (size_t room = 0; room < MOST; room++)
            for (size_t spans = 0; spans <= SPANS; spans++) judge_room(formatter, &samples[i], room, spans);
        talmuiga_formatter_close(formatter);
    }
    talmuiga_formatter *english = opened(&samples[0]);
    if (!english) return 1;
    judge_refusal(english, "1e3", TALMUIGA_NOT_DECIMAL);
    judge_refusal(english, "5\n", TALMUIGA_NOT_DECIMAL);
    judge_refusal(english, "", TALMUIGA_NOT_DECIMAL);
    size_t length = 99, count = 99;
    uint32_t status = talmuiga_formatter_parts(english, NULL, 0, NULL, 0, &length, NULL, 0, &count);
    judge("null", "", 0, 0, status == TALMUIGA_NOT_DECIMAL && length == 0 && count == 0);
    status = talmuiga_formatter_parts(english, "1000", 4, NULL, 0, &length, NULL, 0, &count);
    judge("no room", "1000", 0, 0, status == TALMUIGA_OUTPUT_TOO_SMALL && length == 5 && count == 2);
    char output[8];
    talmuiga_span spans[2];
    status = talmuiga_formatter_parts(english, "1000", 4, output, SIZE_MAX, &length, spans, SIZE_MAX, &count);
    judge("endless rooms", "1000", 8, 2, status == TALMUIGA_DONE && length == 5 && count == 2);
    judge("endless rooms", "1000", 8, 2, spans[1].start == 1 && spans[1].part == TALMUIGA_PART_GROUP);
    talmuiga_formatter_close(english);
    return failed;
}
