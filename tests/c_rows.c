/* What single calls of the library for C answer, a row each: lines in English and by tables, lines by a kept formatter, one
 * number and its parts, the text of a number that is read back, why tables are rejected, and which names they have. Each row has a room of its own, whose bytes behind the answer have to
 * stay as they were. */
#include "talmuiga.h"

#include <stdio.h>

enum { ROOM = 64, SPANS = 8 };

/* English with thousands, in short form too. */
static const char tables[] =
    "{\"symbols\":[{\"locale\":\"en\",\"minus\":[\"-\",\"\"],\"plus\":[\"+\",\"\"],"
    "\"decimal\":\".\",\"group\":\",\",\"numsys\":\"latn\",\"sizes\":[3,3,1]}],"
    "\"digits\":[[\"latn\",\"0123456789\"]],"
    "\"rules\":[{\"locale\":\"en\",\"rules\":[[\"one\",\"i = 1 and v = 0\"]]}],"
    "\"short\":[{\"locale\":\"en\",\"patterns\":[[3,3,{\"other\":\"{0}K\"}]]}]}";

static const char lines[] = "1650\n-5\n";

static int failed;

static void judge(const char *what, size_t row, int holds) {
    if (!holds) {
        fprintf(stderr, "c_rows: %s: row %zu\n", what, row);
        failed = 1;
    }
}

/* A room of bytes that are all x. */
static char *fresh_room(void) {
    static char room[ROOM];
    memset(room, 'x', ROOM);
    return room;
}

/* Whether a room begins with a text, and is as it was behind it. */
static int holds(const char *room, const char *text, size_t length) {
    for (size_t at = length; at < ROOM; at++)
        if (room[at] != 'x') return 0;
    return memcmp(room, text, length) == 0;
}

/* A room, and what a call for lines in English ends in: a status, and how many bytes are written. */
static const struct {
    size_t room;
    uint32_t status;
    size_t written;
} english[] = {
    {0, TALMUIGA_OUTPUT_TOO_SMALL, 0}, {5, TALMUIGA_OUTPUT_TOO_SMALL, 0}, {8, TALMUIGA_OUTPUT_TOO_SMALL, 6},
    {9, TALMUIGA_DONE, 9},             {16, TALMUIGA_DONE, 9},
};

static void judge_english(size_t row) {
    char *room = fresh_room();
    size_t written = 99;
    uint32_t status = talmuiga_format_english(lines, strlen(lines), room, english[row].room, &written);
    judge("lines in English", row,
          status == english[row].status && written == english[row].written && holds(room, "1,650\n-5\n", written));
}

/* Tables, a locale, a style and a strategy, and what their call ends in. */
static const struct {
    const char *tables, *locale, *style, *grouping;
    uint32_t status;
    const char *output;
} asked[] = {
    {tables, "en", "plain", "", TALMUIGA_DONE, "1,650\n-5\n"},
    {tables, "en", "plain", "never", TALMUIGA_DONE, "1650\n-5\n"},
    {tables, "en", "short", "", TALMUIGA_DONE, "1.6K\n-5\n"},
    {tables, "en", "long", "", TALMUIGA_NO_DATA, ""},
    {tables, "fr", "plain", "", TALMUIGA_NO_DATA, ""},
    {"{", "en", "plain", "", TALMUIGA_TABLES_REFUSED, ""},
    {"{", "en", "tall", "", TALMUIGA_WORDS_REFUSED, ""},
    {tables, "en", "plain", "\xff", TALMUIGA_WORDS_REFUSED, ""},
};

static void judge_asked(size_t row) {
    char *room = fresh_room();
    size_t written = 99;
    uint32_t status = talmuiga_format_lines(asked[row].tables, strlen(asked[row].tables), asked[row].locale, "-",
                                            asked[row].style, asked[row].grouping, lines, strlen(lines), room, 16, &written);
    judge("lines by tables", row,
          status == asked[row].status && written == strlen(asked[row].output) && holds(room, asked[row].output, written));
}

/* Lines, a room, and what their call by a kept formatter ends in: a status, and how far it came. */
static const struct {
    const char *lines;
    size_t room;
    uint32_t status;
    talmuiga_reached reached;
} reaching[] = {
    {"", 0, TALMUIGA_DONE, {0, 0, 0}},
    {lines, 9, TALMUIGA_DONE, {8, 9, 0}},
    {lines, 8, TALMUIGA_OUTPUT_TOO_SMALL, {5, 6, 3}},
    {lines, 5, TALMUIGA_OUTPUT_TOO_SMALL, {0, 0, 6}},
    {"1e3\n", 9, TALMUIGA_OUTPUT_TOO_SMALL, {0, 0, 21}},
};

static void judge_reaching(talmuiga_formatter *formatter, size_t row) {
    talmuiga_reached reached = {99, 99, 99};
    const talmuiga_reached *wanted = &reaching[row].reached;
    uint32_t status = talmuiga_formatter_format(formatter, reaching[row].lines, strlen(reaching[row].lines), fresh_room(),
                                                reaching[row].room, &reached);
    judge("lines by a kept formatter", row,
          status == reaching[row].status && reached.consumed == wanted->consumed && reached.written == wanted->written &&
              reached.needed == wanted->needed);
}

/* A text, a room, and what its call in English ends in: a status, a length, and what stands in the room. */
static const struct {
    const char *text;
    size_t room;
    uint32_t status;
    size_t length;
    const char *output;
} one[] = {
    {"-1234.50", 9, TALMUIGA_DONE, 9, "-1,234.50"},
    {"1000007", 9, TALMUIGA_DONE, 9, "1,000,007"},
    {"1000007", 8, TALMUIGA_OUTPUT_TOO_SMALL, 9, ""},
    {"1e3", 4, TALMUIGA_NOT_DECIMAL, 0, ""},
    {"5\n", 4, TALMUIGA_NOT_DECIMAL, 0, ""},
};

static void judge_one(talmuiga_formatter *formatter, size_t row) {
    char *room = fresh_room();
    size_t length = 99;
    uint32_t status =
        talmuiga_formatter_one(formatter, one[row].text, strlen(one[row].text), room, one[row].room, &length);
    judge("one number", row,
          status == one[row].status && length == one[row].length && holds(room, one[row].output, strlen(one[row].output)));
}

/* A text, a room for bytes and one for spans, and what its call in English ends in: a status, a length and a count, and what
 * stands in each room. */
static const struct {
    const char *text;
    size_t room, spans_room;
    uint32_t status;
    size_t length, count;
    const char *output;
    size_t spans_written;
    talmuiga_span spans[SPANS];
} parts[] = {
#define MARKED                                                                                                            \
    {{0, 1, TALMUIGA_PART_MINUS_SIGN}, {1, 6, TALMUIGA_PART_INTEGER}, {2, 3, TALMUIGA_PART_GROUP},                         \
     {6, 7, TALMUIGA_PART_DECIMAL}, {7, 8, TALMUIGA_PART_FRACTION}}
    {"-1234.5", 8, 5, TALMUIGA_DONE, 8, 5, "-1,234.5", 5, MARKED},
    {"-1234.5", 7, 5, TALMUIGA_OUTPUT_TOO_SMALL, 8, 5, "", 5, MARKED},
    {"-1234.5", 8, 4, TALMUIGA_OUTPUT_TOO_SMALL, 8, 5, "-1,234.5", 0, {{0, 0, 0}}},
    {"-1234.5", 0, 0, TALMUIGA_OUTPUT_TOO_SMALL, 8, 5, "", 0, {{0, 0, 0}}},
    {"+7", 3, 3, TALMUIGA_DONE, 2, 2, "+7", 2, {{0, 1, TALMUIGA_PART_PLUS_SIGN}, {1, 2, TALMUIGA_PART_INTEGER}}},
    {"1e3", 2, 1, TALMUIGA_NOT_DECIMAL, 0, 0, "", 0, {{0, 0, 0}}},
};

static int are_spans(const talmuiga_span *spans, size_t row) {
    for (size_t at = 0; at < SPANS; at++) {
        talmuiga_span wanted = {77, 78, 79};
        if (at < parts[row].spans_written) wanted = parts[row].spans[at];
        if (spans[at].start != wanted.start || spans[at].end != wanted.end || spans[at].part != wanted.part) return 0;
    }
    return 1;
}

static void judge_parts(talmuiga_formatter *formatter, size_t row) {
    char *room = fresh_room();
    talmuiga_span spans[SPANS];
    size_t length = 99, count = 99;
    for (size_t at = 0; at < SPANS; at++) {
        talmuiga_span unwritten = {77, 78, 79};
        spans[at] = unwritten;
    }
    uint32_t status = talmuiga_formatter_parts(formatter, parts[row].text, strlen(parts[row].text), room, parts[row].room,
                                               &length, spans, parts[row].spans_room, &count);
    judge("parts", row,
          status == parts[row].status && length == parts[row].length && count == parts[row].count &&
              holds(room, parts[row].output, strlen(parts[row].output)) && are_spans(spans, row));
}

/* German and Bengali numbers as CLDR has them; and numbers whose separators are the same, in `xx`. */
static const char other_tables[] =
    "{\"symbols\":[{\"locale\":\"de\",\"minus\":[\"-\",\"\"],\"plus\":[\"+\",\"\"],"
    "\"decimal\":\",\",\"group\":\".\",\"numsys\":\"latn\",\"sizes\":[3,3,1]},"
    "{\"locale\":\"bn\",\"minus\":[\"-\",\"\"],\"plus\":[\"+\",\"\"],"
    "\"decimal\":\".\",\"group\":\",\",\"numsys\":\"beng\",\"sizes\":[3,2,1]},"
    "{\"locale\":\"xx\",\"minus\":[\"-\",\"\"],\"plus\":[\"+\",\"\"],"
    "\"decimal\":\",\",\"group\":\",\",\"numsys\":\"latn\",\"sizes\":[3,3,1]}],"
    "\"digits\":[[\"latn\",\"0123456789\"],[\"beng\",\"০১২৩৪৫৬৭৮৯\"]],\"rules\":[]}";

/* A locale of these tables, or none for English, and a skeleton, or none; a text; and what reading it ends in: a status, the byte of a
 * fault, and a decimal. */
static const struct {
    const char *locale, *skeleton, *text;
    uint32_t status;
    size_t byte;
    const char *decimal;
} reading[] = {
    {NULL, NULL, "0", TALMUIGA_DONE, 0, "0"},
    {NULL, NULL, "1,234", TALMUIGA_DONE, 0, "1234"},
    {NULL, NULL, "-1,234.50", TALMUIGA_DONE, 0, "-1234.50"},
    {NULL, NULL, "1234567", TALMUIGA_DONE, 0, "1234567"},
    {NULL, NULL, "+7", TALMUIGA_DONE, 0, "+7"},
    {NULL, NULL, "-0", TALMUIGA_DONE, 0, "-0"},
    {NULL, NULL, "001,234", TALMUIGA_DONE, 0, "001234"},
    {NULL, NULL, "12,34", TALMUIGA_NOT_READ, 2, ""},
    {NULL, NULL, "1,234x", TALMUIGA_NOT_READ, 5, ""},
    {NULL, NULL, "1,234.", TALMUIGA_NOT_READ, 5, ""},
    {NULL, NULL, "1 234", TALMUIGA_NOT_READ, 1, ""},
    {NULL, NULL, "5\n", TALMUIGA_NOT_READ, 1, ""},
    {NULL, NULL, ".5", TALMUIGA_NOT_READ, 0, ""},
    {NULL, NULL, "x", TALMUIGA_NOT_READ, 0, ""},
    {NULL, NULL, "", TALMUIGA_NOT_READ, 0, ""},
    {NULL, NULL, "1,23\xff", TALMUIGA_NOT_READ, 4, ""},
    {NULL, NULL, "12,34\xff", TALMUIGA_NOT_READ, 5, ""},
    {"de", NULL, "1.234,50", TALMUIGA_DONE, 0, "1234.50"},
    {"de", NULL, "-0,5", TALMUIGA_DONE, 0, "-0.5"},
    {"de", NULL, "1,234.50", TALMUIGA_NOT_READ, 1, ""},
    {"bn", NULL, "১২,৩৪,৫৬৭.৮৯", TALMUIGA_DONE, 0, "1234567.89"},
    {"bn", NULL, "-১", TALMUIGA_DONE, 0, "-1"},
    {"bn", NULL, "১২৩,৪", TALMUIGA_NOT_READ, 9, ""},
    {"bn", NULL, "1234", TALMUIGA_NOT_READ, 0, ""},
    {"xx", NULL, "1", TALMUIGA_NO_READING, 0, ""},
    /* by skeletons: what is shown is read, rounded, scaled and without its sign */
    {NULL, ".00", "1,234.50", TALMUIGA_DONE, 0, "1234.50"},
    {NULL, "scale/100 sign-never", "250", TALMUIGA_DONE, 0, "250"},
    {NULL, "integer-width/+000", "007", TALMUIGA_DONE, 0, "007"},
    {NULL, "group-off", "1,234", TALMUIGA_NOT_READ, 1, ""},
    {NULL, "K", "1.5K", TALMUIGA_NO_READING, 0, ""},
    {NULL, "K .0", "1.5", TALMUIGA_NO_READING, 0, ""},
    {NULL, "percent", "5%", TALMUIGA_NO_READING, 0, ""},
    {NULL, "currency/USD", "$5.00", TALMUIGA_NO_READING, 0, ""},
    {NULL, "currency/USD", "\xff", TALMUIGA_NO_READING, 0, ""},
    {"de", "group-off", "1234,5", TALMUIGA_DONE, 0, "1234.5"},
};

/* Opens the formatter of a row: by a skeleton, in English with ranges too, or by words. */
static uint32_t opened_for_reading(size_t row, talmuiga_formatter **formatter) {
    const char *locale = reading[row].locale, *skeleton = reading[row].skeleton;
    const size_t len = sizeof other_tables - 1;
    if (!locale && !skeleton) return talmuiga_formatter_open_english(formatter);
    if (!locale) {
        return row % 2 ? talmuiga_formatter_open_english_skeleton(skeleton, strlen(skeleton), NULL, formatter)
                       : talmuiga_formatter_open_english_ranges(skeleton, strlen(skeleton), NULL, formatter);
    }
    if (!skeleton) return talmuiga_formatter_open(other_tables, len, locale, "-", "plain", NULL, formatter);
    return talmuiga_formatter_open_skeleton(other_tables, len, locale, skeleton, strlen(skeleton), NULL, formatter);
}

/* Reads in rooms of each length up to that of the decimal, and in a longer one. */
static void judge_reading(size_t row) {
    talmuiga_formatter *formatter;
    const char *decimal = reading[row].decimal;
    const size_t wanted = strlen(decimal);
    if (opened_for_reading(row, &formatter) != TALMUIGA_DONE) {
        judge("a formatter that reads", row, 0);
        return;
    }
    for (size_t room_len = 0; room_len <= wanted + 1; room_len++) {
        char *room = fresh_room();
        size_t length = 99, byte = 99;
        const int fits = wanted <= room_len;
        uint32_t status =
            talmuiga_formatter_read(formatter, reading[row].text, strlen(reading[row].text), room, room_len, &length, &byte);
        judge("a text that is read", row,
              status == (fits ? reading[row].status : (uint32_t)TALMUIGA_OUTPUT_TOO_SMALL) && length == wanted &&
                  byte == reading[row].byte && holds(room, decimal, fits ? wanted : 0));
    }
    talmuiga_formatter_close(formatter);
}

/* Null with length 0, and without a place for the byte. */
static void judge_null_reading(const talmuiga_formatter *formatter) {
    size_t length = 99, byte = 99;
    judge("null that is read", 0,
          talmuiga_formatter_read(formatter, NULL, 0, NULL, 0, &length, &byte) == TALMUIGA_NOT_READ && length == 0 && byte == 0);
    length = 99;
    judge("null in place of the output", 0,
          talmuiga_formatter_read(formatter, "1,234", 5, NULL, 0, &length, NULL) == TALMUIGA_OUTPUT_TOO_SMALL && length == 4);
}

/* Tables, a room, and what their judgement ends in: a status, a length, and what stands in the room. */
static const struct {
    const char *tables;
    size_t room;
    uint32_t status;
    size_t length;
    const char *output;
} judged[] = {
    {tables, 4, TALMUIGA_DONE, 0, ""},
    {"{", 10, TALMUIGA_TABLES_REFUSED, 8, "not JSON"},
    {"{", 7, TALMUIGA_TABLES_REFUSED, 8, ""},
    {"\xff", 9, TALMUIGA_TABLES_REFUSED, 9, "not UTF-8"},
    {"{}", 20, TALMUIGA_TABLES_REFUSED, 20, "`symbols` is missing"},
    {"{\"symbols\":[],\"digits\":[],\"rules\":[{\"locale\":\"_\",\"rules\":[]}]}", 32, TALMUIGA_TABLES_REFUSED, 30,
     "entry 0 of `rules`: bad locale"},
};

static void judge_tables(size_t row) {
    char *room = fresh_room();
    size_t length = 99;
    uint32_t status =
        talmuiga_tables_fault(judged[row].tables, strlen(judged[row].tables), room, judged[row].room, &length);
    judge("tables", row,
          status == judged[row].status && length == judged[row].length &&
              holds(room, judged[row].output, strlen(judged[row].output)));
}

#define ROWS(table) (sizeof(table) / sizeof(table)[0])

#define NAMES(text) text, sizeof(text) - 1

/* Tables, a kind, a room, and what a call for their names ends in: a status, a length, and what is written. */
static const struct {
    const char *tables;
    size_t tables_len;
    uint32_t kind;
    size_t room;
    uint32_t status;
    size_t length;
    const char *written;
} listed[] = {
    {NAMES("{\"symbols\":[{\"locale\":\"en\"},{\"locale\":\"de\"},{\"locale\":\"en\"}]}"), 1, 6, TALMUIGA_DONE, 6, "en\nde\n"},
    {NAMES("{\"symbols\":[{\"locale\":\"en\"},{\"locale\":\"de\"}]}"), 1, 5, TALMUIGA_OUTPUT_TOO_SMALL, 6, ""},
    {NAMES("{\"symbols\":[{\"locale\":7},{},9,{\"locale\":\"de\"}]}"), 1, ROOM, TALMUIGA_DONE, 3, "de\n"},
    {NAMES("{\"digits\":[[\"latn\",\"0123456789\"],[],[\"arab\"]]}"), 2, ROOM, TALMUIGA_DONE, 10, "latn\narab\n"},
    {NAMES("{\"currency_symbols\":[{\"symbols\":[[\"USD\"],[\"EUR\"]]},{},{\"symbols\":[[\"EUR\"],[\"JPY\"]]}]}"), 3, ROOM, TALMUIGA_DONE, 12,
     "USD\nEUR\nJPY\n"},
    {NAMES("{\"units\":[{\"unit\":\"day\",\"width\":\"long\"},{\"unit\":\"day\",\"width\":\"short\"}]}"), 4, ROOM, TALMUIGA_DONE, 4, "day\n"},
    {NAMES("{\"units\":{\"unit\":\"day\"}}"), 4, ROOM, TALMUIGA_DONE, 0, ""},
    {NAMES("{}"), 1, 0, TALMUIGA_DONE, 0, ""},
    {NAMES("[]"), 1, ROOM, TALMUIGA_DONE, 0, ""},
    {NAMES("{\"symbols\":[{\"locale\":\"\\u0000\"}]}"), 1, ROOM, TALMUIGA_DONE, 2, "\0\n"},
    {NAMES("{"), 1, ROOM, TALMUIGA_TABLES_REFUSED, 0, ""},
    {NAMES(""), 4, ROOM, TALMUIGA_TABLES_REFUSED, 0, ""},
    {NAMES("{\"x\":1.5}"), 1, ROOM, TALMUIGA_TABLES_REFUSED, 0, ""},
    {NAMES("\xff"), 1, ROOM, TALMUIGA_TABLES_REFUSED, 0, ""},
    {NAMES("\xff"), 0, ROOM, TALMUIGA_WORDS_REFUSED, 0, ""},
    {NAMES("{}"), 5, ROOM, TALMUIGA_WORDS_REFUSED, 0, ""},
    {NAMES("{}"), 4294967295u, ROOM, TALMUIGA_WORDS_REFUSED, 0, ""},
};

static void judge_listed(size_t row) {
    char *room = fresh_room();
    size_t length = 99, written = listed[row].status == TALMUIGA_DONE ? listed[row].length : 0;
    uint32_t status = talmuiga_tables_list(listed[row].tables, listed[row].tables_len, listed[row].kind, room, listed[row].room, &length);
    judge("names of tables", row,
          status == listed[row].status && length == listed[row].length && holds(room, listed[row].written, written));
}

int main(void) {
    talmuiga_formatter *formatter;
    if (talmuiga_formatter_open_english(&formatter) != TALMUIGA_DONE) return 1;
    for (size_t row = 0; row < ROWS(english); row++) judge_english(row);
    for (size_t row = 0; row < ROWS(asked); row++) judge_asked(row);
    for (size_t row = 0; row < ROWS(reaching); row++) judge_reaching(formatter, row);
    for (size_t row = 0; row < ROWS(one); row++) judge_one(formatter, row);
    for (size_t row = 0; row < ROWS(parts); row++) judge_parts(formatter, row);
    for (size_t row = 0; row < ROWS(reading); row++) judge_reading(row);
    judge_null_reading(formatter);
    for (size_t row = 0; row < ROWS(judged); row++) judge_tables(row);
    for (size_t row = 0; row < ROWS(listed); row++) judge_listed(row);
    talmuiga_formatter_close(formatter);
    return failed;
}
