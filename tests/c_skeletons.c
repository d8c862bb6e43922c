/* Formatters that number skeletons open, a row each: texts, parts, faults with their byte, canonical texts; the order in which
 * locale, skeleton and tables are judged; and skeletons of a megabyte. The words are three files of tables: of six locales, of
 * English with money, and of numbers with units. Texts are those of ICU 72 and parts those of UTS 35 Part 3; bytes of faults are
 * those of ICU's reader, where it has the fault. */
#define TEST "c_skeletons"
#include "c_judging.h"

enum { FILES = 3, SPANS = 8 };
enum { SIX, ENGLISH, UNITS };

static struct tables files[FILES];

static int is_fault(const talmuiga_fault *fault, size_t byte, uint32_t kind, uint32_t thing) {
    return fault->byte == byte && fault->kind == kind && fault->thing == thing;
}

/* The status of a formatter that is opened by a skeleton; the fault was something else before. */
static uint32_t opened(int file, const char *locale, const char *skeleton, size_t len, talmuiga_fault *fault,
                       talmuiga_formatter **formatter) {
    *fault = (talmuiga_fault){77, 78, 79};
    return talmuiga_formatter_open_skeleton(files[file].bytes, files[file].len, locale, skeleton, len, fault, formatter);
}

/* A skeleton, a locale, a number and its text. */
static const struct {
    int file;
    const char *skeleton, *locale, *number, *text;
} texts[] = {
    {SIX, "currency/EUR", "de", "1234567.5", "1.234.567,50\u00a0€"},
    {SIX, "compact-short currency/EUR", "de", "1234567.5", "1,2\u00a0Mio.\u00a0€"},
    {ENGLISH, "K currency/USD", "en", "-999950", "-$1M"},
    {SIX, "KK @@@", "de", "1234567", "1,23 Millionen"},
    {SIX, "K .00", "en", "999994", "999.99K"},
    {SIX, "K .0", "en", "999950", "1.0M"},
    {SIX, "K .0 rounding-mode-down", "en", "999999", "999.9K"},
    {SIX, "%x100 .0", "de", "0.12345", "12,3\u00a0%"},
    {ENGLISH, ".00 sign-accounting currency/USD", "en", "-1.005", "($1.00)"},
    {ENGLISH, "currency/JPY unit-width-full-name", "en", "1", "1 Japanese yen"},
    {SIX, "scale/0.01 currency/EUR", "fr", "123456", "1\u202f234,56\u00a0€"},
    {ENGLISH, "@@# group-off", "en", "1234567", "1230000"},
    {ENGLISH, ".00/@@+", "en", "0.00124", "0.0012"},
    {ENGLISH, "precision-increment/0.25 rounding-mode-half-up", "en", "0.375", "0.50"},
    {ENGLISH, "precision-integer rounding-mode-half-ceiling", "en", "-2.5", "-2"},
    {ENGLISH, "precision-integer rounding-mode-floor", "en", "-0.5", "-1"},
    {ENGLISH, "integer-width/+000 .0", "en", "7.25", "007.2"},
    {SIX, ",? numbering-system/arab", "ar-EG", "1234.5", "١٢٣٤٫٥"},
    {ENGLISH, "+? .00", "en", "-0.001", "0.00"},
    {ENGLISH, ".00/w currency/USD", "en", "2000", "$2,000"},
    {ENGLISH, "sign-negative precision-integer", "en", "-0.4", "0"},
    {ENGLISH, ".0/@@@s", "en", "99.96", "100"},
    {ENGLISH, ".0/@@@r", "en", "99.96", "100.0"},
    {ENGLISH, "@ rounding-mode-floor", "en", "-0.0123", "-0.02"},
    {ENGLISH, "", "en", "1234567.8912345", "1,234,567.891234"},
    {ENGLISH, "", "en", "+0012.50", "12.5"},
    {ENGLISH, "%", "en", "0.5", "0.5%"},
    {UNITS, "unit/kilometer", "en", "-2", "-2 km"},
    {UNITS, "unit/kilometer unit-width-full-name", "en", "1", "1 kilometer"},
};

static void judge_text(size_t row) {
    const char *skeleton = texts[row].skeleton, *wanted = texts[row].text;
    talmuiga_formatter *formatter;
    talmuiga_fault fault;
    talmuiga_reached reached;
    char output[ROOM], line[ROOM];
    size_t length = 99, want = strlen(wanted);
    judge("text", skeleton, "opened",
          opened(texts[row].file, texts[row].locale, skeleton, strlen(skeleton), &fault, &formatter) == TALMUIGA_DONE);
    judge("text", skeleton, "no fault", is_no_fault(&fault));
    if (!formatter) return;
    memset(output, 'x', ROOM);
    uint32_t status = talmuiga_formatter_one(formatter, texts[row].number, strlen(texts[row].number), output, want - 1, &length);
    judge("text", skeleton, "a room that is too small",
          status == TALMUIGA_OUTPUT_TOO_SMALL && length == want && output[0] == 'x');
    status = talmuiga_formatter_one(formatter, texts[row].number, strlen(texts[row].number), output, want, &length);
    judge("text", skeleton, "alone",
          status == TALMUIGA_DONE && length == want && memcmp(output, wanted, want) == 0 && output[want] == 'x');
    snprintf(line, ROOM, "%s\r\nx", texts[row].number);
    status = talmuiga_formatter_format(formatter, line, strlen(line), output, want + 1, &reached);
    judge("text", skeleton, "in a line",
          status == TALMUIGA_OUTPUT_TOO_SMALL && reached.consumed == strlen(line) - 1 && reached.written == want + 1 &&
              reached.needed == 21 && memcmp(output, wanted, want) == 0 && output[want] == '\n');
    talmuiga_formatter_close(formatter);
}

/* A skeleton, a locale, a number, its text and the parts. */
static const struct {
    int file;
    const char *skeleton, *locale, *number, *text;
    size_t count;
    talmuiga_span parts[SPANS];
} marked[] = {
    {ENGLISH, "currency/USD", "en", "-1234.5", "-$1,234.50", 6,
     {{0, 1, TALMUIGA_PART_MINUS_SIGN}, {1, 2, TALMUIGA_PART_CURRENCY}, {2, 7, TALMUIGA_PART_INTEGER},
      {3, 4, TALMUIGA_PART_GROUP}, {7, 8, TALMUIGA_PART_DECIMAL}, {8, 10, TALMUIGA_PART_FRACTION}}},
    {ENGLISH, "currency/USD unit-width-full-name", "en", "1", "1.00 US dollars", 4,
     {{0, 1, TALMUIGA_PART_INTEGER}, {1, 2, TALMUIGA_PART_DECIMAL}, {2, 4, TALMUIGA_PART_FRACTION},
      {5, 15, TALMUIGA_PART_CURRENCY}}},
    {SIX, "percent", "de", "12", "12\u00a0%", 2, {{0, 2, TALMUIGA_PART_INTEGER}, {4, 5, TALMUIGA_PART_PERCENT_SIGN}}},
    {ENGLISH, "permille scale/1000", "en", "0.0123", "12.3\u2030", 4,
     {{0, 2, TALMUIGA_PART_INTEGER}, {2, 3, TALMUIGA_PART_DECIMAL}, {3, 4, TALMUIGA_PART_FRACTION},
      {4, 7, TALMUIGA_PART_PER_MILLE_SIGN}}},
    {UNITS, "unit/kilometer", "en", "-2", "-2 km", 3,
     {{0, 1, TALMUIGA_PART_MINUS_SIGN}, {1, 2, TALMUIGA_PART_INTEGER}, {3, 5, TALMUIGA_PART_UNIT}}},
    {SIX, "compact-short", "en", "-1650", "-1.6K", 1, {{0, 1, TALMUIGA_PART_MINUS_SIGN}}},
};

static void judge_parts(size_t row) {
    const char *skeleton = marked[row].skeleton;
    talmuiga_formatter *formatter;
    talmuiga_fault fault;
    talmuiga_span spans[SPANS];
    struct written it = unwritten();
    size_t count = 99;
    opened(marked[row].file, marked[row].locale, skeleton, strlen(skeleton), &fault, &formatter);
    judge("parts", skeleton, "opened", formatter != NULL);
    if (!formatter) return;
    it.status = talmuiga_formatter_parts(formatter, marked[row].number, strlen(marked[row].number), it.room, ROOM, &it.length,
                                         spans, SPANS, &count);
    judge("parts", skeleton, "the text", is_text(&it, marked[row].text));
    judge("parts", skeleton, "their count", count == marked[row].count);
    for (size_t at = 0; at < marked[row].count && at < count; at++) {
        const talmuiga_span *span = &spans[at], *wanted = &marked[row].parts[at];
        judge("parts", skeleton, "a part", span->start == wanted->start && span->end == wanted->end && span->part == wanted->part);
    }
    talmuiga_formatter_close(formatter);
}

/* Numbers that have no text. */
static const struct {
    const char *skeleton, *number;
    uint32_t status;
} rejected[] = {
    {"currency/USD", "1e3", TALMUIGA_NOT_DECIMAL},
    {"currency/USD", "5\n", TALMUIGA_NOT_DECIMAL},
    {"", "", TALMUIGA_NOT_DECIMAL},
};

static void judge_rejected(size_t row) {
    talmuiga_formatter *formatter;
    talmuiga_fault fault;
    char output[] = "x";
    size_t length = 99, count = 99;
    talmuiga_span span;
    const char *skeleton = rejected[row].skeleton, *number = rejected[row].number;
    opened(ENGLISH, "en", skeleton, strlen(skeleton), &fault, &formatter);
    judge("number", number, "opened", formatter != NULL);
    if (!formatter) return;
    uint32_t status = talmuiga_formatter_one(formatter, number, strlen(number), output, 1, &length);
    judge("number", number, "one", status == rejected[row].status && length == 0 && output[0] == 'x');
    status = talmuiga_formatter_parts(formatter, number, strlen(number), output, 1, &length, &span, 1, &count);
    judge("number", number, "parts", status == rejected[row].status && length == 0 && count == 0 && output[0] == 'x');
    talmuiga_formatter_close(formatter);
}

/* Skeletons with a fault, its byte, its kind and what it names, in numbers and in words. */
#define BYTES(text) text, sizeof(text) - 1
static const struct {
    const char *skeleton;
    size_t len, byte;
    uint32_t kind, thing;
    const char *words;
} faults[] = {
    {BYTES("percent foo"), 8, TALMUIGA_FAULT_UNKNOWN_STEM, 0, "unknown stem"},
    {BYTES("currency"), 8, TALMUIGA_FAULT_OPTION_MISSING, 0, "option missing"},
    {BYTES("currency/"), 9, TALMUIGA_FAULT_EMPTY_OPTION, 0, "empty option"},
    {BYTES("currency/EURO"), 9, TALMUIGA_FAULT_BAD_OPTION, 0, "unknown option"},
    {BYTES("percent/x"), 7, TALMUIGA_FAULT_NO_OPTION_HERE, 0, "no option is taken here"},
    {BYTES(".00 @@"), 4, TALMUIGA_FAULT_REPEATED, 4, "set twice: precision"},
    {BYTES("currency/EUR unit/day"), 13, TALMUIGA_FAULT_REPEATED, 2, "set twice: unit"},
    {BYTES(".00/@@"), 4, TALMUIGA_FAULT_BAD_OPTION, 0, "unknown option"},
    {BYTES("precision-integer/ group-off"), 18, TALMUIGA_FAULT_EMPTY_OPTION, 0, "empty option"},
    {BYTES("scale/2"), 6, TALMUIGA_FAULT_LEFT_OUT, 13, "left out: scale by a number that is no power of ten"},
    {BYTES("%x100 scale/10"), 6, TALMUIGA_FAULT_REPEATED, 7, "set twice: scale"},
    {BYTES("K precision-increment/25"), 2, TALMUIGA_FAULT_INCREMENT_OF_COMPACT, 0,
     "increment of which 1 is no multiple, in compact notation"},
    {BYTES("% scientific"), 2, TALMUIGA_FAULT_LEFT_OUT, 1, "left out: scientific"},
    {BYTES("/x"), 0, TALMUIGA_FAULT_STRAY_SLASH, 0, "slash without a stem"},
    {BYTES("percent\0foo"), 0, TALMUIGA_FAULT_UNKNOWN_STEM, 0, "unknown stem"},
    {BYTES("percent \0"), 8, TALMUIGA_FAULT_UNKNOWN_STEM, 0, "unknown stem"},
    {BYTES("percent\u00a0.00"), 0, TALMUIGA_FAULT_UNKNOWN_STEM, 0, "unknown stem"},
    {BYTES("percent \xe2\x82"), 8, TALMUIGA_FAULT_NOT_UTF8, 0, "not UTF-8"},
    {BYTES("foo\xff"), 3, TALMUIGA_FAULT_NOT_UTF8, 0, "not UTF-8"},
};

static void judge_fault(size_t row) {
    const char *skeleton = faults[row].skeleton;
    talmuiga_formatter *formatter;
    talmuiga_fault fault;
    /* the skeleton comes before the tables, which another locale lacks */
    uint32_t status = opened(ENGLISH, "xx", skeleton, faults[row].len, &fault, &formatter);
    judge("fault", skeleton, "rejected", status == TALMUIGA_SKELETON_REFUSED && !formatter);
    judge("fault", skeleton, "its place", is_fault(&fault, faults[row].byte, faults[row].kind, faults[row].thing));
    judge("fault", skeleton, talmuiga_fault_text(&fault), strcmp(talmuiga_fault_text(&fault), faults[row].words) == 0);
    char output[] = "x";
    size_t length = 99;
    fault = (talmuiga_fault){77, 78, 79};
    status = talmuiga_skeleton_canonical(skeleton, faults[row].len, output, 1, &length, &fault);
    judge("fault", skeleton, "no canonical text", status == TALMUIGA_SKELETON_REFUSED && length == 0 && output[0] == 'x');
    judge("fault", skeleton, "that of the canonical text",
          is_fault(&fault, faults[row].byte, faults[row].kind, faults[row].thing));
}

/* What is judged first: a locale, a skeleton, a file of tables or `{`, and the status. */
static const struct {
    const char *locale, *skeleton;
    int file;
    uint32_t status;
} order[] = {
    {"e_n", "percent foo", SIX, TALMUIGA_WORDS_REFUSED},   {"", "percent", SIX, TALMUIGA_WORDS_REFUSED},
    {"\xff", "percent", SIX, TALMUIGA_WORDS_REFUSED},      {"en", "percent foo", -1, TALMUIGA_SKELETON_REFUSED},
    {"en", "scientific", -1, TALMUIGA_SKELETON_REFUSED},   {"en", "percent", -1, TALMUIGA_TABLES_REFUSED},
    {"xx", "percent", SIX, TALMUIGA_NO_DATA},              {"en", "currency/USD", SIX, TALMUIGA_NO_DATA},
    {"en", "unit/kilometer", SIX, TALMUIGA_NO_DATA},       {"en", "K currency/EUR", UNITS, TALMUIGA_NO_DATA},
};

static void judge_order(size_t row) {
    talmuiga_formatter *formatter;
    talmuiga_fault fault = {77, 78, 79};
    const char *bytes = order[row].file < 0 ? "{" : files[order[row].file].bytes;
    size_t len = order[row].file < 0 ? 1 : files[order[row].file].len;
    uint32_t status = talmuiga_formatter_open_skeleton(bytes, len, order[row].locale, order[row].skeleton,
                                                       strlen(order[row].skeleton), &fault, &formatter);
    judge("order", order[row].skeleton, talmuiga_status_text(status), status == order[row].status && !formatter);
    judge("order", order[row].skeleton, "the fault",
          status == TALMUIGA_SKELETON_REFUSED ? fault.kind != 0 : is_no_fault(&fault));
}

/* Canonical texts. */
static const struct {
    const char *skeleton, *text;
} canonical[] = {
    {"", ""},
    {" \t\u2028", ""},
    {"notation-simple base-unit unit-width-short rounding-mode-half-even sign-auto integer-width/+0 scale/1", ""},
    {"%x100 .00", "percent .00 scale/100"},
    {"  .00\tK ", "compact-short .00"},
    {"currency/eur", "currency/EUR"},
    {"unit/percent", "percent"},
    {"000", "integer-width/*000"},
    {".00+", ".00*"},
    {"numbering-system/latn", "latin"},
    {",_ +! K", "compact-short group-off sign-always"},
    {"permille group-auto", "permille group-auto"},
};

static void judge_canonical(size_t row) {
    const char *skeleton = canonical[row].skeleton, *wanted = canonical[row].text;
    for (size_t room = 0; room < ROOM; room++) {
        struct written it = unwritten();
        talmuiga_fault fault = {77, 78, 79};
        it.status = talmuiga_skeleton_canonical(skeleton, strlen(skeleton), it.room, room, &it.length, &fault);
        judge_room("canonical", skeleton, wanted, room, &it);
        judge("canonical", skeleton, "no fault", is_no_fault(&fault));
    }
}

/* English without tables: a skeleton, what opening it ends in, a number and its text. */
static const struct {
    const char *skeleton;
    uint32_t status;
    const char *number, *text;
} english[] = {
    {"", TALMUIGA_DONE, "1234567.5", "1,234,567.5"},
    {"currency/USD", TALMUIGA_DONE, "-1234.5", "-$1,234.50"},
    {"currency/EUR", TALMUIGA_DONE, "0.125", "€0.12"},
    {"currency/GBP sign-accounting", TALMUIGA_DONE, "-5", "(£5.00)"},
    {"currency/JPY", TALMUIGA_DONE, "1234.5", "¥1,234"},
    {"currency/JPY unit-width-full-name", TALMUIGA_DONE, "1", "1 Japanese yen"},
    {"K currency/USD", TALMUIGA_DONE, "-999950", "-$1M"},
    {"K", TALMUIGA_DONE, "1650", "1.6K"},
    {"KK @@@", TALMUIGA_DONE, "1234567", "1.23 million"},
    {"%x100 .0", TALMUIGA_DONE, "0.12345", "12.3%"},
    {"currency/CHF", TALMUIGA_NO_DATA, NULL, NULL},
    {"unit/kilometer", TALMUIGA_NO_DATA, NULL, NULL},
    {"percent foo", TALMUIGA_SKELETON_REFUSED, NULL, NULL},
    {"percent \xff", TALMUIGA_SKELETON_REFUSED, NULL, NULL},
};

static void judge_english(size_t row) {
    const char *skeleton = english[row].skeleton;
    talmuiga_formatter *formatter;
    talmuiga_fault fault = {77, 78, 79};
    struct written it = unwritten();
    uint32_t status = talmuiga_formatter_open_english_skeleton(skeleton, strlen(skeleton), &fault, &formatter);
    judge_opened("English", skeleton, status, english[row].status, &fault, 8);
    if (!formatter) return;
    it.status = talmuiga_formatter_one(formatter, english[row].number, strlen(english[row].number), it.room, ROOM, &it.length);
    judge("English", skeleton, "its text", is_text(&it, english[row].text));
    talmuiga_formatter_close(formatter);
}

/* Long skeletons of one text over and over: what opening them ends in, and the fault. */
static const struct {
    const char *front, *text;
    size_t times;
    uint32_t status, kind;
} longest[] = {
    {"", "0", MOST, TALMUIGA_SKELETON_REFUSED, TALMUIGA_FAULT_TOO_MANY_DIGITS},
    {"", "/", MOST, TALMUIGA_SKELETON_REFUSED, TALMUIGA_FAULT_STRAY_SLASH},
    {"", " ", MOST, TALMUIGA_DONE, TALMUIGA_FAULT_NONE},
    {"", "@", 999, TALMUIGA_DONE, TALMUIGA_FAULT_NONE},
    {"", "@", 1000, TALMUIGA_SKELETON_REFUSED, TALMUIGA_FAULT_TOO_MANY_DIGITS},
    {"unit/", "a", MOST, TALMUIGA_NO_DATA, TALMUIGA_FAULT_NONE},
};

static void judge_longest(size_t row) {
    static char skeleton[MOST + 32];
    size_t len = strlen(longest[row].front), step = strlen(longest[row].text);
    talmuiga_formatter *formatter;
    talmuiga_fault fault;
    memcpy(skeleton, longest[row].front, len);
    for (size_t i = 0; i < longest[row].times; i++, len += step) memcpy(skeleton + len, longest[row].text, step);
    uint32_t status = opened(ENGLISH, "en", skeleton, len, &fault, &formatter);
    judge("long", longest[row].text, talmuiga_status_text(status), status == longest[row].status);
    judge("long", longest[row].text, "its fault", is_fault(&fault, 0, longest[row].kind, 0));
    talmuiga_formatter_close(formatter);
}

int main(int count, char **words) {
    for (int i = 0; i < FILES; i++) {
        if (count <= FILES || !is_read(files + i, words[i + 1], NULL)) return 2;
    }
    for (size_t row = 0; row < ROWS(texts); row++) judge_text(row);
    for (size_t row = 0; row < ROWS(marked); row++) judge_parts(row);
    for (size_t row = 0; row < ROWS(rejected); row++) judge_rejected(row);
    for (size_t row = 0; row < ROWS(faults); row++) judge_fault(row);
    for (size_t row = 0; row < ROWS(order); row++) judge_order(row);
    for (size_t row = 0; row < ROWS(canonical); row++) judge_canonical(row);
    for (size_t row = 0; row < ROWS(english); row++) judge_english(row);
    for (size_t row = 0; row < ROWS(longest); row++) judge_longest(row);
    return failed;
}
