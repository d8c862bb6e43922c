/* Ranges by formatters that are opened for them, a row each: texts in rooms of each length, why a range isn't written, what a formatter
 * isn't opened by, and the order in which all is judged; English without tables; four threads with one formatter. The words are four
 * files of tables: of six locales, of English with money, of numbers with units, and of the numbers of more locales. The keys below are
 * added to them: the ranges, and to the last file units too, all of CLDR but for what a comment names.
 * Texts are those of ICU 72 (NumberRangeFormatter by a skeleton). Where signs or compact patterns are written for each end here, and by
 * ICU once for both, the comment has ICU's text. Statuses are by hand. */
#define TEST "c_ranges"
#include "c_judging.h"

enum { WORDS = 4, FILES = 7, MANY = 32770 };
enum { SIX, ENGLISH, UNITS, MORE, BAD_PATTERN, BAD_CATEGORIES, REPEATED };

static struct tables files[FILES];

#define RANGES(locale, separator) "{\"locale\":\"" locale "\",\"pattern\":\"{0}" separator "{1}\"}"
#define KILOMETERS(locale, patterns) "{\"locale\":\"" locale "\",\"width\":\"long\",\"unit\":\"kilometer\",\"patterns\":" patterns "}"
#define DAYS(locale, patterns) "{\"locale\":\"" locale "\",\"width\":\"long\",\"unit\":\"day\",\"patterns\":" patterns "}"
#define CATEGORIES(locale, triples) "{\"locale\":\"" locale "\",\"ranges\":" triples "}"

/* Bengali has no pattern, and that of Arabic with Latin digits is made up. Of the units are there only those that the rows need; in
 * Latvian, where CLDR gives every range the category `one`, ranges have no categories. */
static const char *const keys[FILES] = {
    [SIX] = ",\"ranges\":[" RANGES("en", "–") "," RANGES("de", "–") "," RANGES("fr", "–") "," RANGES("ja", "～") "," RANGES("ar-EG", "–")
            ",{\"locale\":\"ar-EG\",\"system\":\"latn\",\"pattern\":\"{0}~{1}\"}],"
            "\"plural_ranges\":[" CATEGORIES("fr", "[[\"one\",\"one\",\"one\"]]") "]}",
    [UNITS] = ",\"ranges\":[" RANGES("en", "–") "]}",
    [MORE] = ",\"ranges\":[" RANGES("en", "–") "," RANGES("sl", "–") "," RANGES("lv", "–") "," RANGES("ar-EG", "–") "," RANGES("pl", "–") "],"
             "\"plural_ranges\":[" CATEGORIES("sl", "[[\"one\",\"one\",\"few\"],[\"one\",\"two\",\"two\"],[\"other\",\"one\",\"few\"]]") ","
             CATEGORIES("ar-EG", "[[\"one\",\"few\",\"few\"]]") "," CATEGORIES("pl", "[[\"one\",\"many\",\"many\"]]") "],"
             "\"units\":["
             KILOMETERS("en", "{\"one\":\"{0} kilometer\",\"other\":\"{0} kilometers\"}") ","
             KILOMETERS("sl", "{\"one\":\"{0} kilometer\",\"two\":\"{0} kilometra\",\"few\":\"{0} kilometri\",\"other\":\"{0} kilometrov\"}") ","
             KILOMETERS("lv", "{\"zero\":\"{0} kilometru\",\"one\":\"{0} kilometrs\",\"other\":\"{0} kilometri\"}") ","
             DAYS("ar-EG", "{\"one\":\"يوم\",\"two\":\"يومان\",\"few\":\"{0} أيام\",\"other\":\"{0} يوم\"}") ","
             DAYS("pl", "{\"one\":\"{0} doba\",\"few\":\"{0} doby\",\"many\":\"{0} dób\",\"other\":\"{0} doby\"}") "]}",
    [BAD_PATTERN] = ",\"ranges\":[" RANGES("en", "") "]}",
    [BAD_CATEGORIES] = ",\"ranges\":[" RANGES("en", "–") "],\"plural_ranges\":0}",
    [REPEATED] = ",\"ranges\":[" RANGES("en", "–") "],"
                 "\"plural_ranges\":[" CATEGORIES("en", "[[\"one\",\"other\",\"one\"],[\"one\",\"other\",\"one\"]]") "]}",
};

/* The status of a formatter that is opened for ranges; the fault was something else before. */
static uint32_t opened(int file, const char *locale, const char *skeleton, talmuiga_fault *fault, talmuiga_formatter **formatter) {
    *fault = (talmuiga_fault){77, 78, 79};
    return talmuiga_formatter_open_ranges(files[file].bytes, files[file].len, locale, skeleton, strlen(skeleton), fault, formatter);
}

/* A text, in a row of its own or as a digit over and over. */
struct end {
    const char *text;
    size_t times;
};

#define TEXT(text) {text, 0}
#define NINES(times) {"9", times}

/* The bytes of an end, in a room of its own where they are many. */
static const char *bytes_of(const struct end *end, char *room, size_t *len) {
    if (!end->times) {
        *len = strlen(end->text);
        return end->text;
    }
    memset(room, end->text[0], end->times);
    *len = end->times;
    return room;
}

/* A skeleton, a locale, two numbers and the text of their range. */
static const struct {
    int file;
    const char *skeleton, *locale, *start, *end, *text;
} texts[] = {
    {SIX, "", "en", "3", "5", "3–5"},
    {SIX, "", "en", "-3", "5", "-3 – 5"},
    {SIX, "", "de", "1234.5", "9999", "1.234,5–9.999"},
    {SIX, "", "ja", "1000", "2000", "1,000～2,000"},
    {SIX, "", "ar-EG", "1", "2", "١–٢"},
    {SIX, "numbering-system/latn", "ar-EG", "1", "2", "1~2"},
    {ENGLISH, "", "en", "-0", "0", "-0 – 0"},
    {ENGLISH, "sign-always .0", "en", "1", "2", "+1.0 – +2.0"},
    {ENGLISH, "precision-integer", "en", "2.4", "2.6", "2–3"},
    /* equal texts are one, with the approximately sign */
    {SIX, "", "en", "3", "3", "~3"},
    {ENGLISH, "precision-integer", "en", "2.6", "3.4", "~3"},
    {ENGLISH, "", "en", "-3", "-3", "~-3"},
    {ENGLISH, "K", "en", "1100000", "1120000", "~1.1M"},
    {ENGLISH, "currency/USD", "en", "3", "3", "~$3.00"},
    {ENGLISH, "currency/USD", "en", "-3", "-3", "~-$3.00"},
    {ENGLISH, "%x100", "en", "0.03", "0.03", "~3%"},
    {ENGLISH, "sign-accounting currency/USD", "en", "-3", "-3", "($3.00)"},
    /* ICU writes 900–2K, and 1–2 thousand twice */
    {ENGLISH, "K", "en", "900", "2000", "900 – 2K"},
    {ENGLISH, "KK", "en", "1", "2000", "1 – 2 thousand"},
    {ENGLISH, "KK", "en", "1000", "2000", "1 thousand – 2 thousand"},
    {ENGLISH, "currency/USD", "en", "3", "5", "$3.00 – $5.00"},
    {SIX, "currency/EUR", "de", "3", "5", "3,00–5,00\u00a0€"},
    {SIX, "currency/EUR", "de", "-5", "3", "-5,00\u00a0€ – 3,00\u00a0€"},
    /* ICU writes ($5.00–3.00), and $1–2K */
    {ENGLISH, "sign-accounting currency/USD", "en", "-5", "-3", "($5.00) – ($3.00)"},
    {ENGLISH, "K currency/USD", "en", "1000", "2000", "$1K – $2K"},
    {ENGLISH, "%x100", "en", "0.03", "0.05", "3% – 5%"},
    {SIX, "%x100", "de", "0.03", "0.05", "3–5\u00a0%"},
    /* ICU writes -5–3\u00a0% */
    {SIX, "%x100", "de", "-0.05", "-0.03", "-5\u00a0% – -3\u00a0%"},
    /* units and names stand once, in the pattern of the range's category */
    {UNITS, "unit/kilometer", "en", "3", "5", "3–5 km"},
    {UNITS, "unit/kilometer", "en", "-5", "-3", "-5 – -3 km"},
    {MORE, "unit/kilometer unit-width-full-name", "en", "0", "1", "0–1 kilometers"},
    {MORE, "unit/kilometer unit-width-full-name", "en", "-1", "1", "-1 – 1 kilometers"},
    {MORE, "unit/kilometer unit-width-full-name .0", "en", "0.96", "1", "~1.0 kilometers"},
    {MORE, "unit/kilometer unit-width-full-name", "sl", "0", "1", "0–1 kilometri"},
    {MORE, "unit/kilometer unit-width-full-name", "sl", "1", "2", "1–2 kilometra"},
    {MORE, "unit/kilometer unit-width-full-name", "sl", "100", "101", "100–101 kilometri"},
    {MORE, "unit/day unit-width-full-name", "pl", "1", "5", "1–5 dób"},
    {MORE, "unit/day unit-width-full-name", "ar-EG", "1", "5", "١–٥ أيام"},
    {ENGLISH, "percent unit-width-full-name", "en", "3", "5000", "3–5,000 percent"},
    {ENGLISH, "currency/USD unit-width-full-name", "en", "1", "2", "1.00–2.00 US dollars"},
    {ENGLISH, "currency/USD unit-width-full-name", "en", "-2", "-1", "-2.00 – -1.00 US dollars"},
    {SIX, "currency/EUR unit-width-full-name", "de", "1", "2", "1,00–2,00 Euro"},
    {SIX, "currency/EUR unit-width-full-name", "fr", "0", "1", "0,00–1,00 euro"},
    {SIX, "currency/EUR unit-width-full-name", "fr", "0", "2", "0,00–2,00 euros"},
    /* compact numbers have their patterns each, and the unit once */
    {UNITS, "K unit/kilometer", "en", "1000", "2000", "1K – 2K km"},
    {ENGLISH, "K currency/USD unit-width-full-name", "en", "1000", "2000", "1K – 2K US dollars"},
    {ENGLISH, "KK currency/USD unit-width-full-name", "en", "1000000", "1000001", "~1 million US dollars"},
    /* a pattern without a place for a number isn't that of a range */
    {MORE, "unit/day unit-width-full-name", "ar-EG", "1", "2", "١–٢ يوم"},
    {MORE, "unit/day unit-width-full-name", "ar-EG", "2", "2", "يومان"},
    /* without categories of ranges each is `other`; by hand */
    {MORE, "unit/kilometer unit-width-full-name", "lv", "0", "1", "0–1 kilometri"},
};

/* One number, its lines and its parts are those of a formatter that was opened without ranges. */
static void judge_alike(size_t row, const talmuiga_formatter *formatter) {
    const char *number = texts[row].end;
    struct written it[2] = {unwritten(), unwritten()};
    char lines[2][ROOM];
    size_t count[2];
    talmuiga_reached reached[2];
    talmuiga_span spans[2][ROOM];
    talmuiga_formatter *other = NULL;
    talmuiga_formatter_open_skeleton(files[texts[row].file].bytes, files[texts[row].file].len, texts[row].locale, texts[row].skeleton,
                                     strlen(texts[row].skeleton), NULL, &other);
    judge("alike", texts[row].skeleton, "opened", other != NULL);
    if (!other) return;
    for (int i = 0; i < 2; i++) {
        const talmuiga_formatter *used = i ? other : formatter;
        uint32_t status =
            talmuiga_formatter_parts(used, number, strlen(number), it[i].room, ROOM, &it[i].length, spans[i], ROOM, count + i);
        judge("alike", texts[row].skeleton, "a number", status == TALMUIGA_DONE);
        status = talmuiga_formatter_format(used, number, strlen(number), lines[i], ROOM, reached + i);
        judge("alike", texts[row].skeleton, "a line", status == TALMUIGA_DONE);
    }
    judge("alike", texts[row].skeleton, "its text", it[0].length == it[1].length && memcmp(it[0].room, it[1].room, ROOM) == 0);
    judge("alike", texts[row].skeleton, "its parts", count[0] == count[1]);
    for (size_t i = 0; i < count[0] && i < count[1]; i++) {
        judge("alike", texts[row].skeleton, "a part",
              spans[0][i].start == spans[1][i].start && spans[0][i].end == spans[1][i].end && spans[0][i].part == spans[1][i].part);
    }
    judge("alike", texts[row].skeleton, "its line",
          reached[0].written == reached[1].written && memcmp(lines[0], lines[1], reached[0].written) == 0);
    uint32_t status = talmuiga_formatter_range(other, "3", 1, "5", 1, it[0].room, ROOM, &it[0].length);
    judge("alike", texts[row].skeleton, "no ranges without a pattern", status == TALMUIGA_NO_PATTERN && it[0].length == 0);
    talmuiga_formatter_close(other);
}

static void judge_text(size_t row) {
    const char *skeleton = texts[row].skeleton, *wanted = texts[row].text;
    talmuiga_formatter *formatter;
    talmuiga_fault fault;
    judge("text", wanted, "opened", opened(texts[row].file, texts[row].locale, skeleton, &fault, &formatter) == TALMUIGA_DONE);
    judge("text", wanted, "no fault", is_no_fault(&fault));
    if (!formatter) return;
    for (size_t room = 0; room <= strlen(wanted) + 1; room++) {
        struct written it = unwritten();
        it.status = talmuiga_formatter_range(formatter, texts[row].start, strlen(texts[row].start), texts[row].end,
                                             strlen(texts[row].end), it.room, room, &it.length);
        judge_room("text", wanted, wanted, room, &it);
    }
    judge_alike(row, formatter);
    talmuiga_formatter_close(formatter);
}

/* Two numbers whose range has no text, and the status. */
static const struct {
    int file;
    const char *skeleton;
    struct end start, end;
    uint32_t status;
} rejected[] = {
    {ENGLISH, "", TEXT("5"), TEXT("3"), TALMUIGA_DESCENDING},
    {ENGLISH, "", TEXT("-3"), TEXT("-5"), TALMUIGA_DESCENDING},
    {ENGLISH, "", TEXT("0.1"), TEXT("-0"), TALMUIGA_DESCENDING},
    {ENGLISH, "precision-integer", TEXT("3.4"), TEXT("2.6"), TALMUIGA_DESCENDING},
    {ENGLISH, "currency/USD", TEXT("5"), TEXT("3"), TALMUIGA_DESCENDING},
    {ENGLISH, "", TEXT("x"), TEXT("y"), TALMUIGA_NOT_DECIMAL},
    {ENGLISH, "", TEXT(""), TEXT("5"), TALMUIGA_NOT_DECIMAL},
    {ENGLISH, "", TEXT("5\n"), TEXT("3"), TALMUIGA_NOT_DECIMAL},
    {ENGLISH, "", TEXT("3"), TEXT("1e3"), TALMUIGA_END_NOT_DECIMAL},
    {ENGLISH, "", TEXT("3"), TEXT(""), TALMUIGA_END_NOT_DECIMAL},
    {ENGLISH, "", TEXT("3"), TEXT("\xff"), TALMUIGA_END_NOT_DECIMAL},
    {ENGLISH, "", NINES(32769), TEXT("1"), TALMUIGA_TOO_MANY_DIGITS},
    {ENGLISH, "", TEXT("1"), NINES(32769), TALMUIGA_END_TOO_MANY_DIGITS},
    {ENGLISH, "%x100", NINES(32768), NINES(32768), TALMUIGA_OVERFLOW},
    {ENGLISH, "%x100", TEXT("1"), NINES(32768), TALMUIGA_END_OVERFLOW},
    {ENGLISH, "K", NINES(32768), NINES(32768), TALMUIGA_OVERFLOW},
    {ENGLISH, "K", TEXT("1"), NINES(32768), TALMUIGA_END_OVERFLOW},
    /* what overflows as a compact number alone is judged last */
    {ENGLISH, "K", NINES(32768), TEXT("1"), TALMUIGA_DESCENDING},
    {UNITS, "unit/kilometer", TEXT("5"), TEXT("3"), TALMUIGA_DESCENDING},
    {UNITS, "unit/kilometer", TEXT("x"), TEXT("y"), TALMUIGA_NOT_DECIMAL},
    {UNITS, "unit/kilometer", TEXT("1"), NINES(32769), TALMUIGA_END_TOO_MANY_DIGITS},
    {UNITS, "unit/kilometer scale/100", TEXT("1"), NINES(32768), TALMUIGA_END_OVERFLOW},
    {ENGLISH, "currency/USD unit-width-full-name", TEXT("5"), TEXT("3"), TALMUIGA_DESCENDING},
    {ENGLISH, "currency/USD unit-width-full-name", TEXT("3"), TEXT("y"), TALMUIGA_END_NOT_DECIMAL},
    {UNITS, "K unit/kilometer", TEXT("x"), TEXT("5"), TALMUIGA_NOT_DECIMAL},
    {UNITS, "K unit/kilometer", TEXT("1"), NINES(32768), TALMUIGA_END_OVERFLOW},
    {ENGLISH, "KK currency/USD unit-width-full-name", TEXT("5"), TEXT("3"), TALMUIGA_DESCENDING},
    {ENGLISH, "KK currency/USD unit-width-full-name", NINES(32768), NINES(32768), TALMUIGA_OVERFLOW},
};

static void judge_rejected(size_t row) {
    static char start_room[MANY], end_room[MANY], output[2 * MANY];
    const char *skeleton = rejected[row].skeleton;
    size_t start_len, end_len, length = 99;
    const char *start = bytes_of(&rejected[row].start, start_room, &start_len), *end = bytes_of(&rejected[row].end, end_room, &end_len);
    talmuiga_formatter *formatter;
    talmuiga_fault fault;
    judge("rejected", skeleton, "opened", opened(rejected[row].file, "en", skeleton, &fault, &formatter) == TALMUIGA_DONE);
    if (!formatter) return;
    memset(output, 'x', sizeof output);
    uint32_t status = talmuiga_formatter_range(formatter, start, start_len, end, end_len, output, sizeof output, &length);
    judge("rejected", start, talmuiga_status_text(status), status == rejected[row].status);
    judge("rejected", start, "nothing is written", length == 0 && is_untouched(output, sizeof output));
    length = 99;
    status = talmuiga_formatter_range(formatter, start, start_len, end, end_len, NULL, 0, &length);
    judge("rejected", start, "without room", status == rejected[row].status && length == 0);
    talmuiga_formatter_close(formatter);
}

/* What is judged first when a formatter is opened: a locale, a skeleton, a file of tables or `{`, and the status. */
static const struct {
    const char *locale, *skeleton;
    int file;
    uint32_t status;
} order[] = {
    {"e_n", "percent foo", SIX, TALMUIGA_WORDS_REFUSED},
    {"\xff", "percent", SIX, TALMUIGA_WORDS_REFUSED},
    {"en", "percent foo", -1, TALMUIGA_SKELETON_REFUSED},
    {"en", "scientific", -1, TALMUIGA_SKELETON_REFUSED},
    {"en", "percent", -1, TALMUIGA_TABLES_REFUSED},
    {"xx", "percent", SIX, TALMUIGA_NO_DATA},
    {"en", "currency/CHF", ENGLISH, TALMUIGA_NO_DATA},
    {"bn", "", SIX, TALMUIGA_NO_PATTERN},
    {"bn", "currency/EUR", SIX, TALMUIGA_NO_PATTERN},
    {"de", "currency/EUR", UNITS, TALMUIGA_NO_PATTERN},
    {"en", "", BAD_PATTERN, TALMUIGA_TABLES_REFUSED},
    {"en", "", BAD_CATEGORIES, TALMUIGA_TABLES_REFUSED},
    {"en", "", REPEATED, TALMUIGA_TABLES_REFUSED},
    /* the categories of all locales are judged before the pattern of this one */
    {"de", "", REPEATED, TALMUIGA_TABLES_REFUSED},
    /* the form comes before the pattern */
    {"xx", "", BAD_PATTERN, TALMUIGA_NO_DATA},
    {"xx", "", BAD_CATEGORIES, TALMUIGA_NO_DATA},
};

static void judge_order(size_t row) {
    talmuiga_formatter *formatter;
    talmuiga_fault fault = {77, 78, 79};
    const char *bytes = order[row].file < 0 ? "{" : files[order[row].file].bytes;
    size_t len = order[row].file < 0 ? 1 : files[order[row].file].len;
    uint32_t status = talmuiga_formatter_open_ranges(bytes, len, order[row].locale, order[row].skeleton, strlen(order[row].skeleton),
                                                     &fault, &formatter);
    judge("order", order[row].skeleton, talmuiga_status_text(status), status == order[row].status && !formatter);
    judge("order", order[row].skeleton, "the fault", status == TALMUIGA_SKELETON_REFUSED ? fault.kind != 0 : is_no_fault(&fault));
}

/* English without tables: a skeleton, what opening it ends in, and the text of the range from 3 to 5000. */
static const struct {
    const char *skeleton;
    uint32_t status;
    const char *text;
} english[] = {
    {"", TALMUIGA_DONE, "3–5,000"},
    {"currency/USD", TALMUIGA_DONE, "$3.00 – $5,000.00"},
    {"K", TALMUIGA_DONE, "3 – 5K"},
    {"currency/USD unit-width-full-name", TALMUIGA_DONE, "3.00–5,000.00 US dollars"},
    {"percent unit-width-full-name", TALMUIGA_DONE, "3–5,000 percent"},
    {"currency/CHF", TALMUIGA_NO_DATA, NULL},
    {"unit/kilometer", TALMUIGA_NO_DATA, NULL},
    {"percent foo", TALMUIGA_SKELETON_REFUSED, NULL},
};

static void judge_english(size_t row) {
    const char *skeleton = english[row].skeleton;
    talmuiga_formatter *formatter;
    talmuiga_fault fault = {77, 78, 79};
    struct written it = unwritten();
    uint32_t status = talmuiga_formatter_open_english_ranges(skeleton, strlen(skeleton), &fault, &formatter);
    judge_opened("English", skeleton, status, english[row].status, &fault, 8);
    if (!formatter) return;
    it.status = talmuiga_formatter_range(formatter, "3", 1, "5000", 4, it.room, ROOM, &it.length);
    judge("English", skeleton, "its text", is_text(&it, english[row].text));
    talmuiga_formatter_close(formatter);
}

/* A formatter has no ranges: the range of two texts has no pattern, whatever they are. */
static void judge_unranged(const char *which, talmuiga_formatter *formatter) {
    struct written it = unwritten();
    it.status = talmuiga_formatter_range(formatter, "x", 1, "5", 1, it.room, ROOM, &it.length);
    judge("without", which, "no pattern", it.status == TALMUIGA_NO_PATTERN && it.length == 0 && is_untouched(it.room, ROOM));
}

/* Formatters that were opened without ranges, and the room of one that was closed. */
static void judge_without(void) {
    struct written it = unwritten();
    talmuiga_formatter *formatter;
    talmuiga_fault fault;
    talmuiga_formatter_open_english(&formatter);
    judge("without", "English", "opened", formatter != NULL);
    if (!formatter) return;
    judge_unranged("English", formatter);
    talmuiga_formatter_close_sized(formatter);
    uint32_t status = talmuiga_formatter_open_english_ranges_sized((const uint8_t *)"K", 1, &fault, formatter);
    judge("without", "the room of a closed one", "opened for ranges", status == TALMUIGA_DONE);
    it.status = talmuiga_formatter_range(formatter, "1000", 4, "2000", 4, it.room, ROOM, &it.length);
    judge("without", "the room of a closed one", "a range", is_text(&it, "1K – 2K"));
    talmuiga_formatter_close_sized(formatter);
    status = talmuiga_formatter_open_english_sized(formatter);
    judge("without", "the room of a closed one", "opened without", status == TALMUIGA_DONE);
    judge_unranged("the room of a closed one", formatter);
    talmuiga_formatter_close(formatter);
    status = talmuiga_formatter_open(files[SIX].bytes, files[SIX].len, "en", "-", "plain", NULL, &formatter);
    judge("without", "words", "opened", status == TALMUIGA_DONE);
    if (status) return;
    judge_unranged("words", formatter);
    talmuiga_formatter_close(formatter);
}

/* A thousand ranges by a formatter that other threads use too; whether each has its text. */
static void *writes_many(void *shared) {
    const talmuiga_formatter *formatter = shared;
    for (int i = 0; i < 1000; i++) {
        char number[ROOM], wanted[ROOM] = "~0";
        struct written it = unwritten();
        int len = snprintf(number, ROOM, "%d", i);
        if (i) snprintf(wanted, ROOM, "0–%d", i);
        it.status = talmuiga_formatter_range(formatter, "0", 1, number, (size_t)len, it.room, ROOM, &it.length);
        if (!is_text(&it, wanted)) return NULL;
    }
    return shared;
}

static void judge_threads(void) {
    talmuiga_formatter *formatter;
    judge("threads", "English", "opened", talmuiga_formatter_open_english_ranges("", 0, NULL, &formatter) == TALMUIGA_DONE);
    if (!formatter) return;
    judge_in_threads("English", writes_many, formatter);
    talmuiga_formatter_close(formatter);
}

int main(int count, char **words) {
    if (count <= WORDS) return 2;
    for (int i = 0; i < FILES; i++) {
        if (!is_read(files + i, words[i < WORDS ? i + 1 : SIX + 1], keys[i])) return 2;
    }
    for (size_t row = 0; row < ROWS(texts); row++) judge_text(row);
    for (size_t row = 0; row < ROWS(rejected); row++) judge_rejected(row);
    for (size_t row = 0; row < ROWS(order); row++) judge_order(row);
    for (size_t row = 0; row < ROWS(english); row++) judge_english(row);
    judge_without();
    judge_threads();
    return failed;
}
