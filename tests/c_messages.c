/* Messages, a row each: texts in rooms of each length, arguments that are missing or of another kind, texts that are no message, with the
 * kind and the byte of their fault, and the order in which all is judged; what the names and the places of a message are; values that
 * aren't added; English without tables; rooms that are used again; four threads with one message. The words are three files of tables:
 * crates/rows_messages/data/messages.json, of nine locales, to which ordinal rules are added, of English with money, and of six locales.
 * Texts are those of ICU 72, as in crates/rows_messages/data/written.rows and tests/locnum_messages.sh, where locnum writes the same.
 * Faults and statuses are by hand. */
#define TEST "c_messages"
#include "c_judging.h"

enum { FILES = 4, VALUES = 3 };
enum { NINE, ENGLISH, SIX, NO_ORDINALS };

static struct tables files[FILES];

/* CLDR's ordinal rules of English and Welsh. */
static const char ordinals[] =
    ",\"ordinals\":[{\"locale\":\"en\",\"rules\":[[\"one\",\"n % 10 = 1 and n % 100 != 11\"],[\"two\",\"n % 10 = 2 and n % 100 != 12\"],"
    "[\"few\",\"n % 10 = 3 and n % 100 != 13\"]]},{\"locale\":\"cy\",\"rules\":[[\"zero\",\"n = 0,7,8,9\"],[\"one\",\"n = 1\"],"
    "[\"two\",\"n = 2\"],[\"few\",\"n = 3,4\"],[\"many\",\"n = 5,6\"]]}]}";

/* The status of a message that is opened; the fault was something else before. */
static uint32_t opened(int file, const char *locale, const char *text, talmuiga_fault *fault, talmuiga_message **message) {
    *fault = (talmuiga_fault){77, 78, 79};
    return talmuiga_message_open(files[file].bytes, files[file].len, locale, text, strlen(text), fault, message);
}

#define FILES_EN "{n, plural, one{# file} other{# files}}"
#define FILES_RU "{n, plural, one{# файл} few{# файла} many{# файлов} other{# файла}}"
#define FILES_PL "{n, plural, one{# plik} few{# pliki} many{# plików} other{# pliku}}"
#define PLACES_EN "{n, selectordinal, one{#st} two{#nd} few{#rd} other{#th}}"
#define NUMBER(name, text) {name, text, 1}
#define WORD(name, text) {name, text, 0}

/* A file, a locale, a message, values, and its text. */
static const struct {
    int file;
    const char *locale, *message;
    talmuiga_value values[VALUES];
    const char *text;
} texts[] = {
    {NINE, "en", FILES_EN, {NUMBER("n", "1")}, "1 file"},
    {NINE, "en", FILES_EN, {NUMBER("n", "1234567")}, "1,234,567 files"},
    {NINE, "en", FILES_EN, {NUMBER("n", "1.5")}, "1.5 files"},
    {NINE, "en", FILES_EN, {NUMBER("n", "-1")}, "-1 file"},
    {NINE, "en", "{n, plural, =0{no files} one{# file} other{# files}}", {NUMBER("n", "0")}, "no files"},
    {NINE, "en", "{n, plural, =1{the file} one{# file} other{# files}}", {NUMBER("n", "1")}, "the file"},
    {NINE, "ru", FILES_RU, {NUMBER("n", "21")}, "21 файл"},
    {NINE, "ru", FILES_RU, {NUMBER("n", "22")}, "22 файла"},
    {NINE, "ru", FILES_RU, {NUMBER("n", "12")}, "12 файлов"},
    {NINE, "ru", FILES_RU, {NUMBER("n", "1.5")}, "1,5 файла"},
    {NINE, "pl", FILES_PL, {NUMBER("n", "1")}, "1 plik"},
    {NINE, "pl", FILES_PL, {NUMBER("n", "22")}, "22 pliki"},
    {NINE, "pl", FILES_PL, {NUMBER("n", "5")}, "5 plików"},
    {NINE, "ar-EG", "{n, plural, few{# ملفات} many{# ملفًا} other{# ملف}}", {NUMBER("n", "11")}, "١١ ملفًا"},
    {NINE, "lv", "{n, plural, zero{# failu} one{# fails} other{# faili}}", {NUMBER("n", "10")}, "10 failu"},
    {NINE, "ja", "{n, plural, one{x} other{#個のファイル}}", {NUMBER("n", "1")}, "1個のファイル"},
    {NINE, "en", PLACES_EN, {NUMBER("n", "22")}, "22nd"},
    {NINE, "en", PLACES_EN, {NUMBER("n", "112")}, "112th"},
    {NINE, "cy", "{n, selectordinal, one{#af} two{#il} few{#ydd} many{#ed} other{#fed}}", {NUMBER("n", "3")}, "3ydd"},
    {NINE, "en", "{who, select, female{her} male{his} other{their}} {n, plural, one{file} other{files}}",
     {WORD("who", "female"), NUMBER("n", "2")}, "her files"},
    {NINE, "fr", "{who, select, female{Elle a} other{Il a}} {n, plural, one{# fichier} other{# fichiers}}",
     {WORD("who", "x"), NUMBER("n", "0")}, "Il a 0 fichier"},
    {NINE, "en", "{n, plural, one{{who, select, a{A: #} other{#}}} other{{n}}}", {WORD("who", "a"), NUMBER("n", "1")}, "A: #"},
    {NINE, "en", "it's {n}, '{n}', ''{n}'' and #", {NUMBER("n", "5")}, "it's 5, {n}, '5' and #"},
    {NINE, "en", "{who}", {WORD("who", "{n} # '")}, "{n} # '"},
    {NINE, "de", "{0} von {1}", {NUMBER("0", "3"), NUMBER("1", "1000")}, "3 von 1.000"},
    {NINE, "en", "", {NUMBER("n", "5")}, ""},
    /* a number as a text, and of two values of one name the first */
    {NINE, "en", "{n}", {WORD("n", "1000")}, "1000"},
    {NINE, "en", "{n}", {WORD("n", "a"), WORD("n", "b")}, "a"},
    /* without numbers no rules are needed */
    {NO_ORDINALS, "xx", "{who}", {WORD("who", "Ana")}, "Ana"},
    /* places with a form of their own, as locnum writes them */
    {ENGLISH, "en", "{n, number, ::currency/USD}", {NUMBER("n", "1234.5")}, "$1,234.50"},
    {ENGLISH, "en", "{n, number, ::.00} ({n, number, ::compact-short})", {NUMBER("n", "1234567")}, "1,234,567.00 (1.2M)"},
    {ENGLISH, "en", "{n, number, ::K currency/USD}|{n}", {NUMBER("n", "1234567")}, "$1.2M|1,234,567"},
    {ENGLISH, "en", "{n, number} {n, number, ::}", {NUMBER("n", "1234.5")}, "1,234.5 1,234.5"},
    {ENGLISH, "en", "{n, plural, one{{n, number, ::.00} file} other{{n, number, ::.00} files}}", {NUMBER("n", "1")}, "1.00 file"},
    {ENGLISH, "en", "{n, plural, one{# file, {n, number, ::.00}} other{# files, {n, number, ::.00}}}", {NUMBER("n", "1234")},
     "1,234 files, 1,234.00"},
    {ENGLISH, "en", "{who} owes {debt, number, ::currency/EUR}", {WORD("who", "Ben"), NUMBER("debt", "-3.456")}, "Ben owes -€3.46"},
    {SIX, "de", "{n, plural, one{# Datei} other{# Dateien}} {n, number, ::.00}", {NUMBER("n", "1234.5")},
     "1.234,5 Dateien 1.234,50"},
};

/* Opened by its text, it is written alike each time, in rooms of each length. */
static void judge_rooms(size_t row, const talmuiga_message *message, const talmuiga_arguments *arguments) {
    const char *wanted = texts[row].text;
    for (size_t room = 0; room <= strlen(wanted) + 1; room++) {
        struct written it = unwritten();
        talmuiga_word name = {77, 78};
        it.status = talmuiga_message_write(message, arguments, it.room, room, &it.length, &name);
        judge_room("text", wanted, wanted, room, &it);
        judge("text", wanted, "no name", name.start == 0 && name.end == 0);
    }
}

static void judge_text(size_t row) {
    const char *locale = texts[row].locale, *text = texts[row].message, *wanted = texts[row].text;
    const char *tables = files[texts[row].file].bytes;
    const size_t tables_len = files[texts[row].file].len;
    talmuiga_message *message;
    talmuiga_fault fault;
    talmuiga_arguments *arguments = talmuiga_arguments_open();
    struct written it = unwritten();
    size_t count = 0;
    judge("text", wanted, "opened", opened(texts[row].file, locale, text, &fault, &message) == TALMUIGA_DONE);
    judge("text", wanted, "no fault", is_no_fault(&fault));
    if (!message || !arguments) return;
    /* the first time by values that are cleared */
    for (int time = 0; time < 2; time++) {
        uint32_t status = TALMUIGA_DONE;
        talmuiga_arguments_clear(arguments);
        for (count = 0; count < VALUES && texts[row].values[count].name && status == TALMUIGA_DONE; count++) {
            status = talmuiga_arguments_add(arguments, message, text, tables, tables_len, locale, texts[row].values + count);
        }
        judge("text", wanted, "its values", status == TALMUIGA_DONE);
        judge_rooms(row, message, arguments);
    }
    talmuiga_arguments_close(arguments);
    talmuiga_message_close(message);
    it.status = talmuiga_message_format(tables, tables_len, locale, text, texts[row].values, count, it.room, ROOM, &it.length, &fault);
    judge("text", wanted, "in one call", is_text(&it, wanted));
    judge("text", wanted, "no fault in one call", is_no_fault(&fault));
}

/* A message, values, why it isn't written, and the name of which. */
static const struct {
    const char *message;
    talmuiga_value values[VALUES];
    uint32_t status;
    talmuiga_word name;
} faulty[] = {
    {"{n}", {WORD("m", "x")}, TALMUIGA_MISSING_ARGUMENT, {1, 2}},
    {"a {who} b {n}", {WORD("who", "x")}, TALMUIGA_MISSING_ARGUMENT, {11, 12}},
    {FILES_EN, {WORD("N", "1")}, TALMUIGA_MISSING_ARGUMENT, {1, 2}},
    /* in an arm that isn't picked */
    {"{n, plural, one{a} other{{who}}}", {NUMBER("n", "1")}, TALMUIGA_MISSING_ARGUMENT, {26, 29}},
    {FILES_EN, {WORD("n", "1")}, TALMUIGA_NOT_A_NUMBER, {1, 2}},
    {"{n, selectordinal, other{#}}", {WORD("n", "1")}, TALMUIGA_NOT_A_NUMBER, {1, 2}},
    {"{n, number, ::.00}", {WORD("n", "1")}, TALMUIGA_NOT_A_NUMBER, {1, 2}},
    {"{n, number, ::.00}", {NUMBER("n", "1")}, TALMUIGA_MISSING_ARGUMENT, {1, 2}},
    {"{n, select, a{b} other{c}}", {NUMBER("n", "1")}, TALMUIGA_NOT_A_TEXT, {1, 2}},
    {"{who} {n, select, other{c}}", {NUMBER("n", "1")}, TALMUIGA_MISSING_ARGUMENT, {1, 4}},
};

/* Values that are what they say, whatever the message wants, by a formatter of plain numbers. */
static void judge_faulty(size_t row) {
    const char *text = faulty[row].message;
    talmuiga_message *message;
    talmuiga_formatter *formatter;
    talmuiga_fault fault;
    talmuiga_word name = {77, 78};
    struct written it = unwritten();
    talmuiga_arguments *arguments = talmuiga_arguments_open();
    opened(NINE, "en", text, &fault, &message);
    talmuiga_formatter_open_skeleton(files[NINE].bytes, files[NINE].len, "en", "", 0, NULL, &formatter);
    judge("faulty", text, "opened", arguments && message && formatter);
    if (!arguments || !message || !formatter) return;
    for (size_t at = 0; at < VALUES && faulty[row].values[at].name; at++) {
        const talmuiga_value *value = faulty[row].values + at;
        uint32_t status = value->is_number
                              ? talmuiga_arguments_number(arguments, formatter, value->name, value->text, strlen(value->text))
                              : talmuiga_arguments_text(arguments, value->name, value->text, strlen(value->text));
        judge("faulty", text, "a value", status == TALMUIGA_DONE);
    }
    it.status = talmuiga_message_write(message, arguments, it.room, ROOM, &it.length, &name);
    judge("faulty", text, talmuiga_status_text(it.status), it.status == faulty[row].status);
    judge("faulty", text, "its name", name.start == faulty[row].name.start && name.end == faulty[row].name.end);
    judge("faulty", text, "nothing is written", it.length == 0 && is_untouched(it.room, ROOM));
    talmuiga_formatter_close(formatter);
    talmuiga_message_close(message);
    talmuiga_arguments_close(arguments);
}

/* A text that is no message, and the kind and the byte of its fault. */
static const struct {
    const char *text;
    uint32_t kind;
    size_t byte;
} rejected[] = {
    {"a\xff", TALMUIGA_MESSAGE_FAULT_NOT_UTF8, 1},
    {"{n, plural, one", TALMUIGA_MESSAGE_FAULT_END, 15},
    {"{n}}", TALMUIGA_MESSAGE_FAULT_UNOPENED, 3},
    {"'{a", TALMUIGA_MESSAGE_FAULT_OPEN_QUOTE, 0},
    {"{a,select,other{{a,select,other{{a,select,other{{a,select,other{{a,select,other{{a,select,other{{a,select,other{"
     "{a,select,other{{",
     TALMUIGA_MESSAGE_FAULT_TOO_DEEP, 128},
    {"{01}", TALMUIGA_MESSAGE_FAULT_NAME, 1},
    {"{n, date}", TALMUIGA_MESSAGE_FAULT_KIND, 4},
    {"{n, number, integer}", TALMUIGA_MESSAGE_FAULT_STYLE, 12},
    {"{n, number, ::scientific}", TALMUIGA_MESSAGE_FAULT_SKELETON, 14},
    {"{n,plural,other{}}{n,select,other{}}", TALMUIGA_MESSAGE_FAULT_TWO_KINDS, 21},
    {"{n, plural, offset:1 other{}}", TALMUIGA_MESSAGE_FAULT_OFFSET, 12},
    {"{n, plural, uno{x} other{}}", TALMUIGA_MESSAGE_FAULT_KEY, 12},
    {"{n, plural, one{x} one{y} other{}}", TALMUIGA_MESSAGE_FAULT_REPEATED, 19},
    {"{n, plural, one{x}}", TALMUIGA_MESSAGE_FAULT_NO_OTHER, 18},
    {"{n plural}", TALMUIGA_MESSAGE_FAULT_UNEXPECTED, 3},
};

static void judge_rejected(size_t row) {
    const char *text = rejected[row].text;
    talmuiga_message *message;
    talmuiga_fault fault;
    uint32_t status = opened(NINE, "en", text, &fault, &message);
    judge("rejected", text, talmuiga_status_text(status), status == TALMUIGA_MESSAGE_REFUSED && !message);
    judge("rejected", text, "its kind", fault.kind == rejected[row].kind);
    judge("rejected", text, "its byte", fault.byte == rejected[row].byte);
    judge("rejected", text, "the skeleton's fault",
          fault.thing == (uint32_t)(fault.kind == TALMUIGA_MESSAGE_FAULT_SKELETON ? TALMUIGA_FAULT_LEFT_OUT : 0));
    fault = (talmuiga_fault){77, 78, 79};
    status = talmuiga_message_open_english(text, strlen(text), &fault, &message);
    judge("rejected", text, "in English without tables",
          status == TALMUIGA_MESSAGE_REFUSED && !message && fault.kind == rejected[row].kind && fault.byte == rejected[row].byte);
}

/* A text of too many bytes, and one of as many as there may be. */
static void judge_long(void) {
    enum { LONGEST = 65535 };
    static char text[LONGEST + 1];
    talmuiga_message *message;
    talmuiga_fault fault;
    memset(text, 'a', sizeof text);
    uint32_t status = talmuiga_message_open_english(text, sizeof text, &fault, &message);
    judge("long", "a byte too many", talmuiga_status_text(status), status == TALMUIGA_MESSAGE_REFUSED && !message);
    judge("long", "a byte too many", "its fault", fault.kind == TALMUIGA_MESSAGE_FAULT_TOO_LONG && fault.byte == LONGEST);
    status = talmuiga_message_open_english(text, LONGEST, NULL, &message);
    judge("long", "the longest", talmuiga_status_text(status), status == TALMUIGA_DONE);
    talmuiga_message_close(message);
}

/* What is judged first when a message is opened: a locale, a text, a file of tables or other bytes, and the status. */
static const struct {
    const char *locale, *text;
    int file;
    const char *bytes;
    uint32_t status;
} order[] = {
    {"e_n", "a\xff", SIX, "\xff", TALMUIGA_WORDS_REFUSED},
    {"en", "a\xff", SIX, "\xff", TALMUIGA_MESSAGE_REFUSED},
    {"en", "{n}}", SIX, "\xff", TALMUIGA_TABLES_REFUSED},
    {"en", "{n}}", SIX, "{", TALMUIGA_MESSAGE_REFUSED},
    {"en", "{n}", SIX, "{", TALMUIGA_TABLES_REFUSED},
    {"xx", FILES_EN, SIX, NULL, TALMUIGA_NO_DATA},
    {"de", "{n, selectordinal, other{#.}}", NINE, NULL, TALMUIGA_NO_DATA},
    {"en", "{n, selectordinal, other{#.}}", NO_ORDINALS, NULL, TALMUIGA_NO_DATA},
    {"en", "{n, selectordinal, other{#.}}", NINE, NULL, TALMUIGA_DONE},
    {"xx", "{n}", NO_ORDINALS, NULL, TALMUIGA_DONE},
};

static void judge_order(size_t row) {
    talmuiga_message *message;
    talmuiga_fault fault = {77, 78, 79};
    const char *bytes = order[row].bytes ? order[row].bytes : files[order[row].file].bytes;
    size_t len = order[row].bytes ? 1 : files[order[row].file].len;
    uint32_t status = talmuiga_message_open(bytes, len, order[row].locale, order[row].text, strlen(order[row].text), &fault, &message);
    judge("order", order[row].text, talmuiga_status_text(status), status == order[row].status);
    judge("order", order[row].text, "opened or not", (message != NULL) == (status == TALMUIGA_DONE));
    judge("order", order[row].text, "the fault", status == TALMUIGA_MESSAGE_REFUSED ? fault.kind != 0 : is_no_fault(&fault));
    talmuiga_message_close(message);
}

/* Names with their kinds, and places with a form, by what stands in the text. */
static void judge_asked(void) {
    static const char text[] = "{who} {a, number} {b, number, ::.00} {c, select, x{{a, number, ::K}} other{}} {d, plural, other{#{who}}}";
    static const struct {
        const char *name;
        uint32_t kind;
    } names[] = {{"who", TALMUIGA_ANY_ARGUMENT},
                 {"a", TALMUIGA_NUMBER_ARGUMENT},
                 {"b", TALMUIGA_NUMBER_ARGUMENT},
                 {"c", TALMUIGA_TEXT_ARGUMENT},
                 {"d", TALMUIGA_NUMBER_ARGUMENT}};
    static const char *const places[][2] = {{"a", ""}, {"b", ".00"}, {"a", "K"}};
    talmuiga_message *message;
    talmuiga_named named;
    talmuiga_place place;
    talmuiga_message_open_english(text, sizeof text - 1, NULL, &message);
    judge("asked", text, "opened", message != NULL);
    if (!message) return;
    for (size_t at = 0; at < 5; at++) {
        uint32_t status = talmuiga_message_name(message, at, &named);
        judge("asked", names[at].name, "its name", status == TALMUIGA_DONE && talmuiga_is_word(text, named.name, names[at].name));
        judge("asked", names[at].name, "its kind", named.kind == names[at].kind);
    }
    named = (talmuiga_named){{7, 8}, 9};
    uint32_t status = talmuiga_message_name(message, 5, &named);
    judge("asked", text, "no more names",
          status == TALMUIGA_NO_SUCH_PLACE && named.name.start == 0 && named.name.end == 0 && named.kind == 0);
    for (size_t at = 0; at < 3; at++) {
        status = talmuiga_message_place(message, at, &place);
        judge("asked", places[at][1], "its place",
              status == TALMUIGA_DONE && talmuiga_is_word(text, place.name, places[at][0]) &&
                  talmuiga_is_word(text, place.skeleton, places[at][1]));
    }
    place = (talmuiga_place){{7, 8}, {9, 10}};
    status = talmuiga_message_place(message, 3, &place);
    judge("asked", text, "no more places",
          status == TALMUIGA_NO_SUCH_PLACE && !place.name.start && !place.name.end && !place.skeleton.start && !place.skeleton.end);
    status = talmuiga_message_place(message, (size_t)-1, &place);
    judge("asked", text, "none at the greatest index", status == TALMUIGA_NO_SUCH_PLACE);
    talmuiga_message_close(message);
}

/* Values that aren't added leave the arguments as they were. */
static void judge_values(void) {
    talmuiga_formatter *by_words, *by_skeleton, *for_ranges;
    talmuiga_message *message;
    talmuiga_arguments *arguments = talmuiga_arguments_open();
    struct written it = unwritten();
    static char nines[32769];
    memset(nines, '9', sizeof nines);
    talmuiga_formatter_open_english(&by_words);
    talmuiga_formatter_open_english_skeleton("%x100", 5, NULL, &by_skeleton);
    talmuiga_formatter_open_english_ranges("", 0, NULL, &for_ranges);
    talmuiga_message_open_english("{n}{n, number, ::%x100}", 23, NULL, &message);
    judge("values", "all", "opened", arguments && by_words && by_skeleton && for_ranges && message);
    if (!arguments || !by_words || !by_skeleton || !for_ranges || !message) return;
    judge("values", "a text", "not UTF-8", talmuiga_arguments_text(arguments, "n", "\xff", 1) == TALMUIGA_NOT_UTF8);
    judge("values", "a name", "not UTF-8", talmuiga_arguments_text(arguments, "\xff", "n", 1) == TALMUIGA_NOT_UTF8);
    judge("values", "a number's name", "not UTF-8",
          talmuiga_arguments_number(arguments, by_words, "\xff", "1", 1) == TALMUIGA_NOT_UTF8);
    judge("values", "a skeleton", "not UTF-8",
          talmuiga_arguments_form(arguments, by_words, "n", "\xff", 1, "1", 1) == TALMUIGA_NOT_UTF8);
    judge("values", "a formatter by words", "no form", talmuiga_arguments_number(arguments, by_words, "n", "x", 1) == TALMUIGA_NO_FORM);
    judge("values", "a formatter by words", "no form of a place",
          talmuiga_arguments_form(arguments, by_words, "n", "", 0, "1", 1) == TALMUIGA_NO_FORM);
    judge("values", "no number", "not a decimal",
          talmuiga_arguments_number(arguments, by_skeleton, "n", "x", 1) == TALMUIGA_NOT_DECIMAL);
    judge("values", "no number", "not a decimal in its place",
          talmuiga_arguments_form(arguments, by_skeleton, "n", "%x100", 5, "", 0) == TALMUIGA_NOT_DECIMAL);
    judge("values", "nines", "too many digits",
          talmuiga_arguments_number(arguments, by_skeleton, "n", nines, sizeof nines) == TALMUIGA_TOO_MANY_DIGITS);
    judge("values", "nines", "overflow",
          talmuiga_arguments_number(arguments, by_skeleton, "n", nines, sizeof nines - 1) == TALMUIGA_OVERFLOW);
    judge("values", "none", "missing",
          talmuiga_message_write(message, arguments, it.room, ROOM, &it.length, NULL) == TALMUIGA_MISSING_ARGUMENT);
    judge("values", "a number", "added by a formatter for ranges",
          talmuiga_arguments_number(arguments, for_ranges, "n", "1234", 4) == TALMUIGA_DONE);
    judge("values", "a number", "its place is missing",
          talmuiga_message_write(message, arguments, it.room, ROOM, &it.length, NULL) == TALMUIGA_MISSING_ARGUMENT);
    judge("values", "a number", "added for its place",
          talmuiga_arguments_form(arguments, by_skeleton, "n", "%x100", 5, "0.5", 3) == TALMUIGA_DONE);
    it.status = talmuiga_message_write(message, arguments, it.room, ROOM, &it.length, NULL);
    judge("values", "both", "written", is_text(&it, "1,23450%"));
    /* the formatters are as they were */
    it.status = talmuiga_formatter_one(by_skeleton, "0.5", 3, it.room, ROOM, &it.length);
    judge("values", "the formatter", "as it was", is_text(&it, "50%"));
    talmuiga_formatter_close(by_words);
    talmuiga_formatter_close(by_skeleton);
    talmuiga_formatter_close(for_ranges);
    talmuiga_message_close(message);
    talmuiga_arguments_close(arguments);
}

/* The room of what was closed takes each of the three. */
static void judge_reuse(void) {
    talmuiga_formatter *room = talmuiga_formatter_new();
    talmuiga_message message;
    talmuiga_arguments arguments;
    talmuiga_fault fault;
    talmuiga_named named;
    judge("reuse", "room", "found", room != NULL);
    if (!room) return;
    message.at = arguments.at = room->at;
    for (int time = 0; time < 3; time++) {
        uint32_t status = talmuiga_formatter_open_english_sized(room);
        judge("reuse", "a formatter", "opened", status == TALMUIGA_DONE);
        talmuiga_formatter_close_sized(room);
        status = talmuiga_message_open_english_sized((const uint8_t *)"{n}}", 4, &fault, &message);
        judge("reuse", "a text that is no message", "not opened", status == TALMUIGA_MESSAGE_REFUSED);
        status = talmuiga_message_open_english_sized((const uint8_t *)"{n}", 3, &fault, &message);
        judge("reuse", "a message", "opened", status == TALMUIGA_DONE && is_no_fault(&fault));
        judge("reuse", "a message", "its name", talmuiga_message_name_sized(&message, 0, &named) == TALMUIGA_DONE && named.name.end == 2);
        talmuiga_message_close_sized(&message);
        talmuiga_arguments_open_sized(&arguments);
        status = talmuiga_arguments_text_sized(&arguments, (const uint8_t *)"n", 1, (const uint8_t *)"x", 1);
        judge("reuse", "arguments", "a text", status == TALMUIGA_DONE);
        talmuiga_arguments_close_sized(&arguments);
    }
    free(room);
}

/* English without tables. */
static void judge_english(void) {
    static const char text[] = FILES_EN ", " PLACES_EN;
    struct written it = unwritten();
    talmuiga_message *message;
    talmuiga_formatter *formatter;
    talmuiga_arguments *arguments = talmuiga_arguments_open();
    talmuiga_message_open_english(text, sizeof text - 1, NULL, &message);
    talmuiga_formatter_open_english_skeleton("", 0, NULL, &formatter);
    judge("English", text, "opened", arguments && message && formatter);
    if (!arguments || !message || !formatter) return;
    judge("English", text, "a number", talmuiga_arguments_number(arguments, formatter, "n", "1022", 4) == TALMUIGA_DONE);
    it.status = talmuiga_message_write(message, arguments, it.room, ROOM, &it.length, NULL);
    judge("English", text, "written", is_text(&it, "1,022 files, 1,022nd"));
    talmuiga_formatter_close(formatter);
    talmuiga_message_close(message);
    talmuiga_arguments_close(arguments);
}

/* What threads share. */
struct shared {
    const talmuiga_message *message;
    const talmuiga_formatter *formatter;
};

/* A thousand messages by a message and a formatter that other threads use too; whether each has its text. */
static void *writes_many(void *given) {
    const struct shared *shared = given;
    talmuiga_arguments *arguments = talmuiga_arguments_open();
    void *ended = arguments ? given : NULL;
    for (int i = 0; ended && i < 1000; i++) {
        char number[ROOM], wanted[ROOM];
        struct written it = unwritten();
        int len = snprintf(number, ROOM, "%d", i);
        snprintf(wanted, ROOM, i == 1 ? "%d file" : "%d files", i);
        talmuiga_arguments_clear(arguments);
        it.status = talmuiga_arguments_number(arguments, shared->formatter, "n", number, (size_t)len);
        if (it.status == TALMUIGA_DONE) {
            it.status = talmuiga_message_write(shared->message, arguments, it.room, ROOM, &it.length, NULL);
        }
        if (!is_text(&it, wanted)) ended = NULL;
    }
    talmuiga_arguments_close(arguments);
    return ended;
}

static void judge_threads(void) {
    talmuiga_message *message;
    talmuiga_formatter *formatter;
    talmuiga_message_open_english(FILES_EN, sizeof FILES_EN - 1, NULL, &message);
    talmuiga_formatter_open_english_skeleton("", 0, NULL, &formatter);
    judge("threads", FILES_EN, "opened", message && formatter);
    if (!message || !formatter) return;
    struct shared shared = {message, formatter};
    judge_in_threads(FILES_EN, writes_many, &shared);
    talmuiga_formatter_close(formatter);
    talmuiga_message_close(message);
}

int main(int count, char **words) {
    if (count < 4) return 2;
    for (int i = 0; i < FILES; i++) {
        if (!is_read(files + i, words[i == NO_ORDINALS ? 1 : i + 1], i == NINE ? ordinals : NULL)) return 2;
    }
    for (size_t row = 0; row < ROWS(texts); row++) judge_text(row);
    for (size_t row = 0; row < ROWS(faulty); row++) judge_faulty(row);
    for (size_t row = 0; row < ROWS(rejected); row++) judge_rejected(row);
    for (size_t row = 0; row < ROWS(order); row++) judge_order(row);
    judge_long();
    judge_asked();
    judge_values();
    judge_reuse();
    judge_english();
    judge_threads();
    return failed;
}
