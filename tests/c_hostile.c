/* Bad input for the library for C, by a file of tables with money: numbers that are none, by each kind of formatter; random texts that are
 * read as numbers; tables that are cut short, changed, or of another version; rooms of closed formatters that are used again; and eight
 * threads that format with one formatter while they open and close others. */
#include "talmuiga.h"

#include <pthread.h>
#include <stdio.h>

enum { MOST = 1 << 20, ROOM = 256, THREADS = 8, TIMES = 200, CANARY = 64 };

static char tables[MOST];
static size_t tables_len;
static int failed;

static void judge(const char *what, size_t which, int holds) {
    if (!holds) {
        fprintf(stderr, "c_hostile: %s: %zu\n", what, which);
        failed = 1;
    }
}

#define BYTES(text) text, sizeof(text) - 1

/* Texts that are no decimals, as no locale writes them either. */
static const struct {
    const char *bytes;
    size_t len;
} none[] = {
    {BYTES("")},         {BYTES("NaN")},        {BYTES("nan")},         {BYTES("-nan")},       {BYTES("inf")},
    {BYTES("Infinity")}, {BYTES("-Infinity")},  {BYTES("+inf")},        {BYTES("1e3")},        {BYTES("1E+3")},
    {BYTES("0x10")},     {BYTES("1,000")},      {BYTES("1 000")},       {BYTES(" 1")},         {BYTES("1 ")},
    {BYTES("--1")},      {BYTES("+-1")},        {BYTES(".")},           {BYTES("1.2.3")},      {BYTES("\0")},
    {BYTES("5\0")},      {BYTES("\0005")},      {BYTES("5\0005")},      {BYTES("\xff")},       {BYTES("5\xe2\x82")},
    {BYTES("\u0661")},   {BYTES("5\u00a0")},    {BYTES("\xef\xbb\xbf" "5")}, {BYTES("\xed\xa0\x80")}, {BYTES("\u22125")},
    {BYTES("\u221e")},   {BYTES("null")},
};

enum { ENGLISH, BY_WORDS, SHORT, BY_SKELETON, COMPACT, PERCENT, KINDS };

/* Opens a formatter of a kind. */
static talmuiga_formatter *opened(int kind) {
    static const char *const skeletons[KINDS] = {NULL, NULL, NULL, "currency/EUR", "K .0", "%x100 .0"};
    talmuiga_formatter *formatter = NULL;
    uint32_t status = kind == ENGLISH    ? talmuiga_formatter_open_english(&formatter)
                      : kind == BY_WORDS ? talmuiga_formatter_open(tables, tables_len, "de", "-", "plain", NULL, &formatter)
                      : kind == SHORT    ? talmuiga_formatter_open(tables, tables_len, "de", "-", "short", NULL, &formatter)
                                         : talmuiga_formatter_open_skeleton(tables, tables_len, "de", skeletons[kind],
                                                                            strlen(skeletons[kind]), NULL, &formatter);
    judge("opened", (size_t)kind, status == TALMUIGA_DONE && formatter);
    return formatter;
}

/* What each kind of formatter writes of -1234567.5. */
static const char *const shown[KINDS] = {"-1,234,567.5", "-1.234.567,5", "-1,2 Mio.", "-1.234.567,50\u00a0€", "-1,2 Mio.",
                                         "-123.456.750,0\u00a0%"};

static int shows(const talmuiga_formatter *formatter, int kind) {
    char output[ROOM];
    size_t length;
    uint32_t status = talmuiga_formatter_one(formatter, BYTES("-1234567.5"), output, ROOM, &length);
    return status == TALMUIGA_DONE && length == strlen(shown[kind]) && memcmp(output, shown[kind], length) == 0;
}

/* A text that is no decimal is refused alone, with parts and in a line, unless it is two lines. */
static void judge_none(const talmuiga_formatter *formatter, size_t row) {
    static const char line[] = "error: not a decimal\n";
    char output[ROOM];
    size_t length = 99, count = 99;
    talmuiga_span span = {7, 7, 7};
    talmuiga_reached reached;
    memset(output, 'x', ROOM);
    uint32_t status = talmuiga_formatter_one(formatter, none[row].bytes, none[row].len, output, ROOM, &length);
    judge("no decimal", row, status == TALMUIGA_NOT_DECIMAL && length == 0 && output[0] == 'x');
    status = talmuiga_formatter_parts(formatter, none[row].bytes, none[row].len, output, ROOM, &length, &span, 1, &count);
    judge("no decimal in parts", row,
          status == TALMUIGA_NOT_DECIMAL && length == 0 && count == 0 && output[0] == 'x' && span.part == 7);
    status = talmuiga_formatter_format(formatter, none[row].bytes, none[row].len, output, ROOM, &reached);
    size_t wanted = none[row].len ? sizeof line - 1 : 0;
    judge("no decimal in a line", row,
          status == TALMUIGA_DONE && reached.written == wanted && memcmp(output, line, wanted) == 0 && output[wanted] == 'x');
}

static void judge_numbers(void) {
    for (int kind = 0; kind < KINDS; kind++) {
        talmuiga_formatter *formatter = opened(kind);
        judge("shown", (size_t)kind, formatter && shows(formatter, kind));
        for (size_t row = 0; formatter && row < sizeof none / sizeof *none; row++) judge_none(formatter, row);
        judge("shown again", (size_t)kind, formatter && shows(formatter, kind));
        talmuiga_formatter_close(formatter);
    }
}

/* A formatter of plain German numbers with a strategy for groups. */
static talmuiga_formatter *german(const char *grouping) {
    talmuiga_formatter *formatter = NULL;
    talmuiga_formatter_open(tables, tables_len, "de", "-", "plain", grouping, &formatter);
    return formatter;
}

/* Whether a formatter writes this text of a decimal. */
static int writes(const talmuiga_formatter *formatter, const char *decimal, size_t decimal_len, const char *text, size_t len) {
    char output[ROOM];
    size_t length;
    uint32_t status = talmuiga_formatter_one(formatter, decimal, decimal_len, output, ROOM, &length);
    return status == TALMUIGA_DONE && length == len && memcmp(output, text, len) == 0;
}

/* Random texts of the bytes of numbers, and of one that is no text: what is read of one is written again in the same bytes, with groups or
 * with none; in another the byte of the fault stands in it, or behind its end. */
static void judge_texts(void) {
    static const char bytes[] = "0123456789012345678901234567890123456789....,,-+ \xff";
    talmuiga_formatter *grouped = german(NULL), *ungrouped = german("never");
    uint32_t seed = 22;
    size_t read = 0;
    judge("German", 0, grouped && ungrouped);
    for (size_t time = 0; grouped && ungrouped && time < 100 * TIMES; time++) {
        char text[8], decimal[ROOM];
        size_t len = time % sizeof text, length = 99, byte = 99;
        for (size_t at = 0; at < len; at++) {
            seed = seed * 1103515245u + 12345u;
            text[at] = bytes[(seed >> 16) % (sizeof bytes - 1)];
        }
        memset(decimal, 'x', ROOM);
        uint32_t status = talmuiga_formatter_read(grouped, text, len, decimal, ROOM, &length, &byte);
        if (status == TALMUIGA_DONE) {
            read++;
            judge("a text that is read", time, byte == 0 && decimal[length] == 'x');
            judge("a text that is read is written again", time,
                  writes(grouped, decimal, length, text, len) || writes(ungrouped, decimal, length, text, len));
        } else {
            judge("a text that isn't read", time, status == TALMUIGA_NOT_READ && length == 0 && byte <= len && decimal[0] == 'x');
        }
    }
    judge("so many texts are read", read, read > TIMES);
    talmuiga_formatter_close(grouped);
    talmuiga_formatter_close(ungrouped);
}

/* The status of a price's formatter by some bytes of tables. */
static uint32_t by_tables(const char *bytes, size_t len) {
    talmuiga_formatter *formatter;
    uint32_t status = talmuiga_formatter_open_skeleton(bytes, len, "de", BYTES("currency/EUR"), NULL, &formatter);
    talmuiga_formatter_close(formatter);
    return status;
}

/* Whether tables of some bytes are accepted or refused, and a formatter then isn't or is refused for them. */
static int agrees(const char *bytes, size_t len) {
    char words[ROOM];
    size_t length;
    uint32_t judged = talmuiga_tables_fault(bytes, len, words, ROOM, &length), status = by_tables(bytes, len);
    return judged == TALMUIGA_TABLES_REFUSED ? status == TALMUIGA_TABLES_REFUSED || status == TALMUIGA_DONE || status == TALMUIGA_NO_DATA
                                             : judged == TALMUIGA_DONE;
}

/* Tables cut short at each byte, and with each byte changed. */
static void judge_damaged(void) {
    static char copy[MOST];
    size_t last = tables_len;
    while (last > 0 && tables[last - 1] != '}') last--;
    for (size_t len = 0; len < last; len += 1 + len / 97) {
        judge("tables cut short", len, by_tables(tables, len) == TALMUIGA_TABLES_REFUSED);
    }
    memcpy(copy, tables, tables_len);
    for (size_t at = 0; at < tables_len; at += 7) {
        static const char other[] = {0, ' ', '"', '}', '9', '\xff', '{'};
        copy[at] = other[at / 7 % sizeof other];
        judge("tables with a byte changed", at, agrees(copy, tables_len));
        copy[at] = tables[at];
    }
}

/* Tables of other versions, and texts that are none: the status. */
static const struct {
    const char *bytes;
    size_t len;
    uint32_t status;
} versions[] = {
    {BYTES(""), TALMUIGA_TABLES_REFUSED},
    {BYTES("{}"), TALMUIGA_TABLES_REFUSED},
    {BYTES("[]"), TALMUIGA_TABLES_REFUSED},
    {BYTES("null"), TALMUIGA_TABLES_REFUSED},
    {BYTES("{\"version\": 2}"), TALMUIGA_TABLES_REFUSED},
    {BYTES("{\"symbols\":[],\"digits\":[],\"rules\":[]}"), TALMUIGA_NO_DATA},
    {BYTES("{\"symbols\":[],\"digits\":[],\"rules\":[],\"exponents\":[7],\"version\":9}"), TALMUIGA_NO_DATA},
    {BYTES("{\"symbols\":[],\"digits\":[],\"rules\":[]}\0"), TALMUIGA_TABLES_REFUSED},
    {BYTES("\0{\"symbols\":[],\"digits\":[],\"rules\":[]}"), TALMUIGA_TABLES_REFUSED},
    {BYTES("{\"symbols\":{},\"digits\":[],\"rules\":[]}"), TALMUIGA_TABLES_REFUSED},
    {BYTES("{\"symbols\":[],\"digits\":[],\"rules\":[],\"currencies\":7}"), TALMUIGA_TABLES_REFUSED},
    {BYTES("{\"symbols\":[],\"digits\":[],\"rules\":[],\"x\":1.5}"), TALMUIGA_TABLES_REFUSED},
    {BYTES("\xef\xbb\xbf{\"symbols\":[],\"digits\":[],\"rules\":[]}"), TALMUIGA_TABLES_REFUSED},
};

static void judge_versions(void) {
    static char deep[MOST];
    for (size_t row = 0; row < sizeof versions / sizeof *versions; row++) {
        judge("tables of another version", row, by_tables(versions[row].bytes, versions[row].len) == versions[row].status);
    }
    memset(deep, '[', MOST);
    judge("a megabyte of brackets", MOST, by_tables(deep, MOST) == TALMUIGA_TABLES_REFUSED);
    memset(deep, '9', MOST);
    judge("a megabyte of digits", MOST, by_tables(deep, MOST) == TALMUIGA_TABLES_REFUSED);
}

/* One room for all kinds in turn, full of other bytes before; nothing behind it is written. */
static void judge_rooms(void) {
    size_t room = talmuiga_formatter_room();
    uint8_t *bytes = aligned_alloc(16, (room + CANARY + 15) / 16 * 16);
    if (!bytes) exit(3);
    memset(bytes + room, 0x5a, CANARY);
    for (size_t time = 0; time < TIMES; time++) {
        static const char *const asked[] = {"currency/EUR", "percent foo", "K .0", "currency/XTS"};
        const char *skeleton = asked[time % 4];
        talmuiga_formatter formatter = {bytes};
        talmuiga_fault fault = {7, 7, 7};
        memset(bytes, (int)time, room);
        uint32_t status = talmuiga_formatter_open_skeleton_sized((const uint8_t *)tables, tables_len, (const uint8_t *)"de", 2,
                                                                 (const uint8_t *)skeleton, strlen(skeleton), &fault, &formatter);
        judge("a room again", time, status == (time % 4 == 1 ? TALMUIGA_SKELETON_REFUSED : time % 4 == 3 ? TALMUIGA_NO_DATA : 0u));
        if (status == TALMUIGA_DONE) {
            judge("a number in a room again", time, shows(&formatter, time % 4 ? COMPACT : BY_SKELETON));
            talmuiga_formatter_close_sized(&formatter);
            /* by another kind in the same room, as the closed one left it */
            judge("English in a room again", time,
                  talmuiga_formatter_open_english_sized(&formatter) == TALMUIGA_DONE && shows(&formatter, ENGLISH));
            talmuiga_formatter_close_sized(&formatter);
        }
        for (size_t i = 0; i < CANARY; i++) judge("behind the room", i, bytes[room + i] == 0x5a);
    }
    free(bytes);
}

/* Null in place of texts of length 0. */
static void judge_null(void) {
    talmuiga_formatter *formatter;
    size_t length = 99;
    judge("null for a skeleton", 0, talmuiga_formatter_open_english_skeleton(NULL, 0, NULL, &formatter) == TALMUIGA_DONE);
    judge("null for a number", 0, talmuiga_formatter_one(formatter, NULL, 0, NULL, 0, &length) == TALMUIGA_NOT_DECIMAL && length == 0);
    talmuiga_formatter_close(formatter);
    judge("null for tables", 0, talmuiga_tables_list(NULL, 0, TALMUIGA_LIST_UNITS, NULL, 0, &length) == TALMUIGA_TABLES_REFUSED);
    judge("null for names", 0, talmuiga_tables_list("{\"units\":[{\"unit\":\"day\"}]}", 26, TALMUIGA_LIST_UNITS, NULL, 0, &length) ==
                                       TALMUIGA_OUTPUT_TOO_SMALL && length == 4);
    judge("null for a canonical text", 0, talmuiga_skeleton_canonical(NULL, 0, NULL, 0, &length, NULL) == TALMUIGA_DONE && length == 0);
    judge("null for a locale", 0,
          talmuiga_formatter_open_skeleton(tables, tables_len, NULL, NULL, 0, NULL, &formatter) == TALMUIGA_WORDS_REFUSED && !formatter);
}

static talmuiga_formatter *shared[KINDS];

static void *in_a_thread(void *right) {
    int holds = 1;
    for (int time = 0; time < TIMES; time++) {
        int kind = time % KINDS;
        talmuiga_formatter *own = opened(kind);
        holds = holds && own && shows(own, kind) && shows(shared[kind], kind) && shows(shared[(kind + 1) % KINDS], (kind + 1) % KINDS);
        talmuiga_formatter_close(own);
    }
    *(int *)right = holds;
    return NULL;
}

static void judge_threads(void) {
    pthread_t threads[THREADS];
    int right[THREADS] = {0};
    for (int kind = 0; kind < KINDS; kind++) shared[kind] = opened(kind);
    for (size_t i = 0; i < THREADS; i++) judge("a thread", i, !pthread_create(&threads[i], NULL, in_a_thread, &right[i]));
    for (size_t i = 0; i < THREADS; i++) {
        pthread_join(threads[i], NULL);
        judge("what a thread sees", i, right[i]);
    }
    for (int kind = 0; kind < KINDS; kind++) talmuiga_formatter_close(shared[kind]);
}

int main(int count, char **words) {
    FILE *file = count == 2 ? fopen(words[1], "rb") : NULL;
    if (!file) return fputs("c_hostile: TABLES\n", stderr), 2;
    tables_len = fread(tables, 1, MOST, file);
    fclose(file);
    judge_numbers();
    judge_texts();
    judge_damaged();
    judge_versions();
    judge_rooms();
    judge_null();
    judge_threads();
    return failed;
}
