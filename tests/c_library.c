/* Rooms of each length for the output of a few lines, in English and by the tables whose file is the first word; rooms that
 * are longer than any memory; words of each kind of length, why tables are refused, and null with length 0.
 *
 * A room stands in front of bytes that nobody may touch, so that a call that reads or writes past it ends the process, and
 * once in front of bytes that have to stay as they were. */
#define _DEFAULT_SOURCE
#include "talmuiga.h"

#include <stdio.h>
#include <string.h>
#include <sys/mman.h>

enum { PAGE = 65536, BEHIND = 64 };

/* What is formatted, by which words, and the output; no locale is plain English, without tables. */
struct sample {
    const char *locale, *system, *style, *grouping, *input, *all;
};

static const struct sample samples[] = {
    {NULL, NULL, NULL, NULL, "5\n6\r\n1234", "5\n6\n1,234\n"},
    {NULL, NULL, NULL, NULL, "-987654.321\n\n.5\n1e3\n", "-987,654.321\nerror: not a decimal\n0.5\nerror: not a decimal\n"},
    {"en", "-", "plain", "never", "1000\n1000000\n", "1000\n1000000\n"},
    {"en", "-", "short", NULL, "1650\n1750\nx\n10000000000000000\n", "1.6K\n1.8K\nerror: not a decimal\n10,000T\n"},
    {"bn", "-", "plain", NULL, "1000007\n0\n", "১০,০০,০০৭\n০\n"},
    {"fr", "-", "long", "min2", "1000\n1172700", "mille\n1,2 million\n"},
};

/* Words and tables that are refused, with the status. */
struct refusal {
    const char *tables, *locale, *system, *style, *grouping;
    uint32_t status;
};

static const struct refusal refusals[] = {
    {NULL, "en", "-", "tall", NULL, TALMUIGA_WORDS_REFUSED},
    {NULL, "en", "-", "plain", "min3", TALMUIGA_WORDS_REFUSED},
    {NULL, "en", "Latn", "plain", NULL, TALMUIGA_WORDS_REFUSED},
    {NULL, NULL, NULL, NULL, NULL, TALMUIGA_WORDS_REFUSED},
    {"{", "en", "-", "plain", NULL, TALMUIGA_TABLES_REFUSED},
    {"\xff", "en", "-", "plain", NULL, TALMUIGA_TABLES_REFUSED},
    {"", "en", "-", "plain", NULL, TALMUIGA_TABLES_REFUSED},
    {NULL, "xx", "-", "plain", NULL, TALMUIGA_NO_DATA},
    {NULL, "fr", "-", "short", NULL, TALMUIGA_NO_DATA},
};

static char tables[1 << 20];
static size_t tables_len;

/* As much memory as PAGE, in front of a page that nobody may touch. */
static char *guarded;

static int failed;

static void tell(const char *what, size_t sample, size_t room, uint32_t status, size_t written) {
    fprintf(stderr, "c_library: %s: sample %zu, room %zu: status %u, %zu written\n", what, sample, room, status, written);
    failed = 1;
}

/* The byte that stands at a place of the output before the call. */
static char before(size_t at, size_t room) {
    return (char)(at * 7 + room + 1);
}

/* How much of an output fits in a room, by whole lines. */
static size_t fits(const char *all, size_t room) {
    size_t end = room < strlen(all) ? room : strlen(all);
    while (end > 0 && all[end - 1] != '\n')
        end--;
    return end;
}

static uint32_t format(const struct sample *it, char *output, size_t room, size_t *written) {
    return it->locale ? talmuiga_format_lines(tables, tables_len, it->locale, it->system, it->style, it->grouping,
                                              it->input, strlen(it->input), output, room, written)
                      : talmuiga_format_english(it->input, strlen(it->input), output, room, written);
}

/* Whether some bytes are a text, and those behind it up to an end are as they were before the call. */
static int holds(const char *output, const char *text, size_t len, size_t end, size_t room) {
    if (memcmp(output, text, len))
        return 0;
    for (size_t at = len; at < end; at++)
        if (output[at] != before(at, room))
            return 0;
    return 1;
}

/* A sample in a room of this length, which begins so many bytes in front of the ones that nobody may touch. */
static void judge_room(size_t sample, size_t room, size_t from_guard) {
    const struct sample *it = &samples[sample];
    char *output = guarded + PAGE - from_guard;
    size_t written = (size_t)-1, wanted = fits(it->all, room);
    for (size_t at = 0; at < from_guard; at++)
        output[at] = before(at, room);
    uint32_t status = format(it, output, room, &written);
    if (status != (room < strlen(it->all) ? TALMUIGA_OUTPUT_TOO_SMALL : TALMUIGA_DONE))
        tell("another status", sample, room, status, written);
    if (written != wanted)
        tell("another length", sample, room, status, written);
    else if (!holds(output, it->all, written, from_guard, room))
        tell("other bytes", sample, room, status, written);
}

/* A room that is told to be longer than it is, as SIZE_MAX, has just the output in front of the guard. */
static void judge_endless_room(size_t sample, size_t room) {
    const struct sample *it = &samples[sample];
    size_t written = (size_t)-1, len = strlen(it->all);
    char *output = guarded + PAGE - len;
    memset(output, 'x', len);
    uint32_t status = format(it, output, room, &written);
    if (status != TALMUIGA_DONE || written != len || memcmp(output, it->all, len))
        tell("an endless room", sample, room, status, written);
}

/* A refusal writes nothing, and says so. */
static void judge_refusal(size_t number, size_t room) {
    const struct refusal *it = &refusals[number];
    char output[BEHIND];
    size_t written = (size_t)-1;
    for (size_t at = 0; at < sizeof output; at++)
        output[at] = before(at, room);
    uint32_t status = talmuiga_format_lines(it->tables ? it->tables : tables, it->tables ? strlen(it->tables) : tables_len,
                                            it->locale, it->system, it->style, it->grouping, "5\n", 2, output, room,
                                            &written);
    if (status != it->status || written != 0 || !holds(output, "", 0, sizeof output, room))
        tell("a refusal", number, room, status, written);
}

/* Why tables are refused, in a room of this length: the words are there if they fit, and else nothing is written. */
static void judge_fault(const char *refused, const char *words, size_t room) {
    char output[BEHIND];
    size_t length = (size_t)-1, wanted = strlen(words), fits = wanted <= room ? wanted : 0;
    for (size_t at = 0; at < sizeof output; at++)
        output[at] = before(at, room);
    uint32_t status = talmuiga_tables_fault(refused, strlen(refused), output, room, &length);
    if (status != TALMUIGA_TABLES_REFUSED || length != wanted || !holds(output, words, fits, sizeof output, room))
        tell("a fault of tables", 0, room, status, length);
}

/* Tables that are accepted have no fault. */
static void judge_no_fault(void) {
    char output[] = "x";
    size_t length = 99;
    uint32_t status = talmuiga_tables_fault(tables, tables_len, output, 1, &length);
    if (status != TALMUIGA_DONE || length != 0 || output[0] != 'x')
        tell("a fault of the sample", 0, 1, status, length);
}

/* Null with length 0 is no line, no tables and no word. */
static void judge_null(void) {
    size_t written = 99;
    uint32_t status = talmuiga_format_english(NULL, 0, NULL, 0, &written);
    if (status != TALMUIGA_DONE || written != 0)
        tell("null isn't no line", 0, 0, status, written);
    written = 99;
    status = talmuiga_format_lines(tables, tables_len, "en", "-", "plain", NULL, NULL, 0, NULL, 0, &written);
    if (status != TALMUIGA_DONE || written != 0)
        tell("null isn't no line by tables", 0, 0, status, written);
    written = 99;
    status = talmuiga_format_lines(NULL, 0, "en", "-", "plain", NULL, NULL, 0, NULL, 0, &written);
    if (status != TALMUIGA_TABLES_REFUSED || written != 0)
        tell("no tables aren't refused", 0, 0, status, written);
    written = 99;
    status = talmuiga_format_lines(NULL, 0, NULL, NULL, NULL, NULL, NULL, 0, NULL, 0, &written);
    if (status != TALMUIGA_WORDS_REFUSED || written != 0)
        tell("no words aren't refused", 0, 0, status, written);
}

int main(int count, char **words) {
    FILE *file = count > 1 ? fopen(words[1], "rb") : NULL;
    tables_len = file ? fread(tables, 1, sizeof tables, file) : 0;
    guarded = mmap(NULL, 2 * PAGE, PROT_READ | PROT_WRITE, MAP_PRIVATE | MAP_ANONYMOUS, -1, 0);
    if (tables_len == 0 || guarded == MAP_FAILED || mprotect(guarded + PAGE, PAGE, PROT_NONE))
        return fputs("c_library: no tables or no memory\n", stderr), 1;
    for (size_t sample = 0; sample < sizeof samples / sizeof *samples; sample++) {
        for (size_t room = 0; room <= strlen(samples[sample].all) + BEHIND; room++) {
            judge_room(sample, room, room);
            judge_room(sample, room, room + BEHIND);
        }
        judge_endless_room(sample, SIZE_MAX);
        judge_endless_room(sample, (size_t)PTRDIFF_MAX + 1);
        judge_endless_room(sample, PTRDIFF_MAX);
    }
    for (size_t number = 0; number < sizeof refusals / sizeof *refusals; number++)
        for (size_t room = 0; room <= BEHIND; room++)
            judge_refusal(number, room);
    for (size_t room = 0; room <= BEHIND; room++) {
        judge_fault("{", "not JSON", room);
        judge_fault("\xff", "not UTF-8", room);
        judge_fault("{}", "`symbols` is missing", room);
        judge_fault("{\"symbols\":[],\"digits\":[],\"rules\":[{\"locale\":\"_\",\"rules\":[]}]}",
                    "entry 0 of `rules`: bad locale", room);
    }
    judge_no_fault();
    judge_null();
    return failed;
}
