/* Formatters that are kept, by the tables of the first word, the words behind it, the file of lines behind these and the file
 * of what decfmt answers; if the system is `skeleton`, the style is a number skeleton. In rooms of each length, piece by
 * piece, number by number and with each number's parts, each number's text read back, in eight threads at once, opened and closed
 * ten thousand times, refused and null. */
#include "talmuiga.h"

#include <malloc.h>
#include <pthread.h>
#include <stdbool.h>
#include <stdio.h>

enum { THREADS = 8, ROOMS = 96, TIMES = 10000, MOST = 1 << 22 };

struct text {
    char *bytes;
    size_t len;
};

static struct text tables, lines, wanted;
static const talmuiga_formatter *shared;
/* whether numbers are written in full, so that their texts are read */
static bool is_plain;
static int failed;

static void tell(const char *what, size_t number) {
    fprintf(stderr, "c_kept: %s: %zu\n", what, number);
    failed = 1;
}

static bool read_file(const char *name, struct text *text) {
    FILE *file = fopen(name, "rb");
    text->bytes = malloc(MOST);
    if (!file || !text->bytes) return false;
    text->len = fread(text->bytes, 1, MOST, file);
    return fclose(file) == 0 && text->len < MOST;
}

/* Whether the lines are answered as wanted, piece by piece, by a room of so many bytes; one that holds no line is enlarged
 * to what the line needs, for that line. */
static bool answers_in(const talmuiga_formatter *formatter, size_t room) {
    size_t begin = 0, at = 0, next = room;
    for (;;) {
        char *output = malloc(next + 1);
        talmuiga_reached reached = {7, 7, 7};
        output[next] = 'x';
        uint32_t status =
            talmuiga_formatter_format(formatter, lines.bytes + begin, lines.len - begin, output, next, &reached);
        bool right = output[next] == 'x' && reached.written <= next && wanted.len - at >= reached.written &&
                     memcmp(output, wanted.bytes + at, reached.written) == 0;
        begin += reached.consumed;
        at += reached.written;
        free(output);
        if (!right) return false;
        if (status == TALMUIGA_DONE) return begin == lines.len && at == wanted.len && reached.needed == 0;
        if (status != TALMUIGA_OUTPUT_TOO_SMALL || reached.needed == 0) return false;
        if (reached.written + reached.needed <= next) return false;
        next = reached.needed <= room ? room : reached.needed;
    }
}

/* Whether a number that is shown by this text has it with its parts, which stand inside of it and in their order, and whether
 * a room that is too small by one for the text, or for the parts, stays as it was. */
static bool has_parts(const talmuiga_formatter *formatter, const char *number, size_t len, const char *want, size_t want_len) {
    char output[512];
    talmuiga_span spans[128];
    size_t length = 7, count = 7, many;
    uint32_t status = talmuiga_formatter_parts(formatter, number, len, output, sizeof output, &length, spans, 128, &count);
    if (status || length != want_len || memcmp(output, want, want_len) || count > 128) return false;
    for (size_t i = 0; i < count; i++) {
        if (spans[i].start >= spans[i].end || spans[i].end > length || (i && spans[i].start < spans[i - 1].start)) return false;
        if (spans[i].part < TALMUIGA_PART_MINUS_SIGN || spans[i].part > TALMUIGA_PART_DECIMAL) return false;
        spans[i].part = 99;
    }
    memset(output, 'x', sizeof output);
    status = talmuiga_formatter_parts(formatter, number, len, output, want_len - 1, &length, spans, 128, &many);
    if (status != TALMUIGA_OUTPUT_TOO_SMALL || length != want_len || output[0] != 'x' || many != count) return false;
    if (count == 0) return true;
    if (spans[0].part == 99) return false;
    spans[0].part = 99;
    status = talmuiga_formatter_parts(formatter, number, len, output, want_len, &length, spans, count - 1, &many);
    return status == TALMUIGA_OUTPUT_TOO_SMALL && many == count && spans[0].part == 99 && memcmp(output, want, want_len) == 0;
}

/* Whether a number's text is read back as the number, with a zero before a point at its front, and not in a room that is too small by
 * one; or isn't read, where numbers aren't written in full. */
static bool reads_back(const talmuiga_formatter *formatter, const char *number, size_t len, const char *text, size_t text_len) {
    char decimal[512], output[512];
    const size_t sign_len = len && (number[0] == '-' || number[0] == '+'), has_point = len > sign_len && number[sign_len] == '.';
    const size_t decimal_len = len + has_point;
    size_t length = 7, byte = 7;
    memcpy(decimal, number, sign_len);
    decimal[sign_len] = '0';
    memcpy(decimal + sign_len + has_point, number + sign_len, len - sign_len);
    memset(output, 'x', sizeof output);
    uint32_t status = talmuiga_formatter_read(formatter, text, text_len, output, sizeof output, &length, &byte);
    if (!is_plain) return status == TALMUIGA_NO_READING && length == 0 && byte == 0 && output[0] == 'x';
    if (status || byte || length != decimal_len || memcmp(output, decimal, length) || output[length] != 'x') return false;
    memset(output, 'x', sizeof output);
    status = talmuiga_formatter_read(formatter, text, text_len, output, decimal_len - 1, &length, &byte);
    if (status != TALMUIGA_OUTPUT_TOO_SMALL || byte || length != decimal_len || output[0] != 'x') return false;
    /* a blank behind it is at fault */
    char longer[512];
    memcpy(longer, text, text_len);
    longer[text_len] = ' ';
    status = talmuiga_formatter_read(formatter, longer, text_len + 1, output, sizeof output, &length, &byte);
    return status == TALMUIGA_NOT_READ && length == 0 && byte == text_len && output[0] == 'x';
}

/* Whether each line's number, alone, is answered as wanted, or refused where an error line is wanted. */
static bool numbers_alone(const talmuiga_formatter *formatter) {
    const char *end = lines.bytes + lines.len, *want = wanted.bytes;
    for (const char *line = lines.bytes; line < end;) {
        const char *feed = memchr(line, '\n', (size_t)(end - line)), *stop = feed ? feed : end;
        const char *want_end = memchr(want, '\n', (size_t)(wanted.bytes + wanted.len - want));
        size_t len = (size_t)(stop - line), want_len = (size_t)(want_end - want), length = 7;
        char output[512];
        if (len && line[len - 1] == '\r') len--;
        memset(output, 'x', sizeof output);
        uint32_t status = talmuiga_formatter_one(formatter, line, len, output, sizeof output, &length);
        if (want_len > 7 && memcmp(want, "error: ", 7) == 0) {
            const char *why = talmuiga_status_text(status);
            if (length || output[0] != 'x' || strlen(why) != want_len - 7 || memcmp(why, want + 7, want_len - 7)) return false;
            talmuiga_span span = {7, 7, 7};
            size_t count = 7;
            if (talmuiga_formatter_parts(formatter, line, len, output, 9, &length, &span, 1, &count) != status) return false;
            if (length || count || output[0] != 'x' || span.start != 7 || span.part != 7) return false;
        } else {
            if (status || length != want_len || memcmp(output, want, want_len) || output[length] != 'x') return false;
            memset(output, 'x', sizeof output);
            status = talmuiga_formatter_one(formatter, line, len, output, want_len - 1, &length);
            if (status != TALMUIGA_OUTPUT_TOO_SMALL || length != want_len || output[0] != 'x') return false;
            if (!has_parts(formatter, line, len, want, want_len)) return false;
            if (!reads_back(formatter, line, len, want, want_len)) return false;
        }
        line = stop + 1;
        want = want_end + 1;
    }
    return true;
}

static void *in_a_thread(void *right) {
    *(bool *)right = answers_in(shared, 1000) && answers_in(shared, 77) && numbers_alone(shared);
    return NULL;
}

/* One formatter in many threads at once. */
static void in_threads(void) {
    pthread_t threads[THREADS];
    bool right[THREADS] = {false};
    for (size_t i = 0; i < THREADS; i++) {
        if (pthread_create(&threads[i], NULL, in_a_thread, &right[i])) tell("no thread", i);
    }
    for (size_t i = 0; i < THREADS; i++) {
        pthread_join(threads[i], NULL);
        if (!right[i]) tell("another output in a thread", i);
    }
}

/* What malloc has handed out, with the blocks that it keeps for the next ones: these grow for a while, by little. */
static size_t in_use(void) {
    return mallinfo2().uordblks;
}

/* Opens a formatter by the words. */
static uint32_t opened_by(char **words, talmuiga_formatter **formatter) {
    if (strcmp(words[1], "skeleton") == 0)
        return talmuiga_formatter_open_skeleton(tables.bytes, tables.len, words[0], words[2], strlen(words[2]), NULL, formatter);
    return talmuiga_formatter_open(tables.bytes, tables.len, words[0], words[1], words[2], words[3], formatter);
}

static void opened_and_closed(char **words) {
    size_t before = 0;
    for (size_t i = 0; i < TIMES; i++) {
        talmuiga_formatter *formatter;
        /* the tables are read a hundred times, English is made the other times */
        uint32_t status = i % 100 ? talmuiga_formatter_open_english(&formatter) : opened_by(words, &formatter);
        if (status || !formatter) {
            tell("not opened", i);
            return;
        }
        talmuiga_formatter_close(formatter);
        if (i == TIMES / 2) before = in_use();
    }
    if (in_use() > before + 16 * TIMES) tell("memory grew by", in_use() - before);
}

static void refused(const char *style, const char *locale, struct text from, uint32_t wanted_status) {
    talmuiga_formatter *formatter = (talmuiga_formatter *)&failed;
    uint32_t status = talmuiga_formatter_open(from.bytes, from.len, locale, "-", style, NULL, &formatter);
    if (status != wanted_status || formatter) tell("not refused", wanted_status);
    talmuiga_formatter_close(formatter);
}

int main(int count, char **words) {
    if (count != 8 || !read_file(words[1], &tables) || !read_file(words[6], &lines) || !read_file(words[7], &wanted)) {
        return fputs("c_kept: TABLES LOCALE SYSTEM STYLE GROUPING LINES WANTED\n", stderr), 2;
    }
    is_plain = strcmp(words[4], "plain") == 0;
    talmuiga_formatter *formatter;
    uint32_t status = opened_by(words + 2, &formatter);
    if (status) return fprintf(stderr, "c_kept: %s\n", talmuiga_status_text(status)), 1;
    size_t before = 0;
    for (size_t room = 0; room < ROOMS; room++) {
        if (!answers_in(formatter, room)) tell("another output in a room", room);
        if (room == 0) before = in_use();
    }
    if (in_use() > before + 4096) tell("memory grew over the lines by", in_use() - before);
    if (!answers_in(formatter, MOST)) tell("another output in a room", MOST);
    if (!numbers_alone(formatter)) tell("another number", 0);
    shared = formatter;
    in_threads();
    talmuiga_formatter_close(formatter);
    talmuiga_formatter_close(NULL);
    opened_and_closed(words + 2);
    refused("tall", "en", tables, TALMUIGA_WORDS_REFUSED);
    refused("plain", "xx", tables, TALMUIGA_NO_DATA);
    refused("plain", "en", (struct text){words[0], 1}, TALMUIGA_TABLES_REFUSED);
    if (talmuiga_version() != TALMUIGA_VERSION_NUMBER) tell("another version", talmuiga_version());
    char version[32];
    snprintf(version, sizeof version, "%d.%d.%d", TALMUIGA_VERSION_MAJOR, TALMUIGA_VERSION_MINOR, TALMUIGA_VERSION_PATCH);
    if (strcmp(version, TALMUIGA_VERSION)) tell("another version", 0);
    free(tables.bytes);
    free(lines.bytes);
    free(wanted.bytes);
    return failed;
}
