/* Formatters that are kept, where one allocation finds no memory (tests/refuse_nth.c, loaded before): by the tables of the
 * first word one is opened by words and one by a skeleton, each formats lines, one number and its parts, and is closed; a third one, in
 * English, writes a range, a fourth reads texts of numbers back, and a message is opened, given two values and written. Then other tables are judged and listed, and a canonical text is written. What was refused is asked once more,
 * and then all is as ever; where it was refused nothing else is told. The tables lie in memory of their own, which isn't refused. */
#include "talmuiga.h"

#include <stdio.h>

static char tables[1 << 20], output[256];

/* Opens a formatter of short numbers, by words or by a skeleton. */
static uint32_t opened(size_t len, int by_skeleton, talmuiga_formatter **formatter) {
    static const char skeleton[] = "compact-short";
    talmuiga_fault fault = {7, 7, 7};
    if (!by_skeleton) return talmuiga_formatter_open(tables, len, "en", "-", "short", NULL, formatter);
    uint32_t status = talmuiga_formatter_open_skeleton(tables, len, "en", skeleton, sizeof skeleton - 1, &fault, formatter);
    return fault.byte || fault.kind || fault.thing ? 99 : status;
}

/* Formats by such a formatter; 0, or another status of this program. */
static int formats(size_t len, int by_skeleton) {
    size_t length;
    talmuiga_formatter *formatter;
    talmuiga_reached reached;
    uint32_t status = opened(len, by_skeleton, &formatter);
    if (status == TALMUIGA_OUT_OF_MEMORY && !formatter) status = opened(len, by_skeleton, &formatter);
    if (status) return 3;
    static const char lines[] = "1650\n1750000\nx\n", answers[] = "1.6K\n1.8M\nerror: not a decimal\n";
    status = talmuiga_formatter_format(formatter, lines, sizeof lines - 1, output, sizeof output, &reached);
    if (status == TALMUIGA_OUT_OF_MEMORY) {
        size_t begin = reached.consumed, at = reached.written;
        status = talmuiga_formatter_format(formatter, lines + begin, sizeof lines - 1 - begin, output + at, sizeof output - at,
                                           &reached);
        reached.written += at;
    }
    if (status || reached.written != sizeof answers - 1 || memcmp(output, answers, reached.written)) return 4;
    status = talmuiga_formatter_one(formatter, "-2500000", 8, output, sizeof output, &length);
    if (status == TALMUIGA_OUT_OF_MEMORY && length == 0) {
        status = talmuiga_formatter_one(formatter, "-2500000", 8, output, sizeof output, &length);
    }
    if (status || length != 5 || memcmp(output, "-2.5M", 5)) return 5;
    talmuiga_span sign = {7, 7, 7};
    size_t parts;
    status = talmuiga_formatter_parts(formatter, "-2500000", 8, output, sizeof output, &length, &sign, 1, &parts);
    if (status == TALMUIGA_OUT_OF_MEMORY && length == 0 && parts == 0 && sign.part == 7) {
        status = talmuiga_formatter_parts(formatter, "-2500000", 8, output, sizeof output, &length, &sign, 1, &parts);
    }
    if (status || length != 5 || parts != 1 || sign.end != 1 || sign.part != TALMUIGA_PART_MINUS_SIGN) return 6;
    talmuiga_formatter_close(formatter);
    return 0;
}

/* Writes a range by a formatter in English; 0, or another status of this program. */
static int writes_range(void) {
    size_t length;
    talmuiga_formatter *formatter;
    talmuiga_fault fault = {7, 7, 7};
    uint32_t status = talmuiga_formatter_open_english_ranges("K", 1, &fault, &formatter);
    if (fault.byte || fault.kind || fault.thing) return 10;
    if (status == TALMUIGA_OUT_OF_MEMORY && !formatter) status = talmuiga_formatter_open_english_ranges("K", 1, &fault, &formatter);
    if (status) return 11;
    memcpy(output, "xx", 2);
    status = talmuiga_formatter_range(formatter, "1650", 4, "1750000", 7, output, sizeof output, &length);
    if (status == TALMUIGA_OUT_OF_MEMORY && length == 0 && output[0] == 'x') {
        status = talmuiga_formatter_range(formatter, "1650", 4, "1750000", 7, output, sizeof output, &length);
    }
    static const char range[] = "1.6K – 1.8M";
    if (status || length != sizeof range - 1 || memcmp(output, range, length)) return 12;
    talmuiga_formatter_close(formatter);
    return 0;
}

/* Reads a number's text back, with its groups and without, and one that is no number's; 0, or another status of this program. */
static int reads_back(void) {
    static const struct {
        const char *text;
        uint32_t status;
        size_t length, byte;
    } texts[] = {{"-1,234.50", TALMUIGA_DONE, 8, 0}, {"-1234.50", TALMUIGA_DONE, 8, 0}, {"12,34", TALMUIGA_NOT_READ, 0, 2}};
    talmuiga_formatter *formatter;
    uint32_t status = talmuiga_formatter_open_english(&formatter);
    if (status == TALMUIGA_OUT_OF_MEMORY && !formatter) status = talmuiga_formatter_open_english(&formatter);
    if (status) return 21;
    for (size_t row = 0; row < sizeof texts / sizeof *texts; row++) {
        const char *text = texts[row].text;
        size_t length, byte;
        memcpy(output, "xx", 2);
        status = talmuiga_formatter_read(formatter, text, strlen(text), output, sizeof output, &length, &byte);
        if (status == TALMUIGA_OUT_OF_MEMORY && length == 0 && byte == 0 && output[0] == 'x') {
            status = talmuiga_formatter_read(formatter, text, strlen(text), output, sizeof output, &length, &byte);
        }
        if (status != texts[row].status || length != texts[row].length || byte != texts[row].byte) return 22;
        if (memcmp(output, "-1234.50", length)) return 23;
    }
    talmuiga_formatter_close(formatter);
    return 0;
}

/* Writes a message by the tables with a number in a place of its own and a text; 0, or another status of this program. */
static int writes_message(size_t len) {
    static const char text[] = "{who}: {n, plural, one{# file} other{# files}}, {n, number, ::K}";
    static const char wanted[] = "Ana: 1,650 files, 1.6K";
    size_t length;
    talmuiga_message *message;
    talmuiga_formatter *plain, *compact;
    talmuiga_named named;
    talmuiga_fault fault = {7, 7, 7};
    uint32_t status = talmuiga_message_open(tables, len, "en", text, sizeof text - 1, &fault, &message);
    if (fault.byte || fault.kind || fault.thing) return 13;
    if (status == TALMUIGA_OUT_OF_MEMORY && !message) {
        status = talmuiga_message_open(tables, len, "en", text, sizeof text - 1, &fault, &message);
    }
    if (status) return 14;
    talmuiga_arguments *arguments = talmuiga_arguments_open();
    if (!arguments) arguments = talmuiga_arguments_open();
    status = talmuiga_formatter_open_english_skeleton("", 0, NULL, &plain);
    if (status == TALMUIGA_OUT_OF_MEMORY) status = talmuiga_formatter_open_english_skeleton("", 0, NULL, &plain);
    if (status == TALMUIGA_DONE) status = talmuiga_formatter_open_english_skeleton("K", 1, NULL, &compact);
    if (status == TALMUIGA_OUT_OF_MEMORY) status = talmuiga_formatter_open_english_skeleton("K", 1, NULL, &compact);
    if (status || !arguments) return 15;
    status = talmuiga_message_name(message, 1, &named);
    if (status == TALMUIGA_OUT_OF_MEMORY && named.name.end == 0) status = talmuiga_message_name(message, 1, &named);
    if (status || named.kind != TALMUIGA_NUMBER_ARGUMENT) return 16;
    status = talmuiga_arguments_text(arguments, "who", "Ana", 3);
    if (status == TALMUIGA_OUT_OF_MEMORY) status = talmuiga_arguments_text(arguments, "who", "Ana", 3);
    if (status) return 17;
    status = talmuiga_arguments_number(arguments, plain, "n", "1650", 4);
    if (status == TALMUIGA_OUT_OF_MEMORY) status = talmuiga_arguments_number(arguments, plain, "n", "1650", 4);
    if (status) return 18;
    status = talmuiga_arguments_form(arguments, compact, "n", "K", 1, "1650", 4);
    if (status == TALMUIGA_OUT_OF_MEMORY) status = talmuiga_arguments_form(arguments, compact, "n", "K", 1, "1650", 4);
    if (status) return 19;
    memcpy(output, "xx", 2);
    status = talmuiga_message_write(message, arguments, output, sizeof output, &length, NULL);
    if (status == TALMUIGA_OUT_OF_MEMORY && length == 0 && output[0] == 'x') {
        status = talmuiga_message_write(message, arguments, output, sizeof output, &length, NULL);
    }
    if (status || length != sizeof wanted - 1 || memcmp(output, wanted, length)) return 20;
    talmuiga_formatter_close(plain);
    talmuiga_formatter_close(compact);
    talmuiga_message_close(message);
    talmuiga_arguments_close(arguments);
    return 0;
}

int main(int count, char **words) {
    FILE *file = count > 1 ? fopen(words[1], "rb") : NULL;
    if (!file) return 2;
    setvbuf(file, NULL, _IONBF, 0);
    size_t len = fread(tables, 1, sizeof tables, file), length;
    for (int by_skeleton = 0; by_skeleton < 2; by_skeleton++) {
        int wrong = formats(len, by_skeleton);
        if (wrong) return wrong;
    }
    int no_range = writes_range();
    if (no_range) return no_range;
    int no_reading = reads_back();
    if (no_reading) return no_reading;
    int no_message = writes_message(len);
    if (no_message) return no_message;
    memcpy(output, "xx", 2);
    uint32_t status = talmuiga_tables_fault("{", 1, output, sizeof output, &length);
    if (status == TALMUIGA_OUT_OF_MEMORY && length == 0 && output[0] == 'x') {
        status = talmuiga_tables_fault("{", 1, output, sizeof output, &length);
    }
    if (status != TALMUIGA_TABLES_REFUSED || length != 8 || memcmp(output, "not JSON", 8)) return 7;
    memcpy(output, "xx", 2);
    static const char listed[] = "{\"units\":[{\"unit\":\"day\"},{\"unit\":\"hour\"}]}";
    status = talmuiga_tables_list(listed, sizeof listed - 1, TALMUIGA_LIST_UNITS, output, sizeof output, &length);
    if (status == TALMUIGA_OUT_OF_MEMORY && length == 0 && output[0] == 'x') {
        status = talmuiga_tables_list(listed, sizeof listed - 1, TALMUIGA_LIST_UNITS, output, sizeof output, &length);
    }
    if (status || length != 9 || memcmp(output, "day\nhour\n", 9)) return 9;
    memcpy(output, "xx", 2);
    status = talmuiga_skeleton_canonical("K", 1, output, sizeof output, &length, NULL);
    if (status == TALMUIGA_OUT_OF_MEMORY && length == 0 && output[0] == 'x') {
        status = talmuiga_skeleton_canonical("K", 1, output, sizeof output, &length, NULL);
    }
    if (status || length != 13 || memcmp(output, "compact-short", 13)) return 8;
    return 0;
}
