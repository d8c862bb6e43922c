/* Formats standard input, as decfmt does: format_lines [TABLES LOCALE SYSTEM|- plain|short|long [GROUPING]]
 *
 * The status is the call's, and 1 where a file can't be read or the output can't be written; what is wrong goes to standard
 * error. The output starts small, and is enlarged until all of it has room. */
#include "talmuiga.h"

#include <stdio.h>
#include <stdlib.h>

static const char *const messages[] = {"",
                                       "error: out of memory",
                                       "error: words refused",
                                       "error: tables refused",
                                       "error: no data"};

/* Tells what is wrong; the status. */
static int fails(const char *message, int status) {
    fprintf(stderr, "%s\n", message);
    return status;
}

static int memory_fails(void) {
    return fails(messages[TALMUIGA_OUT_OF_MEMORY], TALMUIGA_OUT_OF_MEMORY);
}

static int file_fails(void) {
    return fails("error: input or output failed", 1);
}

/* All bytes of a file behind its length, or null for want of memory; ferror tells whether they were read to the end. */
static char *read_all(FILE *file, size_t *len) {
    size_t room = 4096;
    char *text = malloc(room);
    *len = 0;
    while (text) {
        *len += fread(text + *len, 1, room - *len, file);
        if (*len < room)
            return text;
        char *more = realloc(text, room *= 2);
        if (!more)
            free(text);
        text = more;
    }
    return NULL;
}

int main(int count, char **words) {
    size_t tables_len = 0, input_len, written, room = 16;
    char *tables = NULL, *input, *output = NULL;
    uint32_t status;
    if (count > 1) {
        if (count < 5 || count > 6)
            return fails("usage: format_lines [TABLES LOCALE SYSTEM|- plain|short|long [GROUPING]]", 2);
        FILE *file = fopen(words[1], "rb");
        if (!file)
            return file_fails();
        tables = read_all(file, &tables_len);
        if (ferror(file))
            return file_fails();
        fclose(file);
    }
    input = read_all(stdin, &input_len);
    if (ferror(stdin))
        return file_fails();
    if (!input || (count > 1 && !tables))
        return memory_fails();
    do {
        free(output);
        output = malloc(room *= 2);
        if (!output)
            return memory_fails();
        status = count > 1 ? talmuiga_format_lines(tables, tables_len, words[2], words[3], words[4],
                                                   count > 5 ? words[5] : NULL, input, input_len, output, room, &written)
                           : talmuiga_format_english(input, input_len, output, room, &written);
    } while (status == TALMUIGA_OUTPUT_TOO_SMALL);
    if (fwrite(output, 1, written, stdout) < written || fflush(stdout))
        return file_fails();
    free(output);
    free(input);
    free(tables);
    return status == TALMUIGA_DONE ? 0 : fails(messages[status], (int)status);
}
