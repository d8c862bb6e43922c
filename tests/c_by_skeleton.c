/* Formats the lines of a file by each skeleton of another, by a file of tables: the words are TABLES SKELETONS LINES. A line of the
 * skeletons is a locale, a blank and a skeleton. Before the answers of each stands a line '# ' and the line of the skeleton. */
#include "talmuiga.h"

#include <stdio.h>

enum { MOST = 1 << 22, ROOM = 1 << 16, WORD = 512 };

static char tables[MOST], lines[MOST], output[ROOM];

static size_t read_file(const char *name, char *bytes) {
    FILE *file = fopen(name, "rb");
    size_t len = file ? fread(bytes, 1, MOST, file) : 0;
    if (file) fclose(file);
    return len;
}

/* Writes the answers of all lines, a room at a time; the status of the last call. */
static uint32_t write_all(const talmuiga_formatter *formatter, const char *input, size_t len) {
    for (;;) {
        talmuiga_reached reached;
        uint32_t status = talmuiga_formatter_format(formatter, input, len, output, ROOM, &reached);
        fwrite(output, 1, reached.written, stdout);
        input += reached.consumed;
        len -= reached.consumed;
        if (status != TALMUIGA_OUTPUT_TOO_SMALL || reached.needed > ROOM) return status;
    }
}

int main(int count, char **words) {
    FILE *skeletons = count == 4 ? fopen(words[2], "r") : NULL;
    if (!skeletons) return fputs("c_by_skeleton: TABLES SKELETONS LINES\n", stderr), 2;
    size_t tables_len = read_file(words[1], tables), len = read_file(words[3], lines);
    char line[WORD];
    while (fgets(line, WORD, skeletons)) {
        line[strcspn(line, "\n")] = 0;
        printf("# %s\n", line);
        char *skeleton = strchr(line, ' ');
        if (!skeleton) return 2;
        *skeleton++ = 0;
        talmuiga_formatter *formatter;
        uint32_t status =
            talmuiga_formatter_open_skeleton(tables, tables_len, line, skeleton, strlen(skeleton), NULL, &formatter);
        if (status == TALMUIGA_DONE) status = write_all(formatter, lines, len);
        talmuiga_formatter_close(formatter);
        if (status) return fprintf(stderr, "c_by_skeleton: %s: %s\n", skeleton, talmuiga_status_text(status)), 1;
    }
    fclose(skeletons);
    return fflush(stdout) ? 1 : 0;
}
