/* What the header's functions hand on, seen by functions that stand here in place of the library's: each text with its
 * length, bytes in place of null, and no room of more than PTRDIFF_MAX. */
#include "talmuiga.h"

#include <stdio.h>

enum { TEXTS = 6 };

/* What was handed on: texts with their lengths, in the order of the parameters, the output, and where to tell how much. */
static const uint8_t *texts[TEXTS];
static size_t lens[TEXTS];
static uint8_t *output_at;
static size_t output_len_at, *written_at;

static uint32_t note_ends(uint8_t *output, size_t output_len, size_t *written) {
    output_at = output;
    output_len_at = output_len;
    written_at = written;
    return TALMUIGA_NO_DATA;
}

static void note(size_t at, const uint8_t *text, size_t len) {
    texts[at] = text;
    lens[at] = len;
}

uint32_t talmuiga_format_english_sized(const uint8_t *input, size_t input_len, uint8_t *output, size_t output_len,
                                       size_t *written) {
    note(0, input, input_len);
    return note_ends(output, output_len, written);
}

uint32_t talmuiga_format_lines_sized(const uint8_t *tables, size_t tables_len, const uint8_t *locale, size_t locale_len,
                                     const uint8_t *system, size_t system_len, const uint8_t *style, size_t style_len,
                                     const uint8_t *grouping, size_t grouping_len, const uint8_t *input,
                                     size_t input_len, uint8_t *output, size_t output_len, size_t *written) {
    note(0, tables, tables_len);
    note(1, locale, locale_len);
    note(2, system, system_len);
    note(3, style, style_len);
    note(4, grouping, grouping_len);
    note(5, input, input_len);
    return note_ends(output, output_len, written);
}

static int failed;

static void judge(const char *name, int holds) {
    if (!holds) {
        fprintf(stderr, "c_header: %s\n", name);
        failed = 1;
    }
}

/* Whether a text was handed on as it is. */
static int is_text(size_t at, const char *text, size_t len) {
    return texts[at] == (const uint8_t *)text && lens[at] == len;
}

/* Whether null was handed on as no byte, by a pointer that isn't null. */
static int is_none(size_t at) {
    return texts[at] && lens[at] == 0;
}

static int is_output(const char *output, size_t len, const size_t *written) {
    return output_at == (const uint8_t *)output && output_len_at == len && written_at == written;
}

static const struct {
    size_t told, handed_on;
} rooms[] = {
    {0, 0},
    {8, 8},
    {PTRDIFF_MAX - 1, PTRDIFF_MAX - 1},
    {PTRDIFF_MAX, PTRDIFF_MAX},
    {(size_t)PTRDIFF_MAX + 1, PTRDIFF_MAX},
    {SIZE_MAX, PTRDIFF_MAX},
};

int main(void) {
    static const char tables[] = "{}", input[] = "5\n6";
    static char output[8];
    static size_t written = 99;
    for (size_t at = 0; at < sizeof rooms / sizeof *rooms; at++) {
        judge("the status in English",
              talmuiga_format_english(input, 3, output, rooms[at].told, &written) == TALMUIGA_NO_DATA);
        judge("a text in English", is_text(0, input, 3) && is_output(output, rooms[at].handed_on, &written));
        judge("the status by tables", talmuiga_format_lines(tables, 2, "en", "latn", "plain", "always", input, 3, output,
                                                            rooms[at].told, &written) == TALMUIGA_NO_DATA);
        judge("texts by tables", is_text(0, tables, 2) && is_text(5, input, 3));
        judge("words", lens[1] == 2 && !memcmp(texts[1], "en", 2) && lens[2] == 4 && !memcmp(texts[2], "latn", 4) &&
                           lens[3] == 5 && !memcmp(texts[3], "plain", 5) && lens[4] == 6 && !memcmp(texts[4], "always", 6));
        judge("the output by tables", is_output(output, rooms[at].handed_on, &written));
    }
    talmuiga_format_english(NULL, 0, NULL, 0, &written);
    judge("null in English", is_none(0) && output_at && output_len_at == 0);
    talmuiga_format_lines(NULL, 0, NULL, NULL, NULL, NULL, NULL, 0, NULL, 0, &written);
    for (size_t at = 0; at < TEXTS; at++)
        judge("null by tables", is_none(at));
    judge("a null output by tables", output_at && output_len_at == 0);
    judge("nothing else written", written == 99);
    return failed;
}
