/* Lines of decimals to lines of text, in the form of a locale: numbers as the program decfmt writes them, and, by number
 * skeletons, numbers, money, percents and units.
 *
 * The input is lines of decimals, the output has one line for each: the decimal as the locale writes it, or one of
 * "error: not a decimal", "error: too many digits" and "error: overflow". Where a text of the tables has a line feed, so
 * has an answer with that text, which is then of several lines. A line ends in a line feed, one carriage return before it
 * is dropped, and the last line may end without. Texts are bytes with a length, without a NUL at the end;
 * only the words of talmuiga_format_lines, at the end of this file, end in one.
 *
 * What a call promises of its output is proved of the code that the library is built of. What its caller owes is below,
 * and nothing checks it. */
#ifndef TALMUIGA_H
#define TALMUIGA_H

#include <stddef.h>
#include <stdint.h>
#include <stdlib.h>
#include <string.h>

/* The version of the project that this header is of; talmuiga_version() tells the library's. */
#define TALMUIGA_VERSION "0.2.0"
#define TALMUIGA_VERSION_MAJOR 0
#define TALMUIGA_VERSION_MINOR 2
#define TALMUIGA_VERSION_PATCH 0
#define TALMUIGA_VERSION_NUMBER \
    (TALMUIGA_VERSION_MAJOR * 10000 + TALMUIGA_VERSION_MINOR * 100 + TALMUIGA_VERSION_PATCH)

#ifdef __cplusplus
extern "C" {
#endif

/* How a call ends. */
enum {
    TALMUIGA_DONE = 0,             /* the output is that of the whole input */
    TALMUIGA_OUT_OF_MEMORY = 1,    /* malloc refused; may come in place of any other status but the next */
    TALMUIGA_WORDS_REFUSED = 2,    /* locale, system, style or grouping isn't such a word */
    TALMUIGA_TABLES_REFUSED = 3,   /* the tables aren't UTF-8, or their text is refused */
    TALMUIGA_NO_DATA = 4,          /* the tables don't say what a formatter of the locale needs */
    TALMUIGA_OUTPUT_TOO_SMALL = 5, /* the output is longer than there is room */
    TALMUIGA_NOT_DECIMAL = 6,      /* the text of one number isn't a decimal */
    TALMUIGA_TOO_MANY_DIGITS = 7,  /* it has a digit at a power of ten past the limits */
    TALMUIGA_OVERFLOW = 8,         /* the number to show for it has a digit at a power of ten past the limits */
    TALMUIGA_SKELETON_REFUSED = 9  /* the skeleton has a fault */
};

/* How a call with ranges ends besides. */
enum {
    TALMUIGA_NO_PATTERN = 10,          /* the tables have no range pattern for the locale, or the formatter was opened without */
    TALMUIGA_DESCENDING = 11,          /* the start is above the end */
    TALMUIGA_END_NOT_DECIMAL = 12,     /* the text of the end isn't a decimal */
    TALMUIGA_END_TOO_MANY_DIGITS = 13, /* it has a digit at a power of ten past the limits */
    TALMUIGA_END_OVERFLOW = 14         /* the number to show for it has a digit at a power of ten past the limits */
};

/* How a call with messages ends besides. */
enum {
    TALMUIGA_MESSAGE_REFUSED = 15,  /* the text isn't a message */
    TALMUIGA_MISSING_ARGUMENT = 16, /* an argument isn't given, or not in the form of its place */
    TALMUIGA_NOT_A_NUMBER = 17,     /* a text is given where the message wants a number */
    TALMUIGA_NOT_A_TEXT = 18,       /* a number is given where the message picks by a text */
    TALMUIGA_NOT_UTF8 = 19,         /* a name, a text or a skeleton isn't UTF-8 */
    TALMUIGA_NO_FORM = 20,          /* the formatter was opened without a skeleton */
    TALMUIGA_NO_SUCH_PLACE = 21     /* the message has fewer places or names */
};

/* How a call that reads the text of a number back ends besides. */
enum {
    TALMUIGA_NOT_READ = 22,  /* the text isn't that of any number, as the formatter writes numbers */
    TALMUIGA_NO_READING = 23 /* the formatter writes other texts than those of plain numbers, or they don't tell their numbers */
};

/* Formats the lines of the input in plain English, as 1,234.5.
 *
 * With TALMUIGA_DONE the first *written bytes of the output are the output of the whole input. With
 * TALMUIGA_OUTPUT_TOO_SMALL and TALMUIGA_OUT_OF_MEMORY they are the output of the input's first lines, whole lines or
 * nothing; with TALMUIGA_OUTPUT_TOO_SMALL the next line's finds no room behind them. TALMUIGA_OUT_OF_MEMORY comes before
 * the room for a line is judged, but behind the first line only where a line and some room are left, so never in place of
 * TALMUIGA_OUTPUT_TOO_SMALL for an output that is full. No other status comes. The bytes of the output behind the first
 * *written stay as they were.
 *
 * The caller owes, of this function and the next one:
 * - each pointer leads to as many bytes as its length says, no more than PTRDIFF_MAX, and isn't null, whatever the length;
 *   the functions without `_sized`, further down, take null with length 0, and an output of any length;
 * - neither the output nor *written overlaps any other text of the call, and nothing else reads or writes them meanwhile;
 * - malloc, realloc and free are from one allocator, whose blocks are aligned to each power of two up to 16 that divides
 *   their size;
 * - no call from a signal handler, nor in the forked child of a process with threads.
 * Calls may run on several threads at once: they share nothing. Nothing has to be freed. */
uint32_t talmuiga_format_english_sized(const uint8_t *input, size_t input_len, uint8_t *output, size_t output_len,
                                       size_t *written);

/* Formats the lines of the input by tables, which are JSON in the project's own format (docs/FORMATS.md).
 *
 * locale: as en or ar-EG. system: the numbering system that is preferred, as latn, or - for none. style: plain, short or
 * long. grouping: auto, never, always or min2, or nothing, which leaves it to the style.
 *
 * The statuses TALMUIGA_DONE, TALMUIGA_OUT_OF_MEMORY and TALMUIGA_OUTPUT_TOO_SMALL are as above. With each other status
 * *written is 0 and the output is as it was. The words are judged before the tables. */
uint32_t talmuiga_format_lines_sized(const uint8_t *tables, size_t tables_len, const uint8_t *locale, size_t locale_len,
                                     const uint8_t *system, size_t system_len, const uint8_t *style, size_t style_len,
                                     const uint8_t *grouping, size_t grouping_len, const uint8_t *input,
                                     size_t input_len, uint8_t *output, size_t output_len, size_t *written);

/* A pointer that isn't null, for a text of length 0. */
static inline const uint8_t *talmuiga_bytes(const void *text) {
    static const uint8_t none = 0;
    return text ? (const uint8_t *)text : &none;
}

/* The same for an output. */
static inline uint8_t *talmuiga_room(void *output) {
    static uint8_t none;
    return output ? (uint8_t *)output : &none;
}

/* The length of an output, or PTRDIFF_MAX where that is less. */
static inline size_t talmuiga_room_len(size_t output_len) {
    const size_t most = (size_t)-1 / 2;
    return output_len < most ? output_len : most;
}

/* talmuiga_format_english_sized, where a pointer with length 0 may be null, and the output may be longer than PTRDIFF_MAX,
 * as SIZE_MAX says: no more than PTRDIFF_MAX bytes of it are used. */
static inline uint32_t talmuiga_format_english(const char *input, size_t input_len, char *output, size_t output_len,
                                               size_t *written) {
    return talmuiga_format_english_sized(talmuiga_bytes(input), input_len, talmuiga_room(output),
                                         talmuiga_room_len(output_len), written);
}

/* talmuiga_format_lines_sized, where a pointer with length 0 may be null, the output may be longer than PTRDIFF_MAX, as
 * above, and the words end in a NUL; a word that is null is the empty text. */
static inline uint32_t talmuiga_format_lines(const char *tables, size_t tables_len, const char *locale,
                                             const char *system, const char *style, const char *grouping,
                                             const char *input, size_t input_len, char *output, size_t output_len,
                                             size_t *written) {
    return talmuiga_format_lines_sized(
        talmuiga_bytes(tables), tables_len, talmuiga_bytes(locale), locale ? strlen(locale) : 0,
        talmuiga_bytes(system), system ? strlen(system) : 0, talmuiga_bytes(style), style ? strlen(style) : 0,
        talmuiga_bytes(grouping), grouping ? strlen(grouping) : 0, talmuiga_bytes(input), input_len,
        talmuiga_room(output), talmuiga_room_len(output_len), written);
}

/* ---- Formatters that are kept: the tables are read once. */

/* A formatter: a pointer to room that the caller gives, in which the formatter lies while it is open. */
typedef struct talmuiga_formatter {
    void *at;
} talmuiga_formatter;

/* How far an input is answered. */
typedef struct talmuiga_reached {
    size_t consumed; /* so many bytes at the input's front, whole lines, are answered */
    size_t written;  /* by so many at the output's front */
    size_t needed;   /* with TALMUIGA_OUTPUT_TOO_SMALL how long the next line's answer is, with its line feed; else 0 */
} talmuiga_reached;

/* The parts of a number's text. */
enum {
    TALMUIGA_PART_OTHER = 0, /* one that has no number here; no part has 0 in this version */
    TALMUIGA_PART_MINUS_SIGN = 1,
    TALMUIGA_PART_PLUS_SIGN = 2,
    TALMUIGA_PART_INTEGER = 3, /* with the separators of its groups, each of which is a part too */
    TALMUIGA_PART_FRACTION = 4,
    TALMUIGA_PART_GROUP = 5,
    TALMUIGA_PART_DECIMAL = 6,        /* the separator of integer and fraction */
    TALMUIGA_PART_CURRENCY = 7,       /* the symbol or the name of a currency */
    TALMUIGA_PART_PERCENT_SIGN = 8,
    TALMUIGA_PART_PER_MILLE_SIGN = 9,
    TALMUIGA_PART_UNIT = 10,          /* the name of a unit */
    TALMUIGA_PART_COMPACT = 11        /* no part in this version */
};

/* Where a part stands. */
typedef struct talmuiga_span {
    size_t start;  /* its first byte in the text */
    size_t end;    /* the byte behind its last one */
    uint32_t part; /* one of TALMUIGA_PART_MINUS_SIGN and so on */
} talmuiga_span;

/* What is wrong with a number skeleton. */
typedef struct talmuiga_fault {
    size_t byte;    /* where, in bytes of the skeleton; 0 with TALMUIGA_FAULT_UNSUPPORTED */
    uint32_t kind;  /* one of TALMUIGA_FAULT_NOT_UTF8 and so on; 0 where nothing is wrong */
    uint32_t thing; /* with some kinds which setting, or what isn't read; talmuiga_fault_text has it in words; else 0 */
} talmuiga_fault;

/* The kinds of faults, and where the byte of each stands. */
enum {
    TALMUIGA_FAULT_NONE = 0,
    TALMUIGA_FAULT_NOT_UTF8 = 1,              /* the first byte that isn't UTF-8 */
    TALMUIGA_FAULT_UNKNOWN_STEM = 2,          /* the stem */
    TALMUIGA_FAULT_LEFT_OUT = 3,              /* ICU reads it and this library doesn't; the stem, or the option */
    TALMUIGA_FAULT_REPEATED = 4,              /* it is set already; the stem */
    TALMUIGA_FAULT_TOO_MANY_DIGITS = 5,       /* a count is past 999; the stem, or the option */
    TALMUIGA_FAULT_NO_OPTION_HERE = 6,        /* the slash */
    TALMUIGA_FAULT_STRAY_SLASH = 7,           /* a token begins with a slash; the slash */
    TALMUIGA_FAULT_EMPTY_OPTION = 8,          /* behind the slash */
    TALMUIGA_FAULT_BAD_OPTION = 9,            /* the option */
    TALMUIGA_FAULT_OPTION_MISSING = 10,       /* behind the stem */
    TALMUIGA_FAULT_INCREMENT_OF_COMPACT = 11, /* compact notation, and 1 is no multiple of the increment; the increment */
    TALMUIGA_FAULT_UNSUPPORTED = 12           /* a skeleton, but no formatter of this version has what it asks for */
};

/* How many bytes of room a formatter needs, at an address that 16 divides; a message and arguments, further down, need as many. */
size_t talmuiga_formatter_room(void);

/* Opens a formatter in the room that formatter->at leads to. With TALMUIGA_DONE it is open; with each other status it
 * isn't, and the room is the caller's again: TALMUIGA_OUT_OF_MEMORY, and of the second also TALMUIGA_WORDS_REFUSED,
 * TALMUIGA_TABLES_REFUSED and TALMUIGA_NO_DATA, as of talmuiga_format_lines_sized.
 *
 * The caller owes, beside what it owes of talmuiga_format_english_sized:
 * - formatter->at leads to talmuiga_formatter_room() bytes, aligned to 16, which nothing else uses until the formatter is
 *   closed, or wasn't opened, and formatter isn't open;
 * - an open formatter is closed by talmuiga_formatter_close_sized before its room is used for anything else, once;
 * - no call with it runs while it is opened or closed. */
uint32_t talmuiga_formatter_open_english_sized(talmuiga_formatter *formatter);
uint32_t talmuiga_formatter_open_sized(const uint8_t *tables, size_t tables_len, const uint8_t *locale,
                                       size_t locale_len, const uint8_t *system, size_t system_len,
                                       const uint8_t *style, size_t style_len, const uint8_t *grouping,
                                       size_t grouping_len, talmuiga_formatter *formatter);

/* Opens a formatter by tables, a locale and a number skeleton, as "currency/EUR" or "compact-short" (ICU's user guide
 * describes number skeletons; docs/FORMATS.md and the page of crates/number_skeleton say which are read). A formatter is the
 * same, however it was opened: the functions below take it in the same way.
 *
 * The locale is judged first, with TALMUIGA_WORDS_REFUSED; then the skeleton, with TALMUIGA_SKELETON_REFUSED, and *fault says
 * what is wrong with it; then the tables, as by talmuiga_formatter_open_sized. With each status but
 * TALMUIGA_SKELETON_REFUSED *fault is zeros. TALMUIGA_OUT_OF_MEMORY doesn't come in place of the first two.
 *
 * The caller owes what it owes of talmuiga_formatter_open_sized, and that *fault overlaps nothing else of the call. The bytes
 * of the skeleton aren't needed once the call has ended. */
uint32_t talmuiga_formatter_open_skeleton_sized(const uint8_t *tables, size_t tables_len, const uint8_t *locale,
                                                size_t locale_len, const uint8_t *skeleton, size_t skeleton_len,
                                                talmuiga_fault *fault, talmuiga_formatter *formatter);

/* Opens a formatter in English by a number skeleton, without tables. English knows numbers in full and in compact form, percents,
 * and dollars, euros, pounds and yen; of what else a skeleton asks for the status is TALMUIGA_NO_DATA. The statuses
 * TALMUIGA_WORDS_REFUSED and TALMUIGA_TABLES_REFUSED don't come; the rest is as of talmuiga_formatter_open_skeleton_sized. */
uint32_t talmuiga_formatter_open_english_skeleton_sized(const uint8_t *skeleton, size_t skeleton_len, talmuiga_fault *fault,
                                                        talmuiga_formatter *formatter);

/* Writes the canonical text of a number skeleton: long stems in one order, without what is set by default. Two skeletons have
 * the same settings exactly if they have the same canonical text.
 *
 * With TALMUIGA_DONE the first *length bytes of the output are the text. With TALMUIGA_OUTPUT_TOO_SMALL the output is as it
 * was, and *length says how long the text is. With TALMUIGA_SKELETON_REFUSED *fault says what is wrong; whether formatters
 * have what the skeleton asks for isn't judged. With that and with TALMUIGA_OUT_OF_MEMORY the output is as it was and *length
 * is 0. *fault is zeros with each other status. No other status comes. The caller owes what it owes of
 * talmuiga_format_english_sized, and that *fault overlaps nothing else of the call. */
uint32_t talmuiga_skeleton_canonical_sized(const uint8_t *skeleton, size_t skeleton_len, uint8_t *output,
                                           size_t output_len, size_t *length, talmuiga_fault *fault);

/* Formats as many lines of the input as have room, and tells how far that is.
 *
 * With TALMUIGA_DONE all of the input is consumed. With TALMUIGA_OUTPUT_TOO_SMALL the next line's answer finds no room, and
 * reached->needed says how long it is: the caller goes on behind what is consumed, with an output that holds it. With
 * TALMUIGA_OUT_OF_MEMORY a line is left. No other status comes.
 *
 * Of this function, of talmuiga_formatter_one_sized, of talmuiga_formatter_parts_sized and of
 * talmuiga_formatter_close_sized the caller owes that the formatter is open. Formatting writes neither to the formatter nor
 * to its room, so any number of threads may use one at once, each by its own copy of the struct, as the functions further
 * down make it. */
uint32_t talmuiga_formatter_format_sized(talmuiga_formatter *formatter, const uint8_t *input, size_t input_len,
                                         uint8_t *output, size_t output_len, talmuiga_reached *reached);

/* Formats one number: a decimal and nothing else, so that a line feed in it is refused.
 *
 * With TALMUIGA_DONE the first *length bytes of the output are its text. With TALMUIGA_OUTPUT_TOO_SMALL the output is as it
 * was, and *length says how long the text is. With TALMUIGA_NOT_DECIMAL, TALMUIGA_TOO_MANY_DIGITS, TALMUIGA_OVERFLOW and
 * TALMUIGA_OUT_OF_MEMORY the output is as it was and *length is 0. No other status comes. */
uint32_t talmuiga_formatter_one_sized(talmuiga_formatter *formatter, const uint8_t *text, size_t text_len,
                                      uint8_t *output, size_t output_len, size_t *length);

/* Formats one number, as talmuiga_formatter_one_sized does, and tells the parts of its text, in the order in which they
 * begin, and a part before those in it. Empty ones are left out; in a compact number the sign alone is a part.
 *
 * With TALMUIGA_DONE the first *length bytes of the output are the text, and the first *count of the spans are its parts.
 * With TALMUIGA_OUTPUT_TOO_SMALL the output or the spans have no room, and *length and *count say how much is needed; what
 * has no room is as it was, and the other is written. With each other status, as of talmuiga_formatter_one_sized, both are
 * as they were, and *length and *count are 0.
 *
 * The spans are to the caller what an output is: so many structs, of no more than PTRDIFF_MAX bytes together, which overlap
 * nothing else of the call. */
uint32_t talmuiga_formatter_parts_sized(talmuiga_formatter *formatter, const uint8_t *text, size_t text_len,
                                        uint8_t *output, size_t output_len, size_t *length, talmuiga_span *spans,
                                        size_t spans_len, size_t *count);

/* Reads the text of a number back: in the digits, signs and separators of the formatter's locale, with the groups that it writes or with
 * none. What is read is the number that the text shows: where the formatter scales or rounds, or shows no sign, this isn't taken back.
 *
 * With TALMUIGA_DONE the first *length bytes of the output are the decimal, as -1234.50: the sign of the text, if it has one, each of its
 * digits, and a point before those of the fraction. With TALMUIGA_OUTPUT_TOO_SMALL the output is as it was, and *length says how long the
 * decimal is. With each other status the output is as it was and *length is 0:
 * - TALMUIGA_NO_READING: the formatter writes compact numbers, money, percents or units; or its texts don't tell their numbers, as where
 *   the separators of groups and of the fraction are the same. It comes whatever the text is, and nothing comes in place of it;
 * - TALMUIGA_NOT_READ: the text isn't that of any number. *byte says where: the first byte that isn't UTF-8, or else that of the first
 *   character at which the text differs from each text of the numbers that its digits make; the length of the text if it ends too early,
 *   and 0 if its digits make no number. Of 12,34 in English it is 2. Nothing is skipped: no spaces, and no groups of another size;
 * - TALMUIGA_OUT_OF_MEMORY.
 * With each status but TALMUIGA_NOT_READ *byte is 0. Each text that the formatter writes is read, unless memory runs out.
 *
 * The caller owes that the formatter is open, and that *byte overlaps nothing else of the call, and may use the formatter on several
 * threads at once, as of talmuiga_formatter_format_sized. */
uint32_t talmuiga_formatter_read_sized(talmuiga_formatter *formatter, const uint8_t *text, size_t text_len, uint8_t *output,
                                       size_t output_len, size_t *length, size_t *byte);

/* Opens a formatter that writes ranges too, by tables, a locale and a number skeleton. The locale's range pattern is read once, here,
 * under the tables' key `ranges`, and so are its plural categories of ranges under `plural_ranges`: a locale that has none there has the
 * category `other` for each range. The functions above take the formatter as they take any other.
 *
 * Statuses and faults are those of talmuiga_formatter_open_skeleton_sized. Then the tables' ranges are judged, and with
 * TALMUIGA_TABLES_REFUSED they have a fault, with TALMUIGA_NO_PATTERN no range pattern for the locale: then the formatter isn't open, and
 * talmuiga_formatter_open_skeleton_sized opens one without ranges. The caller owes what it owes of that. */
uint32_t talmuiga_formatter_open_ranges_sized(const uint8_t *tables, size_t tables_len, const uint8_t *locale, size_t locale_len,
                                              const uint8_t *skeleton, size_t skeleton_len, talmuiga_fault *fault,
                                              talmuiga_formatter *formatter);

/* The same in English without tables; all is as of talmuiga_formatter_open_english_skeleton_sized. TALMUIGA_NO_PATTERN doesn't come. */
uint32_t talmuiga_formatter_open_english_ranges_sized(const uint8_t *skeleton, size_t skeleton_len, talmuiga_fault *fault,
                                                      talmuiga_formatter *formatter);

/* Writes the range of two numbers, as 3–5 or $3.00 – $5.00: each is a decimal and nothing else, and the locale's separator stands between
 * their texts. A unit and the name of a currency stand once, in the pattern of the range's plural category, as in 0–1 kilometers. One of
 * two equal texts is written, with the approximately sign, as ~3. The numbers are compared before they are rounded, -0 is 0, and 1.0 is 1.
 *
 * With TALMUIGA_DONE the first *length bytes of the output are the text of the range. With TALMUIGA_OUTPUT_TOO_SMALL the output is as it
 * was, and *length says how long the text is. With each other status the output is as it was and *length is 0. It is, of those that apply,
 * the first of this list, but TALMUIGA_OUT_OF_MEMORY may come in place of all but the first:
 * - TALMUIGA_NO_PATTERN: the formatter was opened by neither of the two functions above;
 * - TALMUIGA_NOT_DECIMAL, TALMUIGA_TOO_MANY_DIGITS and TALMUIGA_OVERFLOW, of the start;
 * - TALMUIGA_END_NOT_DECIMAL, TALMUIGA_END_TOO_MANY_DIGITS and TALMUIGA_END_OVERFLOW, of the end;
 * - TALMUIGA_DESCENDING;
 * - TALMUIGA_OVERFLOW, and then TALMUIGA_END_OVERFLOW, of a compact number that is ten to the power 32768 or more.
 * The caller owes that the formatter is open, and may use it on several threads at once, as of talmuiga_formatter_format_sized. */
uint32_t talmuiga_formatter_range_sized(talmuiga_formatter *formatter, const uint8_t *start, size_t start_len, const uint8_t *end,
                                        size_t end_len, uint8_t *output, size_t output_len, size_t *length);

/* Closes a formatter that is open, whose room is then the caller's again. */
void talmuiga_formatter_close_sized(talmuiga_formatter *formatter);

/* ---- Plural messages (ICU MessageFormat), as {n, plural, one{# file} other{# files}}: docs/FORMATS.md describes them. */

/* A message, and arguments of messages: each a pointer to room that the caller gives, as a formatter is. */
typedef struct talmuiga_message {
    void *at;
} talmuiga_message;

typedef struct talmuiga_arguments {
    void *at;
} talmuiga_arguments;

/* Where a word stands in the text of a message; zeros where there is none. */
typedef struct talmuiga_word {
    size_t start; /* its first byte */
    size_t end;   /* the byte behind its last one */
} talmuiga_word;

/* A place {NAME, number, ::SKELETON} of a message; in {NAME, number} the skeleton is empty. */
typedef struct talmuiga_place {
    talmuiga_word name;
    talmuiga_word skeleton;
} talmuiga_place;

/* What a message asks of an argument. */
enum {
    TALMUIGA_ANY_ARGUMENT = 0,    /* a text or a number: it stands in {NAME} alone */
    TALMUIGA_NUMBER_ARGUMENT = 1, /* a number: plural or selectordinal picks by it, or it stands in a place with a form */
    TALMUIGA_TEXT_ARGUMENT = 2    /* a text: select picks by it */
};

/* A name of a message, where it stands first, and one of TALMUIGA_ANY_ARGUMENT and so on. */
typedef struct talmuiga_named {
    talmuiga_word name;
    uint32_t kind;
} talmuiga_named;

/* The kinds of faults of a message's text (talmuiga_fault), and where the byte of each stands: that of the first token that can't stand
 * there, and the length of the text if it ends too early. */
enum {
    TALMUIGA_MESSAGE_FAULT_NONE = 0,
    TALMUIGA_MESSAGE_FAULT_NOT_UTF8 = 1,    /* the first byte that isn't UTF-8 */
    TALMUIGA_MESSAGE_FAULT_TOO_LONG = 2,    /* the text has more than 65,535 bytes; 65535 */
    TALMUIGA_MESSAGE_FAULT_END = 3,         /* the text ends within an argument */
    TALMUIGA_MESSAGE_FAULT_UNOPENED = 4,    /* a brace that closes nothing */
    TALMUIGA_MESSAGE_FAULT_OPEN_QUOTE = 5,  /* the apostrophe of a quote that isn't closed */
    TALMUIGA_MESSAGE_FAULT_TOO_DEEP = 6,    /* the brace of an argument within eight arms */
    TALMUIGA_MESSAGE_FAULT_NAME = 7,        /* a name is due */
    TALMUIGA_MESSAGE_FAULT_KIND = 8,        /* plural, selectordinal, select or number is due */
    TALMUIGA_MESSAGE_FAULT_STYLE = 9,       /* :: and a skeleton are due */
    TALMUIGA_MESSAGE_FAULT_SKELETON = 10,   /* in the skeleton; thing is the kind of its fault, as TALMUIGA_FAULT_UNKNOWN_STEM */
    TALMUIGA_MESSAGE_FAULT_TWO_KINDS = 11,  /* the kind, which differs from an earlier one of the name */
    TALMUIGA_MESSAGE_FAULT_OFFSET = 12,     /* offset:, which isn't supported */
    TALMUIGA_MESSAGE_FAULT_KEY = 13,        /* a key is due */
    TALMUIGA_MESSAGE_FAULT_REPEATED = 14,   /* the key, which stands there for the second time */
    TALMUIGA_MESSAGE_FAULT_NO_OTHER = 15,   /* the brace that closes a choice without other */
    TALMUIGA_MESSAGE_FAULT_UNEXPECTED = 16  /* a comma or a brace is due */
};

/* Opens a message by tables, a locale and a text in the room that message->at leads to. The plural rules of the locale are read once,
 * here: those of cardinals if the message has `plural`, those of ordinals if it has `selectordinal`.
 *
 * With TALMUIGA_DONE the message is open; with each other status it isn't. The locale is judged first, with TALMUIGA_WORDS_REFUSED; then
 * whether the text is UTF-8, with TALMUIGA_MESSAGE_REFUSED, and whether the tables are, with TALMUIGA_TABLES_REFUSED; then the text, with
 * TALMUIGA_MESSAGE_REFUSED; then the tables, with TALMUIGA_TABLES_REFUSED; and then whether they have the rules, with TALMUIGA_NO_DATA.
 * TALMUIGA_OUT_OF_MEMORY may come in place of any. *fault says what is wrong with the text, with TALMUIGA_MESSAGE_REFUSED, and is zeros
 * with each other status.
 *
 * The caller owes what it owes of talmuiga_formatter_open_skeleton_sized, with message in the formatter's place. The bytes of the text
 * aren't needed once the call has ended. */
uint32_t talmuiga_message_open_sized(const uint8_t *tables, size_t tables_len, const uint8_t *locale, size_t locale_len,
                                     const uint8_t *text, size_t text_len, talmuiga_fault *fault, talmuiga_message *message);

/* The same in English without tables. TALMUIGA_WORDS_REFUSED, TALMUIGA_TABLES_REFUSED and TALMUIGA_NO_DATA don't come. */
uint32_t talmuiga_message_open_english_sized(const uint8_t *text, size_t text_len, talmuiga_fault *fault, talmuiga_message *message);

/* Sets the place with a form of its own at an index, from 0 on in the order of the text; a place may stand there several times. The
 * status is TALMUIGA_DONE, or TALMUIGA_NO_SUCH_PLACE, and *place is zeros, from their count on.
 *
 * Of this function and the next two the caller owes that the message is open. None of them changes it, so any number of threads may use
 * one at once, each by its own copy of the struct, as the functions further down make it. */
uint32_t talmuiga_message_place_sized(talmuiga_message *message, size_t index, talmuiga_place *place);

/* Sets the name at an index, from 0 on in the order in which they stand first, each once. The status is TALMUIGA_DONE; or
 * TALMUIGA_NO_SUCH_PLACE from their count on, or TALMUIGA_OUT_OF_MEMORY, and *named is zeros. */
uint32_t talmuiga_message_name_sized(talmuiga_message *message, size_t index, talmuiga_named *named);

/* Writes a message with arguments. Each name of the message, in all of its arms, has to be given in its kind. Arguments that the message
 * doesn't name are ignored, and of two with one name the first counts.
 *
 * With TALMUIGA_DONE the first *length bytes of the output are the text. With TALMUIGA_OUTPUT_TOO_SMALL the output is as it was, and
 * *length says how long the text is. With TALMUIGA_MISSING_ARGUMENT, TALMUIGA_NOT_A_NUMBER and TALMUIGA_NOT_A_TEXT, whichever applies to
 * the first piece of the message that has such a fault, and with TALMUIGA_OUT_OF_MEMORY, the output is as it was and *length is 0. With
 * the first three of these *name is where the argument's name stands in the text of the message, and with each other status zeros.
 *
 * The caller owes what it owes of talmuiga_format_english_sized, that message and arguments are open, and that *name overlaps nothing
 * else of the call. The call changes neither, so any number of threads may write at once by their own copies of the structs. */
uint32_t talmuiga_message_write_sized(talmuiga_message *message, talmuiga_arguments *arguments, uint8_t *output, size_t output_len,
                                      size_t *length, talmuiga_word *name);

/* Closes a message that is open, whose room is then the caller's again. */
void talmuiga_message_close_sized(talmuiga_message *message);

/* Opens arguments in the room that arguments->at leads to, without values. They are open then, to be closed by
 * talmuiga_arguments_close_sized. What the caller owes of their room is what it owes of a formatter's. */
void talmuiga_arguments_open_sized(talmuiga_arguments *arguments);

/* Adds a text to arguments, behind what is there. Name and text are copied.
 *
 * Of this function and the next two: with each status but TALMUIGA_DONE the arguments are as they were; TALMUIGA_NOT_UTF8 comes first,
 * if the name, the text of this function or the skeleton isn't UTF-8, and TALMUIGA_OUT_OF_MEMORY may come in place of all but that and
 * TALMUIGA_NO_FORM. The caller owes that the arguments are open, that no other call uses them meanwhile, and what it owes of
 * talmuiga_format_english_sized. */
uint32_t talmuiga_arguments_text_sized(talmuiga_arguments *arguments, const uint8_t *name, size_t name_len, const uint8_t *text,
                                       size_t text_len);

/* Adds a number as the formatter writes it: a decimal and nothing else. The formatter is one that was opened by a skeleton, with or
 * without ranges; the empty skeleton is plain numbers. It is only lent, and isn't changed. By the number's text the message picks: 1 with
 * two fraction digits is `other` in English. With TALMUIGA_NO_FORM the formatter was opened otherwise; with TALMUIGA_NOT_DECIMAL,
 * TALMUIGA_TOO_MANY_DIGITS and TALMUIGA_OVERFLOW there is no number, as of talmuiga_formatter_one_sized. */
uint32_t talmuiga_arguments_number_sized(talmuiga_arguments *arguments, talmuiga_formatter *formatter, const uint8_t *name,
                                         size_t name_len, const uint8_t *text, size_t text_len);

/* The same for the places {NAME, number, ::SKELETON} alone, whose skeleton is this one, byte for byte. The formatter has to be that of
 * the skeleton, which nothing checks. */
uint32_t talmuiga_arguments_form_sized(talmuiga_arguments *arguments, talmuiga_formatter *formatter, const uint8_t *name,
                                       size_t name_len, const uint8_t *skeleton, size_t skeleton_len, const uint8_t *text,
                                       size_t text_len);

/* Leaves no values in arguments, which stay open. */
void talmuiga_arguments_clear_sized(talmuiga_arguments *arguments);

/* Closes arguments that are open, whose room is then the caller's again. */
void talmuiga_arguments_close_sized(talmuiga_arguments *arguments);

/* Judges tables, as a formatter that is opened by them does, for any words, and tells in words why they are refused.
 *
 * With TALMUIGA_DONE they are accepted. With TALMUIGA_TABLES_REFUSED *length says how long the words are, and the first
 * *length bytes of the output are the words, as "entry 2 of `rules`: bad locale", or, where they have no room, it is as it
 * was. With TALMUIGA_OUT_OF_MEMORY nothing is known. In the first and the last case *length is 0 and the output as it was.
 * The words are for people; another version may have others. The caller owes what it owes of
 * talmuiga_format_english_sized. */
uint32_t talmuiga_tables_fault_sized(const uint8_t *tables, size_t tables_len, uint8_t *output, size_t output_len,
                                     size_t *length);

/* What tables can be asked for. */
enum {
    TALMUIGA_LIST_LOCALES = 1,
    TALMUIGA_LIST_SYSTEMS = 2, /* numbering systems */
    TALMUIGA_LIST_CURRENCIES = 3,
    TALMUIGA_LIST_UNITS = 4
};

/* Lists what tables hold of a kind, one of TALMUIGA_LIST_LOCALES and so on: each name once, with a line feed behind it, in the order in
 * which the names stand first. Of entries the names alone are read: talmuiga_tables_fault_sized judges the rest.
 *
 * With TALMUIGA_DONE the first *length bytes of the output are the names. With TALMUIGA_OUTPUT_TOO_SMALL the output is as it was, and
 * *length says how long they are. With TALMUIGA_WORDS_REFUSED the kind is none; with TALMUIGA_TABLES_REFUSED the tables aren't JSON in
 * UTF-8. With these and with TALMUIGA_OUT_OF_MEMORY the output is as it was and *length is 0. No other status comes. The caller owes
 * what it owes of talmuiga_format_english_sized. */
uint32_t talmuiga_tables_list_sized(const uint8_t *tables, size_t tables_len, uint32_t kind, uint8_t *output, size_t output_len,
                                    size_t *length);

/* The number of the library's version, as TALMUIGA_VERSION_NUMBER. */
uint32_t talmuiga_version(void);

/* A status in words. */
static inline const char *talmuiga_status_text(uint32_t status) {
    switch (status) {
        case TALMUIGA_DONE: return "done";
        case TALMUIGA_OUT_OF_MEMORY: return "out of memory";
        case TALMUIGA_WORDS_REFUSED: return "words refused";
        case TALMUIGA_TABLES_REFUSED: return "tables refused";
        case TALMUIGA_NO_DATA: return "no data";
        case TALMUIGA_OUTPUT_TOO_SMALL: return "output too small";
        case TALMUIGA_NOT_DECIMAL: return "not a decimal";
        case TALMUIGA_TOO_MANY_DIGITS: return "too many digits";
        case TALMUIGA_OVERFLOW: return "overflow";
        case TALMUIGA_SKELETON_REFUSED: return "skeleton refused";
        case TALMUIGA_NO_PATTERN: return "no range pattern";
        case TALMUIGA_DESCENDING: return "the start is above the end";
        case TALMUIGA_END_NOT_DECIMAL: return "the end: not a decimal";
        case TALMUIGA_END_TOO_MANY_DIGITS: return "the end: too many digits";
        case TALMUIGA_END_OVERFLOW: return "the end: overflow";
        case TALMUIGA_MESSAGE_REFUSED: return "message refused";
        case TALMUIGA_MISSING_ARGUMENT: return "an argument is missing";
        case TALMUIGA_NOT_A_NUMBER: return "an argument isn't a number";
        case TALMUIGA_NOT_A_TEXT: return "an argument isn't a text";
        case TALMUIGA_NOT_UTF8: return "not UTF-8";
        case TALMUIGA_NO_FORM: return "the formatter has no skeleton";
        case TALMUIGA_NO_SUCH_PLACE: return "no such place or name";
        case TALMUIGA_NOT_READ: return "not a number's text";
        case TALMUIGA_NO_READING: return "the formatter reads no texts";
        default: return "no such status";
    }
}

/* A fault in words, without its byte: "left out: scientific". Words are for people; another version may have others. */
static inline const char *talmuiga_fault_text(const talmuiga_fault *fault) {
    static const char *const kinds[] = {
        "no fault", "not UTF-8", "unknown stem", "left out", "set twice", "more than 999 digits", "no option is taken here",
        "slash without a stem", "empty option", "unknown option", "option missing",
        "increment of which 1 is no multiple, in compact notation", "not supported"};
    static const char *const left_out[] = {
        "left out", "left out: scientific", "left out: engineering", "left out: decimal-always", "left out: measure-unit",
        "left out: per-measure-unit", "left out: usage", "left out: unit-width-formal", "left out: unit-width-variant",
        "left out: rounding-mode-half-odd", "left out: rounding-mode-unnecessary",
        "left out: integer digits that are cut off", "left out: integer width of no digit",
        "left out: scale by a number that is no power of ten",
        "left out: increment that isn't 1, 2, 5 or 25 times a power of ten"};
    static const char *const repeated[] = {
        "set twice", "set twice: notation", "set twice: unit", "set twice: unit width", "set twice: precision",
        "set twice: rounding mode", "set twice: integer width", "set twice: scale", "set twice: grouping",
        "set twice: numbering system", "set twice: sign", "set twice: decimal separator"};
    static const char *const unsupported[] = {
        "not supported", "not supported: numbering-system", "not supported: currency"};
    const char *const *texts = kinds;
    size_t count = sizeof kinds / sizeof *kinds, at = fault->kind;
    switch (fault->kind) {
        case TALMUIGA_FAULT_LEFT_OUT: texts = left_out, count = sizeof left_out / sizeof *left_out; break;
        case TALMUIGA_FAULT_REPEATED: texts = repeated, count = sizeof repeated / sizeof *repeated; break;
        case TALMUIGA_FAULT_UNSUPPORTED: texts = unsupported, count = sizeof unsupported / sizeof *unsupported; break;
        default: return at < count ? kinds[at] : "no such fault";
    }
    return texts[fault->thing < count ? fault->thing : 0];
}

/* A fault of a message's text in words, without its byte. Words are for people; another version may have others. */
static inline const char *talmuiga_message_fault_text(const talmuiga_fault *fault) {
    static const char *const kinds[] = {
        "no fault", "not UTF-8", "more than 65,535 bytes", "the text ends within an argument", "the brace closes nothing",
        "the quote isn't closed", "an argument within eight arms", "a name is due",
        "plural, selectordinal, select or number is due", ":: and a skeleton are due", "the skeleton",
        "another kind than before", "offset isn't supported", "a key is due", "the key is repeated", "no `other`",
        "a comma or a brace is due"};
    const talmuiga_fault within = {fault->byte, fault->thing, 0};
    if (fault->kind == TALMUIGA_MESSAGE_FAULT_SKELETON && fault->thing) {
        return talmuiga_fault_text(&within);
    }
    return fault->kind < sizeof kinds / sizeof *kinds ? kinds[fault->kind] : "no such fault";
}

/* talmuiga_skeleton_canonical_sized, where a pointer with length 0 may be null, the output may be longer than PTRDIFF_MAX, and
 * the fault may be null. */
static inline uint32_t talmuiga_skeleton_canonical(const char *skeleton, size_t skeleton_len, char *output,
                                                   size_t output_len, size_t *length, talmuiga_fault *fault) {
    talmuiga_fault unseen;
    return talmuiga_skeleton_canonical_sized(talmuiga_bytes(skeleton), skeleton_len, talmuiga_room(output),
                                             talmuiga_room_len(output_len), length, fault ? fault : &unseen);
}

/* talmuiga_tables_fault_sized, where a pointer with length 0 may be null, and the output may be longer than PTRDIFF_MAX. */
static inline uint32_t talmuiga_tables_fault(const char *tables, size_t tables_len, char *output, size_t output_len,
                                             size_t *length) {
    return talmuiga_tables_fault_sized(talmuiga_bytes(tables), tables_len, talmuiga_room(output),
                                       talmuiga_room_len(output_len), length);
}

/* talmuiga_tables_list_sized in the same way. */
static inline uint32_t talmuiga_tables_list(const char *tables, size_t tables_len, uint32_t kind, char *output, size_t output_len,
                                            size_t *length) {
    return talmuiga_tables_list_sized(talmuiga_bytes(tables), tables_len, kind, talmuiga_room(output),
                                      talmuiga_room_len(output_len), length);
}

/* A formatter that isn't open, in room of malloc's behind its struct; null where malloc refused. */
static inline talmuiga_formatter *talmuiga_formatter_new(void) {
    talmuiga_formatter *formatter = (talmuiga_formatter *)malloc(16 + talmuiga_formatter_room());
    if (formatter) {
        formatter->at = (uint8_t *)formatter + 16;
    }
    return formatter;
}

/* The formatter by the status of its call: with each other than TALMUIGA_DONE it is freed, and null. */
static inline uint32_t talmuiga_formatter_opened(talmuiga_formatter *made, uint32_t status,
                                                 talmuiga_formatter **formatter) {
    if (status != TALMUIGA_DONE) {
        free(made);
        made = NULL;
    }
    *formatter = made;
    return status;
}

/* Makes a formatter in plain English, and puts it into *formatter: with TALMUIGA_DONE it is open, to be closed by
 * talmuiga_formatter_close, and with TALMUIGA_OUT_OF_MEMORY null. */
static inline uint32_t talmuiga_formatter_open_english(talmuiga_formatter **formatter) {
    talmuiga_formatter *made = talmuiga_formatter_new();
    return talmuiga_formatter_opened(
        made, made ? talmuiga_formatter_open_english_sized(made) : (uint32_t)TALMUIGA_OUT_OF_MEMORY, formatter);
}

/* The same by tables; the words are as of talmuiga_format_lines, and so are the statuses, of which
 * TALMUIGA_OUTPUT_TOO_SMALL doesn't come. TALMUIGA_OUT_OF_MEMORY may come in place of any. */
static inline uint32_t talmuiga_formatter_open(const char *tables, size_t tables_len, const char *locale,
                                               const char *system, const char *style, const char *grouping,
                                               talmuiga_formatter **formatter) {
    talmuiga_formatter *made = talmuiga_formatter_new();
    uint32_t status = TALMUIGA_OUT_OF_MEMORY;
    if (made) {
        status = talmuiga_formatter_open_sized(
            talmuiga_bytes(tables), tables_len, talmuiga_bytes(locale), locale ? strlen(locale) : 0,
            talmuiga_bytes(system), system ? strlen(system) : 0, talmuiga_bytes(style), style ? strlen(style) : 0,
            talmuiga_bytes(grouping), grouping ? strlen(grouping) : 0, made);
    }
    return talmuiga_formatter_opened(made, status, formatter);
}

/* A call that opens a formatter by tables, a locale and a number skeleton, and one that does so in English. */
typedef uint32_t talmuiga_opening(const uint8_t *tables, size_t tables_len, const uint8_t *locale, size_t locale_len,
                                  const uint8_t *skeleton, size_t skeleton_len, talmuiga_fault *fault,
                                  talmuiga_formatter *formatter);
typedef uint32_t talmuiga_english_opening(const uint8_t *skeleton, size_t skeleton_len, talmuiga_fault *fault,
                                          talmuiga_formatter *formatter);

/* A formatter by such a call, in memory of its own; the fault may be null. */
static inline uint32_t talmuiga_formatter_open_by(talmuiga_opening *open, const char *tables, size_t tables_len,
                                                  const char *locale, const char *skeleton, size_t skeleton_len,
                                                  talmuiga_fault *fault, talmuiga_formatter **formatter) {
    talmuiga_formatter *made = talmuiga_formatter_new();
    talmuiga_fault found = {0, 0, 0};
    uint32_t status = TALMUIGA_OUT_OF_MEMORY;
    if (made) {
        status = open(talmuiga_bytes(tables), tables_len, talmuiga_bytes(locale), locale ? strlen(locale) : 0,
                      talmuiga_bytes(skeleton), skeleton_len, &found, made);
    }
    if (fault) {
        *fault = found;
    }
    return talmuiga_formatter_opened(made, status, formatter);
}

/* The same in English. */
static inline uint32_t talmuiga_formatter_open_english_by(talmuiga_english_opening *open, const char *skeleton,
                                                          size_t skeleton_len, talmuiga_fault *fault,
                                                          talmuiga_formatter **formatter) {
    talmuiga_formatter *made = talmuiga_formatter_new();
    talmuiga_fault found = {0, 0, 0};
    uint32_t status = made ? open(talmuiga_bytes(skeleton), skeleton_len, &found, made) : (uint32_t)TALMUIGA_OUT_OF_MEMORY;
    if (fault) {
        *fault = found;
    }
    return talmuiga_formatter_opened(made, status, formatter);
}

/* The same by tables, a locale and a number skeleton, whose statuses are those of talmuiga_formatter_open_skeleton_sized. The
 * locale ends in a NUL. The skeleton has a length, and a pointer with length 0 may be null. The fault may be null; where memory
 * for the formatter isn't found, it is zeros. */
static inline uint32_t talmuiga_formatter_open_skeleton(const char *tables, size_t tables_len, const char *locale,
                                                        const char *skeleton, size_t skeleton_len,
                                                        talmuiga_fault *fault, talmuiga_formatter **formatter) {
    return talmuiga_formatter_open_by(talmuiga_formatter_open_skeleton_sized, tables, tables_len, locale, skeleton, skeleton_len,
                                      fault, formatter);
}

/* The same in English without tables, as talmuiga_formatter_open_english_skeleton_sized. */
static inline uint32_t talmuiga_formatter_open_english_skeleton(const char *skeleton, size_t skeleton_len,
                                                                talmuiga_fault *fault, talmuiga_formatter **formatter) {
    return talmuiga_formatter_open_english_by(talmuiga_formatter_open_english_skeleton_sized, skeleton, skeleton_len, fault,
                                              formatter);
}

/* Makes a formatter that writes ranges too: talmuiga_formatter_open_ranges_sized as talmuiga_formatter_open_skeleton calls the
 * other. */
static inline uint32_t talmuiga_formatter_open_ranges(const char *tables, size_t tables_len, const char *locale,
                                                      const char *skeleton, size_t skeleton_len,
                                                      talmuiga_fault *fault, talmuiga_formatter **formatter) {
    return talmuiga_formatter_open_by(talmuiga_formatter_open_ranges_sized, tables, tables_len, locale, skeleton, skeleton_len,
                                      fault, formatter);
}

/* The same in English without tables, as talmuiga_formatter_open_english_ranges_sized. */
static inline uint32_t talmuiga_formatter_open_english_ranges(const char *skeleton, size_t skeleton_len,
                                                              talmuiga_fault *fault, talmuiga_formatter **formatter) {
    return talmuiga_formatter_open_english_by(talmuiga_formatter_open_english_ranges_sized, skeleton, skeleton_len, fault,
                                              formatter);
}

/* talmuiga_formatter_format_sized, where a pointer with length 0 may be null, and the output may be longer than
 * PTRDIFF_MAX. Any number of threads may format with one formatter at once. */
static inline uint32_t talmuiga_formatter_format(const talmuiga_formatter *formatter, const char *input,
                                                 size_t input_len, char *output, size_t output_len,
                                                 talmuiga_reached *reached) {
    talmuiga_formatter copy = *formatter;
    return talmuiga_formatter_format_sized(&copy, talmuiga_bytes(input), input_len, talmuiga_room(output),
                                           talmuiga_room_len(output_len), reached);
}

/* talmuiga_formatter_one_sized in the same way. */
static inline uint32_t talmuiga_formatter_one(const talmuiga_formatter *formatter, const char *text, size_t text_len,
                                              char *output, size_t output_len, size_t *length) {
    talmuiga_formatter copy = *formatter;
    return talmuiga_formatter_one_sized(&copy, talmuiga_bytes(text), text_len, talmuiga_room(output),
                                        talmuiga_room_len(output_len), length);
}

/* talmuiga_formatter_parts_sized in the same way: spans with length 0 may be null too, and of any number of them as many are
 * used as PTRDIFF_MAX bytes hold. */
static inline uint32_t talmuiga_formatter_parts(const talmuiga_formatter *formatter, const char *text, size_t text_len,
                                                char *output, size_t output_len, size_t *length, talmuiga_span *spans,
                                                size_t spans_len, size_t *count) {
    const size_t most = (size_t)-1 / 2 / sizeof(talmuiga_span);
    talmuiga_span none = {0, 0, 0};
    talmuiga_formatter copy = *formatter;
    return talmuiga_formatter_parts_sized(&copy, talmuiga_bytes(text), text_len, talmuiga_room(output),
                                          talmuiga_room_len(output_len), length, spans ? spans : &none,
                                          spans_len < most ? spans_len : most, count);
}

/* talmuiga_formatter_read_sized, where a pointer with length 0 and the byte may be null, and the output may be longer than PTRDIFF_MAX. Any
 * number of threads may read with one formatter at once. */
static inline uint32_t talmuiga_formatter_read(const talmuiga_formatter *formatter, const char *text, size_t text_len, char *output,
                                               size_t output_len, size_t *length, size_t *byte) {
    talmuiga_formatter copy = *formatter;
    size_t unseen;
    return talmuiga_formatter_read_sized(&copy, talmuiga_bytes(text), text_len, talmuiga_room(output),
                                         talmuiga_room_len(output_len), length, byte ? byte : &unseen);
}

/* talmuiga_formatter_range_sized, where a pointer with length 0 may be null, and the output may be longer than PTRDIFF_MAX. Any number
 * of threads may write ranges with one formatter at once. */
static inline uint32_t talmuiga_formatter_range(const talmuiga_formatter *formatter, const char *start, size_t start_len,
                                                const char *end, size_t end_len, char *output, size_t output_len, size_t *length) {
    talmuiga_formatter copy = *formatter;
    return talmuiga_formatter_range_sized(&copy, talmuiga_bytes(start), start_len, talmuiga_bytes(end), end_len,
                                          talmuiga_room(output), talmuiga_room_len(output_len), length);
}

/* Closes and frees a formatter that was made by talmuiga_formatter_open, talmuiga_formatter_open_skeleton,
 * talmuiga_formatter_open_english, talmuiga_formatter_open_english_skeleton, talmuiga_formatter_open_ranges or
 * talmuiga_formatter_open_english_ranges; null is closed already. */
static inline void talmuiga_formatter_close(talmuiga_formatter *formatter) {
    if (formatter) {
        talmuiga_formatter_close_sized(formatter);
        free(formatter);
    }
}

/* ---- Messages in memory of malloc's. */

/* The fault where a caller wants none. */
static inline uint32_t talmuiga_fault_told(talmuiga_fault *fault, talmuiga_fault found, uint32_t status) {
    if (fault) {
        *fault = found;
    }
    return status;
}

/* A message that isn't open, in room of malloc's behind its struct; null where malloc refused. */
static inline talmuiga_message *talmuiga_message_new(void) {
    talmuiga_message *message = (talmuiga_message *)malloc(16 + talmuiga_formatter_room());
    if (message) {
        message->at = (uint8_t *)message + 16;
    }
    return message;
}

/* The message by the status of its call: with each other than TALMUIGA_DONE it is freed, and null. */
static inline uint32_t talmuiga_message_opened(talmuiga_message *made, uint32_t status, talmuiga_message **message) {
    if (status != TALMUIGA_DONE) {
        free(made);
        made = NULL;
    }
    *message = made;
    return status;
}

/* Makes a message by tables, a locale and a text, and puts it into *message: with TALMUIGA_DONE it is open, to be closed by
 * talmuiga_message_close, and with each other status null. Statuses and faults are those of talmuiga_message_open_sized. The locale ends
 * in a NUL, a pointer with length 0 may be null, and the fault may be null. */
static inline uint32_t talmuiga_message_open(const char *tables, size_t tables_len, const char *locale, const char *text,
                                             size_t text_len, talmuiga_fault *fault, talmuiga_message **message) {
    talmuiga_message *made = talmuiga_message_new();
    talmuiga_fault found = {0, 0, 0};
    uint32_t status = TALMUIGA_OUT_OF_MEMORY;
    if (made) {
        status = talmuiga_message_open_sized(talmuiga_bytes(tables), tables_len, talmuiga_bytes(locale), locale ? strlen(locale) : 0,
                                             talmuiga_bytes(text), text_len, &found, made);
    }
    return talmuiga_message_opened(made, talmuiga_fault_told(fault, found, status), message);
}

/* The same in English without tables. */
static inline uint32_t talmuiga_message_open_english(const char *text, size_t text_len, talmuiga_fault *fault,
                                                     talmuiga_message **message) {
    talmuiga_message *made = talmuiga_message_new();
    talmuiga_fault found = {0, 0, 0};
    uint32_t status = TALMUIGA_OUT_OF_MEMORY;
    if (made) {
        status = talmuiga_message_open_english_sized(talmuiga_bytes(text), text_len, &found, made);
    }
    return talmuiga_message_opened(made, talmuiga_fault_told(fault, found, status), message);
}

/* talmuiga_message_place_sized and talmuiga_message_name_sized. Any number of threads may use one message at once. */
static inline uint32_t talmuiga_message_place(const talmuiga_message *message, size_t index, talmuiga_place *place) {
    talmuiga_message copy = *message;
    return talmuiga_message_place_sized(&copy, index, place);
}

static inline uint32_t talmuiga_message_name(const talmuiga_message *message, size_t index, talmuiga_named *named) {
    talmuiga_message copy = *message;
    return talmuiga_message_name_sized(&copy, index, named);
}

/* talmuiga_message_write_sized, where an output with length 0 and the name may be null, and the output may be longer than PTRDIFF_MAX.
 * Any number of threads may write one message at once, and with one list of arguments. */
static inline uint32_t talmuiga_message_write(const talmuiga_message *message, const talmuiga_arguments *arguments, char *output,
                                              size_t output_len, size_t *length, talmuiga_word *name) {
    talmuiga_message copy = *message;
    talmuiga_arguments given = *arguments;
    talmuiga_word unseen;
    return talmuiga_message_write_sized(&copy, &given, talmuiga_room(output), talmuiga_room_len(output_len), length,
                                        name ? name : &unseen);
}

/* Closes and frees a message that was made by talmuiga_message_open or talmuiga_message_open_english; null is closed already. */
static inline void talmuiga_message_close(talmuiga_message *message) {
    if (message) {
        talmuiga_message_close_sized(message);
        free(message);
    }
}

/* Makes arguments without values, to be closed by talmuiga_arguments_close; null where malloc refused. */
static inline talmuiga_arguments *talmuiga_arguments_open(void) {
    talmuiga_arguments *arguments = (talmuiga_arguments *)malloc(16 + talmuiga_formatter_room());
    if (arguments) {
        arguments->at = (uint8_t *)arguments + 16;
        talmuiga_arguments_open_sized(arguments);
    }
    return arguments;
}

/* talmuiga_arguments_text_sized, where the name ends in a NUL, and a pointer with length 0 may be null. */
static inline uint32_t talmuiga_arguments_text(talmuiga_arguments *arguments, const char *name, const char *text, size_t text_len) {
    return talmuiga_arguments_text_sized(arguments, talmuiga_bytes(name), name ? strlen(name) : 0, talmuiga_bytes(text), text_len);
}

/* talmuiga_arguments_number_sized in the same way. */
static inline uint32_t talmuiga_arguments_number(talmuiga_arguments *arguments, const talmuiga_formatter *formatter, const char *name,
                                                 const char *text, size_t text_len) {
    talmuiga_formatter copy = *formatter;
    return talmuiga_arguments_number_sized(arguments, &copy, talmuiga_bytes(name), name ? strlen(name) : 0, talmuiga_bytes(text),
                                           text_len);
}

/* talmuiga_arguments_form_sized in the same way; the skeleton has a length. */
static inline uint32_t talmuiga_arguments_form(talmuiga_arguments *arguments, const talmuiga_formatter *formatter, const char *name,
                                               const char *skeleton, size_t skeleton_len, const char *text, size_t text_len) {
    talmuiga_formatter copy = *formatter;
    return talmuiga_arguments_form_sized(arguments, &copy, talmuiga_bytes(name), name ? strlen(name) : 0, talmuiga_bytes(skeleton),
                                         skeleton_len, talmuiga_bytes(text), text_len);
}

/* Leaves no values in arguments. */
static inline void talmuiga_arguments_clear(talmuiga_arguments *arguments) {
    talmuiga_arguments_clear_sized(arguments);
}

/* Closes and frees arguments that were made by talmuiga_arguments_open; null is closed already. */
static inline void talmuiga_arguments_close(talmuiga_arguments *arguments) {
    if (arguments) {
        talmuiga_arguments_close_sized(arguments);
        free(arguments);
    }
}

/* A value of a message: a name and a text, both ending in a NUL. If the message wants a number, the text is its decimal; where it takes
 * either, is_number says which it is. */
typedef struct talmuiga_value {
    const char *name;
    const char *text;
    int is_number;
} talmuiga_value;

/* Adds a number to arguments by the formatter of a skeleton, which is opened and closed: for the places of the skeleton, or, with null in
 * its place, without one. */
static inline uint32_t talmuiga_arguments_add_by(talmuiga_arguments *arguments, const char *tables, size_t tables_len, const char *locale,
                                                 const char *skeleton, size_t skeleton_len, const talmuiga_value *value) {
    talmuiga_formatter *formatter;
    uint32_t status = talmuiga_formatter_open_skeleton(tables, tables_len, locale, skeleton, skeleton_len, NULL, &formatter);
    if (status == TALMUIGA_DONE) {
        status = skeleton ? talmuiga_arguments_form(arguments, formatter, value->name, skeleton, skeleton_len, value->text,
                                                    strlen(value->text))
                          : talmuiga_arguments_number(arguments, formatter, value->name, value->text, strlen(value->text));
        talmuiga_formatter_close(formatter);
    }
    return status;
}

/* Whether a word of a text is a name. */
static inline int talmuiga_is_word(const char *text, talmuiga_word word, const char *name) {
    const size_t len = strlen(name);
    return word.end - word.start == len && memcmp(text + word.start, name, len) == 0;
}

/* Adds a value to arguments, as the message of a text wants it. */
static inline uint32_t talmuiga_arguments_add(talmuiga_arguments *arguments, const talmuiga_message *message, const char *text,
                                              const char *tables, size_t tables_len, const char *locale, const talmuiga_value *value) {
    talmuiga_named named;
    talmuiga_place place;
    uint32_t status, is_number = value->is_number != 0;
    for (size_t at = 0; (status = talmuiga_message_name(message, at, &named)) == TALMUIGA_DONE; at++) {
        if (talmuiga_is_word(text, named.name, value->name)) {
            is_number = named.kind == TALMUIGA_NUMBER_ARGUMENT || (named.kind == TALMUIGA_ANY_ARGUMENT && is_number);
        }
    }
    if (status != TALMUIGA_NO_SUCH_PLACE) {
        return status;
    }
    if (!is_number) {
        return talmuiga_arguments_text(arguments, value->name, value->text, strlen(value->text));
    }
    status = talmuiga_arguments_add_by(arguments, tables, tables_len, locale, NULL, 0, value);
    for (size_t at = 0; status == TALMUIGA_DONE && talmuiga_message_place(message, at, &place) == TALMUIGA_DONE; at++) {
        if (talmuiga_is_word(text, place.name, value->name)) {
            status = talmuiga_arguments_add_by(arguments, tables, tables_len, locale, text + place.skeleton.start,
                                               place.skeleton.end - place.skeleton.start, value);
        }
    }
    return status;
}

/* Writes the message of a text once, with values: message, arguments and formatters are opened and closed. Locale and text end in a NUL.
 * The statuses are those of the calls that it makes, and so is the fault, which may be null; what else it sets is as of
 * talmuiga_message_write. A caller that writes a message often opens it once. */
static inline uint32_t talmuiga_message_format(const char *tables, size_t tables_len, const char *locale, const char *text,
                                               const talmuiga_value *values, size_t count, char *output, size_t output_len,
                                               size_t *length, talmuiga_fault *fault) {
    talmuiga_message *message;
    talmuiga_arguments *arguments = talmuiga_arguments_open();
    uint32_t status = talmuiga_message_open(tables, tables_len, locale, text, strlen(text), fault, &message);
    *length = 0;
    if (status == TALMUIGA_DONE && !arguments) {
        status = TALMUIGA_OUT_OF_MEMORY;
    }
    for (size_t at = 0; status == TALMUIGA_DONE && at < count; at++) {
        status = talmuiga_arguments_add(arguments, message, text, tables, tables_len, locale, values + at);
    }
    if (status == TALMUIGA_DONE) {
        status = talmuiga_message_write(message, arguments, output, output_len, length, NULL);
    }
    talmuiga_arguments_close(arguments);
    talmuiga_message_close(message);
    return status;
}

#ifdef __cplusplus
}
#endif

#endif
