/* An extension for PostgreSQL: number_format(number, locale, skeleton) is a number as a number skeleton asks for it, in the form of a
 * locale.
 *
 *     make -C examples/postgresql TALMUIGA=$PWD install    # needs postgresql-server-dev-15 and lib/libtalmuiga.a
 *     sales=# CREATE EXTENSION talmuiga;
 *     sales=# SET talmuiga.tables = '/usr/share/talmuiga/english.json';
 *     sales=# SELECT number_format(price, 'en', 'currency/EUR') FROM sales;
 *
 * NULL is NULL. NaN and the infinities are errors, and so is a locale or a currency that the tables don't know, and a skeleton with a
 * fault, whose words and byte the error has. The file of tables is that of the setting talmuiga.tables, which only a superuser changes,
 * since the server reads the file. A backend reads it once, until the setting is set to another value, and opens a formatter once for
 * each locale and skeleton. Texts are in UTF-8, and are converted to the encoding of the database. */
#include "postgres.h"

#include "fmgr.h"
#include "mb/pg_wchar.h"
#include "storage/fd.h"
#include "utils/builtins.h"
#include "utils/guc.h"
#include "utils/memutils.h"
#include "utils/numeric.h"

#include "talmuiga.h"

#include <sys/stat.h>

PG_MODULE_MAGIC;

enum { MOST_FORMATTERS = 64, ROOM = 256 };

/* A formatter that is open, by the bytes of a locale and a skeleton. */
struct kept {
    char *locale, *skeleton;
    size_t locale_len, skeleton_len;
    talmuiga_formatter *formatter;
};

/* What a backend keeps: the bytes of the tables, and formatters, of which the last used one is looked at first. */
static char *tables;
static size_t tables_len;
static struct kept kept[MOST_FORMATTERS];
static int count, last;

static char *tables_name;

static void close_kept(struct kept *closed) {
    talmuiga_formatter_close(closed->formatter);
    pfree(closed->locale);
    pfree(closed->skeleton);
}

/* Another file: nothing of the one before is kept. */
static void let_go(const char *name, void *extra) {
    (void)name, (void)extra;
    while (count > 0) close_kept(&kept[--count]);
    last = 0;
    if (tables) pfree(tables);
    tables = NULL;
}

/* Reads the file of tables. */
static void read_tables(void) {
    struct stat known;
    FILE *file;
    char *bytes;
    if (!tables_name || !*tables_name) {
        ereport(ERROR, errcode(ERRCODE_CONFIG_FILE_ERROR), errmsg("the setting talmuiga.tables names no file of tables"));
    }
    file = AllocateFile(tables_name, PG_BINARY_R);
    if (!file || fstat(fileno(file), &known)) {
        ereport(ERROR, errcode_for_file_access(), errmsg("%s: the tables can't be read: %m", tables_name));
    }
    if (known.st_size <= 0 || !AllocSizeIsValid(known.st_size)) {
        ereport(ERROR, errcode(ERRCODE_CONFIG_FILE_ERROR), errmsg("%s: there are no tables", tables_name));
    }
    bytes = MemoryContextAlloc(TopMemoryContext, (Size)known.st_size);
    tables_len = fread(bytes, 1, (size_t)known.st_size, file);
    FreeFile(file);
    tables = bytes;
}

/* Some bytes that are kept. */
static char *kept_bytes(const char *bytes, size_t len) {
    char *copy = MemoryContextAlloc(TopMemoryContext, len + 1);
    memcpy(copy, bytes, len);
    copy[len] = 0;
    return copy;
}

/* Room for one formatter more; where there is none, the first is closed. */
static struct kept *place_for_one(void) {
    if (count == MOST_FORMATTERS) {
        close_kept(&kept[0]);
        kept[0] = kept[--count];
    }
    last = count;
    return &kept[count++];
}

/* The error of tables that are refused, with why. */
static void refuse_tables(void) {
    char words[ROOM];
    size_t length;
    uint32_t status = talmuiga_tables_fault(tables, tables_len, words, sizeof words - 1, &length);
    bool holds = status == TALMUIGA_TABLES_REFUSED && length < sizeof words;
    words[holds ? length : 0] = 0;
    ereport(ERROR, errcode(ERRCODE_CONFIG_FILE_ERROR), errmsg("%s: the tables are refused", tables_name),
            holds ? errdetail("%s", words) : 0);
}

/* The error of a skeleton. */
static void refuse_skeleton(const talmuiga_fault *fault) {
    if (fault->kind == TALMUIGA_FAULT_UNSUPPORTED) {
        ereport(ERROR, errcode(ERRCODE_FEATURE_NOT_SUPPORTED), errmsg("skeleton: %s", talmuiga_fault_text(fault)));
    }
    ereport(ERROR, errcode(ERRCODE_INVALID_PARAMETER_VALUE),
            errmsg("skeleton: %s, byte %zu", talmuiga_fault_text(fault), fault->byte));
}

/* The error of a formatter that isn't opened. */
static void refuse(uint32_t status, const talmuiga_fault *fault, const char *locale) {
    if (status == TALMUIGA_OUT_OF_MEMORY) ereport(ERROR, errcode(ERRCODE_OUT_OF_MEMORY), errmsg("out of memory"));
    if (status == TALMUIGA_WORDS_REFUSED) {
        ereport(ERROR, errcode(ERRCODE_INVALID_PARAMETER_VALUE), errmsg("no such locale: %s", locale));
    }
    if (status == TALMUIGA_TABLES_REFUSED) refuse_tables();
    if (status == TALMUIGA_NO_DATA) {
        ereport(ERROR, errcode(ERRCODE_UNDEFINED_OBJECT), errmsg("the tables lack what a formatter of %s needs", locale));
    }
    refuse_skeleton(fault);
}

static bool is_kept(const struct kept *one, const char *locale, size_t locale_len, const char *skeleton, size_t skeleton_len) {
    return one->locale_len == locale_len && one->skeleton_len == skeleton_len && memcmp(one->locale, locale, locale_len) == 0 &&
           memcmp(one->skeleton, skeleton, skeleton_len) == 0;
}

/* Opens the formatter of a locale and a skeleton, and keeps it. */
static const talmuiga_formatter *opened(const char *locale, size_t locale_len, const char *skeleton, size_t skeleton_len) {
    struct kept made = {NULL, NULL, locale_len, skeleton_len, NULL};
    talmuiga_fault fault;
    uint32_t status;
    if (!tables) read_tables();
    /* memory first: an error by `ereport` leaves no formatter open */
    made.locale = kept_bytes(locale, locale_len);
    made.skeleton = kept_bytes(skeleton, skeleton_len);
    status = talmuiga_formatter_open_skeleton(tables, tables_len, made.locale, skeleton, skeleton_len, &fault, &made.formatter);
    if (status) {
        pfree(made.locale);
        pfree(made.skeleton);
        refuse(status, &fault, pnstrdup(locale, locale_len));
    }
    *place_for_one() = made;
    return made.formatter;
}

/* The formatter of a locale and a skeleton, opened where it isn't yet. */
static const talmuiga_formatter *formatter_of(const text *locale, const char *skeleton, size_t skeleton_len) {
    const char *name = VARDATA_ANY(locale);
    size_t name_len = VARSIZE_ANY_EXHDR(locale);
    if (count > 0 && is_kept(&kept[last], name, name_len, skeleton, skeleton_len)) return kept[last].formatter;
    for (int i = 0; i < count; i++) {
        if (is_kept(&kept[i], name, name_len, skeleton, skeleton_len)) return kept[last = i].formatter;
    }
    return opened(name, name_len, skeleton, skeleton_len);
}

/* The error of a number that isn't formatted. */
static void not_formatted(uint32_t status, const char *number) {
    if (status == TALMUIGA_OUT_OF_MEMORY) ereport(ERROR, errcode(ERRCODE_OUT_OF_MEMORY), errmsg("out of memory"));
    ereport(ERROR, errcode(ERRCODE_NUMERIC_VALUE_OUT_OF_RANGE), errmsg("%s: %.40s", talmuiga_status_text(status), number));
}

/* A text of so many bytes in UTF-8, in the encoding of the database. */
static text *as_text(char *bytes, size_t len) {
    char *converted = pg_any_to_server(bytes, (int)len, PG_UTF8);
    return converted == bytes ? cstring_to_text_with_len(bytes, (int)len) : cstring_to_text(converted);
}

/* The text of a number. */
static text *formatted(const talmuiga_formatter *formatter, const char *number) {
    char few[ROOM], *output = few;
    size_t length, number_len = strlen(number);
    uint32_t status = talmuiga_formatter_one(formatter, number, number_len, few, ROOM, &length);
    if (status == TALMUIGA_OUTPUT_TOO_SMALL) {
        output = palloc(length + 1);
        status = talmuiga_formatter_one(formatter, number, number_len, output, length, &length);
    }
    if (status) not_formatted(status, number);
    return as_text(output, length);
}

PG_FUNCTION_INFO_V1(talmuiga_number_format);

Datum talmuiga_number_format(PG_FUNCTION_ARGS) {
    const text *locale = PG_GETARG_TEXT_PP(1), *asked = PG_GETARG_TEXT_PP(2);
    const char *bytes = VARDATA_ANY(asked);
    int len = VARSIZE_ANY_EXHDR(asked);
    char *skeleton = pg_server_to_any(bytes, len, PG_UTF8);
    size_t skeleton_len = skeleton == bytes ? (size_t)len : strlen(skeleton);
    const talmuiga_formatter *formatter = formatter_of(locale, skeleton, skeleton_len);
    char *number = DatumGetCString(DirectFunctionCall1(numeric_out, PG_GETARG_DATUM(0)));
    PG_RETURN_TEXT_P(formatted(formatter, number));
}

void _PG_init(void);

void _PG_init(void) {
    DefineCustomStringVariable("talmuiga.tables", "The file of tables of locales.", NULL, &tables_name, "", PGC_SUSET, 0, NULL, let_go,
                               NULL);
    MarkGUCPrefixReserved("talmuiga");
}
