/* An extension for SQLite: decfmt(number, locale, style) is a number in the form of a locale,
 * number_format(number, locale, skeleton) is one as a number skeleton asks for it: with a currency, say,
 * number_range_format(start, end, locale, skeleton) is the range of two such numbers, and message_format(text, locale, name, value, ...) is
 * a plural message with values by their names.
 *
 *     cc -O2 -fPIC -shared -Iinclude examples/sqlite/talmuiga_sqlite.c lib/libtalmuiga.a -o lib/talmuiga_sqlite.so
 *     TALMUIGA_TABLES=tables/sample.json sqlite3 sales.db
 *     sqlite> .load lib/talmuiga_sqlite
 *     sqlite> SELECT decfmt(price, 'de', 'short') FROM sales;
 *     sqlite> SELECT number_format(price, 'de', 'currency/EUR') FROM sales;
 *     sqlite> SELECT number_range_format(min(price), max(price), 'de', 'currency/EUR') FROM sales;
 *     sqlite> SELECT message_format('{n, plural, one{# sale} other{# sales}}', 'en', 'n', count(*)) FROM sales;
 *
 * NULL is NULL, what isn't a number is an error, and so is a locale, a style or a currency that the tables don't know, and a
 * skeleton with a fault, whose words and byte the error has, and a range whose start is above its end, or for whose locale the
 * tables have no range pattern. A text that is no message is an error with its words and its byte, and so is a value that the message lacks
 * or wants otherwise, with its name; a value that is a text is a number if the message wants one. Without a style it is plain. The tables are read once a
 * connection, from the file that TALMUIGA_TABLES names; a formatter is opened once for each locale and style or skeleton that
 * a connection asks for, and a message for each locale and text. A REAL is taken by SQLite's own text of it, which has to be a decimal. */
#include <sqlite3ext.h>
SQLITE_EXTENSION_INIT1

#include "talmuiga.h"

#include <stdio.h>

enum { LOCALE = 64, MOST_FORMATTERS = 64, MOST_MESSAGES = 64 };

/* How a formatter is opened: by a style, by a skeleton, or by a skeleton for ranges too. */
enum { BY_STYLE, BY_SKELETON, FOR_RANGES };

/* A formatter that is open, by a locale and a style or a skeleton. */
struct kept {
    char locale[LOCALE], *asked;
    size_t asked_len;
    int how;
    talmuiga_formatter *formatter;
};

/* A message that is open, by a locale and a text, its names, and its places with a form of their own. */
struct kept_message {
    char locale[LOCALE], *text;
    size_t text_len, names_count, places_count;
    talmuiga_message *message;
    talmuiga_named *names;
    talmuiga_place *places;
};

/* What a connection keeps. */
struct connection {
    char *tables;
    size_t tables_len, count, messages_count;
    talmuiga_arguments *arguments;
    struct kept kept[MOST_FORMATTERS];
    struct kept_message messages[MOST_MESSAGES];
};

static void close_kept(struct kept *kept) {
    talmuiga_formatter_close(kept->formatter);
    sqlite3_free(kept->asked);
}

static void close_message(struct kept_message *kept) {
    talmuiga_message_close(kept->message);
    sqlite3_free(kept->text);
    sqlite3_free(kept->names);
    sqlite3_free(kept->places);
}

static void let_go(void *data) {
    struct connection *connection = data;
    for (size_t i = 0; i < connection->count; i++) close_kept(&connection->kept[i]);
    for (size_t i = 0; i < connection->messages_count; i++) close_message(&connection->messages[i]);
    talmuiga_arguments_close(connection->arguments);
    sqlite3_free(connection->tables);
    sqlite3_free(connection);
}

/* Whether a formatter is that of a locale and a style or a skeleton. */
static int is_kept(const struct kept *kept, const char *locale, const char *asked, size_t len, int how) {
    return kept->how == how && kept->asked_len == len && strcmp(kept->locale, locale) == 0 &&
           memcmp(kept->asked, asked, len) == 0;
}

/* Room for one formatter more; where there is none, the first is closed. */
static struct kept *place_for_one(struct connection *connection) {
    struct kept *last = &connection->kept[connection->count];
    if (connection->count < MOST_FORMATTERS) return last;
    close_kept(connection->kept);
    connection->kept[0] = *--last;
    connection->count--;
    return last;
}

/* The formatter of a locale and a style or a skeleton, opened where it isn't yet; or null with the call's status, and the fault
 * of a skeleton. */
static const talmuiga_formatter *formatter_of(struct connection *connection, const char *locale, const char *asked, size_t len,
                                              int how, uint32_t *status, talmuiga_fault *fault) {
    const char *tables = connection->tables;
    const size_t tables_len = connection->tables_len;
    talmuiga_formatter *opened;
    for (size_t i = 0; i < connection->count; i++) {
        if (is_kept(&connection->kept[i], locale, asked, len, how)) return connection->kept[i].formatter;
    }
    *status = how == BY_STYLE      ? talmuiga_formatter_open(tables, tables_len, locale, "-", asked, NULL, &opened)
              : how == BY_SKELETON ? talmuiga_formatter_open_skeleton(tables, tables_len, locale, asked, len, fault, &opened)
                                   : talmuiga_formatter_open_ranges(tables, tables_len, locale, asked, len, fault, &opened);
    if (*status) return NULL;
    struct kept kept = {"", sqlite3_malloc64(len + 1), len, how, opened};
    if (!kept.asked) {
        *status = TALMUIGA_OUT_OF_MEMORY;
        talmuiga_formatter_close(opened);
        return NULL;
    }
    memcpy(kept.asked, asked, len);
    /* an accepted locale has at most 63 characters */
    strcpy(kept.locale, locale);
    *place_for_one(connection) = kept;
    connection->count++;
    return opened;
}

/* The error of a formatter that isn't opened. */
static void refuse(sqlite3_context *context, uint32_t status, const talmuiga_fault *fault) {
    if (status == TALMUIGA_OUT_OF_MEMORY) {
        sqlite3_result_error_nomem(context);
    } else if (status != TALMUIGA_SKELETON_REFUSED) {
        sqlite3_result_error(context, talmuiga_status_text(status), -1);
    } else {
        char words[256];
        const char *form = fault->kind == TALMUIGA_FAULT_UNSUPPORTED ? "skeleton: %s" : "skeleton: %s, byte %llu";
        sqlite3_snprintf(sizeof words, words, form, talmuiga_fault_text(fault), (sqlite3_uint64)fault->byte);
        sqlite3_result_error(context, words, -1);
    }
}

/* The text of one number, or of the range of two. */
static void answer(sqlite3_context *context, const talmuiga_formatter *formatter, int numbers, sqlite3_value **values) {
    const char *texts[2] = {"", ""};
    size_t lens[2] = {0, 0}, length, room = 64;
    for (int i = 0; i < numbers; i++) {
        texts[i] = (const char *)sqlite3_value_text(values[i]);
        lens[i] = (size_t)sqlite3_value_bytes(values[i]);
        room += 4 * lens[i];
    }
    for (;;) {
        char *output = sqlite3_malloc64(room);
        if (!texts[0] || !texts[1] || !output) {
            sqlite3_free(output);
            sqlite3_result_error_nomem(context);
            return;
        }
        uint32_t status = numbers == 1 ? talmuiga_formatter_one(formatter, texts[0], lens[0], output, room, &length)
                                       : talmuiga_formatter_range(formatter, texts[0], lens[0], texts[1], lens[1], output, room, &length);
        if (status == TALMUIGA_DONE) {
            sqlite3_result_text64(context, output, length, sqlite3_free, SQLITE_UTF8);
            return;
        }
        sqlite3_free(output);
        if (status != TALMUIGA_OUTPUT_TOO_SMALL) {
            if (status == TALMUIGA_OUT_OF_MEMORY) {
                sqlite3_result_error_nomem(context);
            } else {
                sqlite3_result_error(context, talmuiga_status_text(status), -1);
            }
            return;
        }
        room = length;
    }
}

/* A number, or the range of two, by a locale and a style or a skeleton, if it has one. */
static void formatted(sqlite3_context *context, int count, sqlite3_value **values, int how) {
    const int numbers = how == FOR_RANGES ? 2 : 1;
    for (int i = 0; i < count; i++) {
        if (sqlite3_value_type(values[i]) == SQLITE_NULL) return;
    }
    for (int i = 0; i < numbers; i++) {
        if (sqlite3_value_type(values[i]) == SQLITE_BLOB) {
            sqlite3_result_error(context, i ? "the end: not a decimal" : "not a decimal", -1);
            return;
        }
    }
    const char *locale = (const char *)sqlite3_value_text(values[numbers]);
    const char *asked = count > numbers + 1 ? (const char *)sqlite3_value_text(values[numbers + 1]) : "plain";
    size_t len = count > numbers + 1 ? (size_t)sqlite3_value_bytes(values[numbers + 1]) : strlen("plain");
    uint32_t status = TALMUIGA_OUT_OF_MEMORY;
    talmuiga_fault fault;
    const talmuiga_formatter *formatter =
        locale && asked ? formatter_of(sqlite3_user_data(context), locale, asked, len, how, &status, &fault) : NULL;
    if (formatter) {
        answer(context, formatter, numbers, values);
    } else {
        refuse(context, status, &fault);
    }
}

static void decfmt(sqlite3_context *context, int count, sqlite3_value **values) {
    formatted(context, count, values, BY_STYLE);
}

static void number_format(sqlite3_context *context, int count, sqlite3_value **values) {
    formatted(context, count, values, BY_SKELETON);
}

static void number_range_format(sqlite3_context *context, int count, sqlite3_value **values) {
    formatted(context, count, values, FOR_RANGES);
}

/* The names and places of a message that is opened; whether there was memory. */
static int read_asked(struct kept_message *kept) {
    talmuiga_named named;
    talmuiga_place place;
    uint32_t status;
    while ((status = talmuiga_message_name(kept->message, kept->names_count, &named)) == TALMUIGA_DONE) {
        talmuiga_named *names = sqlite3_realloc64(kept->names, (kept->names_count + 1) * sizeof named);
        if (!names) return 0;
        kept->names = names;
        kept->names[kept->names_count++] = named;
    }
    while (talmuiga_message_place(kept->message, kept->places_count, &place) == TALMUIGA_DONE) {
        talmuiga_place *places = sqlite3_realloc64(kept->places, (kept->places_count + 1) * sizeof place);
        if (!places) return 0;
        kept->places = places;
        kept->places[kept->places_count++] = place;
    }
    return status == TALMUIGA_NO_SUCH_PLACE;
}

/* The message of a locale and a text, opened where it isn't yet; or null with the call's status, and the fault of the text. */
static const struct kept_message *message_of(struct connection *connection, const char *locale, const char *text, size_t len,
                                             uint32_t *status, talmuiga_fault *fault) {
    struct kept_message kept = {"", NULL, len, 0, 0, NULL, NULL, NULL}, *last = &connection->messages[connection->messages_count];
    for (size_t i = 0; i < connection->messages_count; i++) {
        const struct kept_message *opened = &connection->messages[i];
        if (opened->text_len == len && strcmp(opened->locale, locale) == 0 && memcmp(opened->text, text, len) == 0) return opened;
    }
    *status = talmuiga_message_open(connection->tables, connection->tables_len, locale, text, len, fault, &kept.message);
    if (*status) return NULL;
    kept.text = sqlite3_malloc64(len + 1);
    if (!kept.text || !read_asked(&kept)) {
        *status = TALMUIGA_OUT_OF_MEMORY;
        close_message(&kept);
        return NULL;
    }
    memcpy(kept.text, text, len);
    /* an accepted locale has at most 63 characters */
    strcpy(kept.locale, locale);
    /* where there is no room, the first is closed */
    if (connection->messages_count == MOST_MESSAGES) {
        close_message(connection->messages);
        connection->messages[0] = *--last;
    } else {
        connection->messages_count++;
    }
    *last = kept;
    return last;
}

/* The error of a message that isn't opened or written: words, and in which place or of which name. */
static void refuse_message(sqlite3_context *context, const char *form, const char *words, const char *name, size_t name_len, size_t byte) {
    char *error = sqlite3_mprintf(form, words, (int)name_len, name, (sqlite3_uint64)byte);
    if (error) {
        sqlite3_result_error(context, error, -1);
    } else {
        sqlite3_result_error_nomem(context);
    }
    sqlite3_free(error);
}

/* Adds a number by the formatter of a skeleton: for its places, or, with null in its place, without one. The status is that of the
 * formatter or of the number. */
static uint32_t add_number(struct connection *connection, const char *locale, const char *name, const char *skeleton, size_t skeleton_len,
                           const char *text, size_t len) {
    uint32_t status;
    talmuiga_fault fault;
    const talmuiga_formatter *formatter =
        formatter_of(connection, locale, skeleton ? skeleton : "", skeleton_len, BY_SKELETON, &status, &fault);
    if (!formatter) return status;
    return skeleton ? talmuiga_arguments_form(connection->arguments, formatter, name, skeleton, skeleton_len, text, len)
                    : talmuiga_arguments_number(connection->arguments, formatter, name, text, len);
}

/* Adds a value of a name as the message asks for it; the status. */
static uint32_t add_value(struct connection *connection, const struct kept_message *message, const char *name, sqlite3_value *value) {
    int type = sqlite3_value_type(value);
    const char *text = (const char *)sqlite3_value_text(value);
    const size_t len = (size_t)sqlite3_value_bytes(value);
    uint32_t kind = TALMUIGA_TEXT_ARGUMENT, status;
    if (!text) return TALMUIGA_OUT_OF_MEMORY;
    for (size_t at = 0; at < message->names_count; at++) {
        if (talmuiga_is_word(message->text, message->names[at].name, name)) kind = message->names[at].kind;
    }
    if (type != SQLITE_INTEGER && type != SQLITE_FLOAT && kind != TALMUIGA_NUMBER_ARGUMENT) {
        return talmuiga_arguments_text(connection->arguments, name, text, len);
    }
    if (kind == TALMUIGA_TEXT_ARGUMENT) return TALMUIGA_NOT_A_TEXT;
    status = add_number(connection, message->locale, name, NULL, 0, text, len);
    for (size_t at = 0; status == TALMUIGA_DONE && at < message->places_count; at++) {
        const talmuiga_word asked = message->places[at].skeleton;
        if (talmuiga_is_word(message->text, message->places[at].name, name)) {
            status = add_number(connection, message->locale, name, message->text + asked.start, asked.end - asked.start, text, len);
        }
    }
    return status;
}

/* Whether a message has a name. */
static int is_named(const struct kept_message *message, const char *name) {
    for (size_t at = 0; at < message->names_count; at++) {
        if (talmuiga_is_word(message->text, message->names[at].name, name)) return 1;
    }
    return 0;
}

/* The text of a message with the arguments of the connection. */
static void answer_message(sqlite3_context *context, const struct connection *connection, const struct kept_message *message) {
    size_t length, room = 2 * message->text_len + 256;
    for (;;) {
        talmuiga_word name;
        char *output = sqlite3_malloc64(room);
        uint32_t status =
            output ? talmuiga_message_write(message->message, connection->arguments, output, room, &length, &name) : TALMUIGA_OUT_OF_MEMORY;
        if (status == TALMUIGA_DONE) {
            sqlite3_result_text64(context, output, length, sqlite3_free, SQLITE_UTF8);
            return;
        }
        sqlite3_free(output);
        if (status == TALMUIGA_OUT_OF_MEMORY) {
            sqlite3_result_error_nomem(context);
            return;
        }
        if (status != TALMUIGA_OUTPUT_TOO_SMALL) {
            refuse_message(context, "message: %s: %.*s", talmuiga_status_text(status), message->text + name.start, name.end - name.start, 0);
            return;
        }
        room = length;
    }
}

/* A message with values: a text, a locale, and names with their values behind them. */
static void message_format(sqlite3_context *context, int count, sqlite3_value **values) {
    struct connection *connection = sqlite3_user_data(context);
    for (int i = 0; i < count; i++) {
        if (sqlite3_value_type(values[i]) == SQLITE_NULL) return;
    }
    if (count < 2 || count % 2 != 0) {
        sqlite3_result_error(context, "message_format: a text, a locale, and names with values", -1);
        return;
    }
    const char *text = (const char *)sqlite3_value_text(values[0]), *locale = (const char *)sqlite3_value_text(values[1]);
    uint32_t status = TALMUIGA_OUT_OF_MEMORY;
    talmuiga_fault fault = {0, 0, 0};
    const struct kept_message *message =
        text && locale ? message_of(connection, locale, text, (size_t)sqlite3_value_bytes(values[0]), &status, &fault) : NULL;
    if (!message) {
        if (status == TALMUIGA_MESSAGE_REFUSED) {
            refuse_message(context, "message: %s%.*s, byte %llu", talmuiga_message_fault_text(&fault), "", 0, fault.byte);
        } else {
            refuse(context, status, &fault);
        }
        return;
    }
    talmuiga_arguments_clear(connection->arguments);
    for (int i = 2; i < count; i += 2) {
        const char *name = (const char *)sqlite3_value_text(values[i]);
        status = !name ? TALMUIGA_OUT_OF_MEMORY : is_named(message, name) ? add_value(connection, message, name, values[i + 1]) : TALMUIGA_DONE;
        if (status == TALMUIGA_OUT_OF_MEMORY) {
            sqlite3_result_error_nomem(context);
            return;
        }
        if (status != TALMUIGA_DONE) {
            refuse_message(context, "message: %s: %.*s", talmuiga_status_text(status), name, strlen(name), 0);
            return;
        }
    }
    answer_message(context, connection, message);
}

/* The whole file of a name, in SQLite's memory. */
static char *whole_file(const char *name, size_t *len) {
    FILE *file = name ? fopen(name, "rb") : NULL;
    if (!file) return NULL;
    char *bytes = NULL;
    long size = fseek(file, 0, SEEK_END) ? -1 : ftell(file);
    if (size >= 0 && !fseek(file, 0, SEEK_SET)) bytes = sqlite3_malloc64((sqlite3_uint64)size + 1);
    *len = bytes ? fread(bytes, 1, (size_t)size, file) : 0;
    fclose(file);
    return bytes;
}

int sqlite3_talmuigasqlite_init(sqlite3 *base, char **error, const sqlite3_api_routines *api) {
    SQLITE_EXTENSION_INIT2(api)
    struct connection *connection = sqlite3_malloc64(sizeof *connection);
    if (!connection) return SQLITE_NOMEM;
    connection->count = connection->messages_count = 0;
    connection->arguments = talmuiga_arguments_open();
    connection->tables = whole_file(getenv("TALMUIGA_TABLES"), &connection->tables_len);
    if (!connection->tables || !connection->arguments) {
        const int has_tables = connection->tables != NULL;
        talmuiga_arguments_close(connection->arguments);
        sqlite3_free(connection->tables);
        sqlite3_free(connection);
        if (has_tables) return SQLITE_NOMEM;
        *error = sqlite3_mprintf("TALMUIGA_TABLES names no file of tables");
        return SQLITE_ERROR;
    }
    const int words = SQLITE_UTF8 | SQLITE_DETERMINISTIC;
    int status = sqlite3_create_function_v2(base, "decfmt", 3, words, connection, decfmt, NULL, NULL, let_go);
    if (status == SQLITE_OK) {
        status = sqlite3_create_function_v2(base, "decfmt", 2, words, connection, decfmt, NULL, NULL, NULL);
    }
    if (status == SQLITE_OK) {
        status = sqlite3_create_function_v2(base, "number_format", 3, words, connection, number_format, NULL, NULL, NULL);
    }
    if (status == SQLITE_OK) {
        status = sqlite3_create_function_v2(base, "number_range_format", 4, words, connection, number_range_format, NULL, NULL, NULL);
    }
    if (status == SQLITE_OK) {
        status = sqlite3_create_function_v2(base, "message_format", -1, words, connection, message_format, NULL, NULL, NULL);
    }
    return status;
}
