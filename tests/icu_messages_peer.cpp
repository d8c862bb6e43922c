// Writes messages by ICU, for tests/icu_messages.py. Each line has fields between tabs: a locale, a message, and arguments, each
// `NAME=NUMBER` or `NAME:TEXT`; a line feed in a message is `\n`, a tab `\t` and a backslash `\\`. A line is answered by `= TEXT`,
// with the same escapes, or by `!` where ICU rejects the message, or by `?` where it doesn't write it. With the word --version it
// prints the version of ICU.
#include "icu_peer_lines.hpp"
#include <string>
#include <unicode/msgfmt.h>
#include <unicode/unistr.h>
#include <vector>

using namespace icu;

static std::string unescaped(const std::string &field) {
    std::string text;
    for (size_t at = 0; at < field.size(); at++) {
        if (field[at] == '\\' && at + 1 < field.size()) {
            char kind = field[++at];
            text += kind == 'n' ? '\n' : kind == 't' ? '\t' : kind;
        } else {
            text += field[at];
        }
    }
    return text;
}

static std::string escaped(const std::string &text) {
    std::string field;
    for (char c : text) {
        field += c == '\n' ? "\\n" : c == '\t' ? "\\t" : c == '\\' ? "\\\\" : std::string(1, c);
    }
    return field;
}

static std::string answer_of(const std::vector<std::string> &fields) {
    UErrorCode status = U_ZERO_ERROR;
    UParseError error{};
    Locale locale = Locale::forLanguageTag(fields[0], status);
    MessageFormat message(UnicodeString::fromUTF8(unescaped(fields[1])), locale, error, status);
    if (U_FAILURE(status)) {
        return "!";
    }
    std::vector<UnicodeString> names;
    std::vector<Formattable> values;
    for (size_t at = 2; at < fields.size(); at++) {
        size_t mark = fields[at].find_first_of("=:");
        names.push_back(UnicodeString::fromUTF8(fields[at].substr(0, mark)));
        std::string value = unescaped(fields[at].substr(mark + 1));
        values.push_back(fields[at][mark] == '=' ? Formattable(StringPiece(value), status) : Formattable(UnicodeString::fromUTF8(value)));
    }
    UnicodeString text;
    message.format(names.data(), values.data(), static_cast<int32_t>(names.size()), text, status);
    std::string bytes;
    return U_SUCCESS(status) ? "= " + escaped(text.toUTF8String(bytes)) : "? " + std::string(u_errorName(status));
}

// What stands between the tabs of a line.
static std::vector<std::string> fields_of(const std::string &line) {
    std::vector<std::string> fields(1);
    for (char c : line) {
        if (c == '\t') {
            fields.emplace_back();
        } else {
            fields.back() += c;
        }
    }
    return fields;
}

int main(int count, char **words) {
    return answer_lines(count, words, [](const std::string &line) {
        std::vector<std::string> fields = fields_of(line);
        return fields.size() < 2 ? "?" : answer_of(fields);
    });
}
