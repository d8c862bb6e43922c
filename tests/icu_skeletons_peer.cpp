// Reads number skeletons by ICU, for tests/icu_skeletons.py. Each line is a skeleton in UTF-8, and is answered by a line:
// `= CANONICAL`, or `! OFFSET` with the offset of the error in code units of UTF-16. A line `# LOCALE NUMBER SKELETON` is
// answered by the text of the number. With the word --version it prints the version of ICU.
#include "icu_peer_lines.hpp"
#include <sstream>
#include <string>
#include <unicode/numberformatter.h>
#include <unicode/unistr.h>

using namespace icu;
using namespace icu::number;

static std::string utf8_of(const UnicodeString &text) {
    std::string bytes;
    return text.toUTF8String(bytes);
}

static std::string answer_of(const std::string &line) {
    UErrorCode status = U_ZERO_ERROR;
    UParseError error{};
    auto formatter = NumberFormatter::forSkeleton(UnicodeString::fromUTF8(line), error, status);
    if (U_SUCCESS(status)) {
        UnicodeString canonical = formatter.toSkeleton(status);
        if (U_SUCCESS(status)) {
            return "= " + utf8_of(canonical);
        }
        return "? " + std::string(u_errorName(status));
    }
    return "! " + std::to_string(error.offset);
}

static std::string text_of(const std::string &line) {
    std::istringstream words(line);
    std::string mark, locale, number, skeleton;
    words >> mark >> locale >> number >> std::ws;
    std::getline(words, skeleton);
    UErrorCode status = U_ZERO_ERROR;
    UParseError error{};
    std::string text = utf8_of(NumberFormatter::forSkeleton(UnicodeString::fromUTF8(skeleton), error, status)
                                   .locale(Locale::forLanguageTag(locale, status))
                                   .formatDecimal(number, status)
                                   .toString(status));
    return U_SUCCESS(status) ? text : "? " + std::string(u_errorName(status));
}

int main(int count, char **words) {
    return answer_lines(count, words,
                        [](const std::string &line) { return line.compare(0, 2, "# ") == 0 ? text_of(line) : answer_of(line); });
}
