// Formats decimals by ICU, for tests/icu_compare.py, tests/icu_names.py, tests/icu_money.py and tests/icu_ranges.py. A line `=
// LOCALE SYSTEM KIND` chooses the formatter, `-` the locale's own system; each other line is a decimal or a range `START..END`,
// and is answered by a line. Where both ends of a range are equal for ICU, one is written with the approximately sign. What ICU has
// no data for is root's. The kinds:
//   plain [PLACES]                               every written fraction digit, or so many
//   short, long [PLACES]                         ICU's own rounding, or so many fraction digits
//   percent [PLACES]                             a hundred times the decimal, every written digit of it, or so many places
//   money CODE short|narrow|name [accounting]    the fraction digits of the currency
//   money CODE compact                           ICU's own rounding, by the short patterns of money
//   unit NAME long|short|narrow [PLACES]         every written fraction digit, or so many
//   category PLACES                              the plural category of the decimal with so many places, or of the range
// With `sign=WORD` behind the kind signs are shown always, never, except-zero or negative; else as usual, and always of
// decimals with an explicit plus.
// With the word --version it prints the versions of ICU and of its CLDR data, with --available the locales that it has;
// with --likely each line is a name, and is answered by the canonical one with likely subtags.
#include <algorithm>
#include <cstdio>
#include <iostream>
#include <map>
#include <memory>
#include <sstream>
#include <string>
#include <vector>
#include <unicode/currunit.h>
#include <unicode/measunit.h>
#include <unicode/numberformatter.h>
#include <unicode/numberrangeformatter.h>
#include <unicode/plurrule.h>
#include <unicode/ulocdata.h>
#include <unicode/unistr.h>
#include <unicode/uversion.h>

using namespace icu;
using namespace icu::number;

// what of a decimal its formatter depends on: the fraction digits to be shown, and whether it has an explicit plus
using Spelling = std::pair<int, bool>;

// what one line `=` chooses, the rules of its categories if it asks for these, and the formatters that its decimals and ranges have
// asked for so far
struct Choice {
    Locale locale;
    std::vector<std::string> kind;
    std::string signs;
    std::unique_ptr<PluralRules> rules;
    std::map<Spelling, LocalizedNumberFormatter> formatters;
    std::map<std::pair<Spelling, Spelling>, LocalizedNumberRangeFormatter> range_formatters;
};

static int print_versions() {
    UVersionInfo icu, cldr;
    char icu_text[U_MAX_VERSION_STRING_LENGTH], cldr_text[U_MAX_VERSION_STRING_LENGTH];
    UErrorCode status = U_ZERO_ERROR;
    u_getVersion(icu);
    ulocdata_getCLDRVersion(cldr, &status);
    u_versionToString(icu, icu_text);
    u_versionToString(cldr, cldr_text);
    printf("%s %s\n", icu_text, cldr_text);
    return U_FAILURE(status);
}

static Choice choice_of(const std::string &line, UErrorCode &status) {
    std::istringstream words(line.substr(2));
    std::string tag, system, word;
    words >> tag >> system;
    Choice choice{Locale::forLanguageTag(tag, status), {}, {}, {}, {}, {}};
    while (words >> word) {
        if (word.compare(0, 5, "sign=") == 0) {
            choice.signs = word.substr(5);
        } else {
            choice.kind.push_back(word);
        }
    }
    if (system != "-") {
        choice.locale.setUnicodeKeywordValue("nu", system, status);
    }
    if (choice.kind[0] == "category") {
        choice.rules.reset(PluralRules::forLocale(choice.locale, status));
    }
    return choice;
}

static UNumberUnitWidth width_of(const std::string &word) {
    return word == "narrow"  ? UNUM_UNIT_WIDTH_NARROW
           : word == "short" ? UNUM_UNIT_WIDTH_SHORT
                             : UNUM_UNIT_WIDTH_FULL_NAME;
}

static UNumberSignDisplay signs_of(const std::string &word, bool accounting) {
    return word == "always"        ? (accounting ? UNUM_SIGN_ACCOUNTING_ALWAYS : UNUM_SIGN_ALWAYS)
           : word == "never"       ? UNUM_SIGN_NEVER
           : word == "except-zero" ? (accounting ? UNUM_SIGN_ACCOUNTING_EXCEPT_ZERO : UNUM_SIGN_EXCEPT_ZERO)
           : word == "negative"    ? (accounting ? UNUM_SIGN_ACCOUNTING_NEGATIVE : UNUM_SIGN_NEGATIVE)
                                   : (accounting ? UNUM_SIGN_ACCOUNTING : UNUM_SIGN_AUTO);
}

static bool has_accounts(const std::vector<std::string> &kind) {
    return kind[0] == "money" && kind.size() > 3;
}

static UnlocalizedNumberFormatter formatter_of(const Choice &choice, const Spelling &spelling, UErrorCode &status) {
    const std::vector<std::string> &kind = choice.kind;
    const auto [places, has_plus] = spelling;
    auto formatter = NumberFormatter::with().sign(signs_of(has_plus ? "always" : choice.signs, has_accounts(kind)));
    if (kind[0] == "plain" || kind[0] == "category") {
        return formatter.precision(Precision::fixedFraction(places));
    }
    if (kind[0] == "percent") {
        return formatter.unit(NoUnit::percent()).precision(Precision::fixedFraction(places));
    }
    if (kind[0] == "money") {
        CurrencyUnit unit(UnicodeString::fromUTF8(kind[1]).getTerminatedBuffer(), status);
        if (kind[2] == "compact") {
            return formatter.unit(unit).unitWidth(UNUM_UNIT_WIDTH_SHORT).notation(Notation::compactShort());
        }
        return formatter.unit(unit).unitWidth(width_of(kind[2]));
    }
    if (kind[0] == "unit") {
        return formatter.unit(MeasureUnit::forIdentifier(kind[1], status)).unitWidth(width_of(kind[2])).precision(
            Precision::fixedFraction(places));
    }
    auto compact = formatter.notation(kind[0] == "short" ? Notation::compactShort() : Notation::compactLong());
    return kind.size() > 1 ? compact.precision(Precision::fixedFraction(places)) : compact;
}

// The fraction digits that the kind asks for: so many, those that are written, or its own for each decimal.
static int places_of(const std::vector<std::string> &kind, const std::string &decimal) {
    size_t point = decimal.find('.');
    int written = point == std::string::npos ? 0 : static_cast<int>(decimal.size() - point - 1);
    if (kind[0] == "unit") {
        return kind.size() > 3 ? std::stoi(kind[3]) : written;
    }
    if (kind.size() > 1 && kind[0] != "money") {
        return std::stoi(kind[1]);
    }
    return kind[0] == "plain" ? written : kind[0] == "percent" ? std::max(written - 2, 0) : 0;
}

// The number that is formatted. That of percents has a hundred times the size here already: by a scale ICU 72 multiplies twice where
// it writes the approximately sign.
static std::string number_of(const Choice &choice, const std::string &decimal) {
    return choice.kind[0] == "percent" ? decimal + "E2" : decimal;
}

static Spelling spelling_of(const Choice &choice, const std::string &decimal) {
    return {places_of(choice.kind, decimal), decimal[0] == '+'};
}

static LocalizedNumberRangeFormatter range_formatter_of(const Choice &choice, const Spelling &first, const Spelling &second,
                                                        UErrorCode &status) {
    auto formatter = NumberRangeFormatter::withLocale(choice.locale).identityFallback(UNUM_IDENTITY_FALLBACK_APPROXIMATELY);
    if (first == second) {
        return formatter.numberFormatterBoth(formatter_of(choice, first, status));
    }
    return formatter.numberFormatterFirst(formatter_of(choice, first, status))
        .numberFormatterSecond(formatter_of(choice, second, status));
}

// The text of a number or of a range, or its category.
template <typename Formatted> static std::string answered(const Choice &choice, const Formatted &number, UErrorCode &status) {
    std::string text;
    UnicodeString answer = choice.rules ? choice.rules->select(number, status) : number.toString(status);
    return answer.toUTF8String(text);
}

static std::string formatted_range(Choice &choice, const std::string &start, const std::string &end, UErrorCode &status) {
    auto spellings = std::make_pair(spelling_of(choice, start), spelling_of(choice, end));
    auto found = choice.range_formatters.find(spellings);
    if (found == choice.range_formatters.end()) {
        auto made = range_formatter_of(choice, spellings.first, spellings.second, status);
        found = choice.range_formatters.emplace(spellings, std::move(made)).first;
    }
    const std::string one = number_of(choice, start), other = number_of(choice, end);
    Formattable first(StringPiece(one), status), second(StringPiece(other), status);
    return answered(choice, found->second.formatFormattableRange(first, second, status), status);
}

static std::string formatted(Choice &choice, const std::string &decimal, UErrorCode &status) {
    Spelling spelling = spelling_of(choice, decimal);
    auto found = choice.formatters.find(spelling);
    if (found == choice.formatters.end()) {
        auto made = formatter_of(choice, spelling, status).locale(choice.locale);
        found = choice.formatters.emplace(spelling, std::move(made)).first;
    }
    return answered(choice, found->second.formatDecimal(number_of(choice, decimal), status), status);
}

static std::string answer_of(Choice &choice, const std::string &line, UErrorCode &status) {
    size_t between = line.find("..");
    return between == std::string::npos ? formatted(choice, line, status)
                                        : formatted_range(choice, line.substr(0, between), line.substr(between + 2), status);
}

static int print_available() {
    for (int index = 0; index < uloc_countAvailable(); index++) {
        puts(uloc_getAvailable(index));
    }
    return 0;
}

static int print_likely() {
    UErrorCode status = U_ZERO_ERROR;
    std::string line;
    while (std::getline(std::cin, line)) {
        Locale locale = Locale::forLanguageTag(line, status);
        locale.canonicalize(status);
        locale.addLikelySubtags(status);
        std::cout << locale.getBaseName() << '\n';
    }
    return U_FAILURE(status);
}

int main(int count, char **words) {
    std::string word = count > 1 ? words[1] : "";
    if (word != "") {
        return word == "--version" ? print_versions() : word == "--available" ? print_available() : print_likely();
    }
    std::ios::sync_with_stdio(false);
    UErrorCode status = U_ZERO_ERROR;
    Locale::setDefault(Locale::getRoot(), status);
    Choice choice;
    std::string line;
    while (std::getline(std::cin, line)) {
        if (line.compare(0, 2, "= ") == 0) {
            choice = choice_of(line, status);
        } else {
            std::cout << answer_of(choice, line, status) << '\n';
        }
        if (U_FAILURE(status)) {
            std::cerr << u_errorName(status) << ": " << line << '\n';
            return 1;
        }
    }
    return 0;
}
