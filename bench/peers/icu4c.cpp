// ICU4C: NumberFormatter::formatDecimal in a locale, English without a word, every written fraction digit kept; with a
// second word amounts of this currency, rounded to its digits, half to even.
#include <cstdio>
#include <string>
#include <iostream>
#include <unicode/currunit.h>
#include <unicode/numberformatter.h>
#include <unicode/unistr.h>

using namespace icu;
using namespace icu::number;

// how many of a line's bytes stand behind its point, 31 at most
static size_t fraction_digits(const std::string &line) {
    size_t point = line.find('.');
    size_t digits = point == std::string::npos ? 0 : line.size() - point - 1;
    return digits < 32 ? digits : 31;
}

int main(int count, char **words) {
    std::ios::sync_with_stdio(false);
    UErrorCode status = U_ZERO_ERROR;
    Locale locale(count > 1 ? words[1] : "en");
    bool is_money = count > 2;
    LocalizedNumberFormatter formatters[32];
    for (int i = 0; i < 32; i++) {
        formatters[i] = NumberFormatter::withLocale(locale).precision(Precision::fixedFraction(i)).roundingMode(UNUM_ROUND_DOWN);
    }
    if (is_money) {
        CurrencyUnit unit(UnicodeString(words[2]).getTerminatedBuffer(), status);
        formatters[0] = NumberFormatter::withLocale(locale).unit(unit).roundingMode(UNUM_ROUND_HALFEVEN);
    }
    std::string line, out;
    while (std::getline(std::cin, line)) {
        std::string text;
        FormattedNumber number = formatters[is_money ? 0 : fraction_digits(line)].formatDecimal(line, status);
        number.toString(status).toUTF8String(text);
        if (U_FAILURE(status)) {
            return 1;
        }
        out += text;
        out += '\n';
        if (out.size() > 65536) {
            fwrite(out.data(), 1, out.size(), stdout);
            out.clear();
        }
    }
    fwrite(out.data(), 1, out.size(), stdout);
    return 0;
}
