/* include/talmuiga_format.hpp: numbers in streams, the parts of a text one by one, and std::format where it is there. The word is the
 * file of tables of six locales. The last line says whether std::format was tried. */
#include "talmuiga_format.hpp"

#include <algorithm>
#include <fstream>
#include <iomanip>
#include <iostream>
#include <sstream>

static int failed;

static void judge(const char *what, bool holds) {
    if (!holds) {
        std::cerr << "cpp_format: " << what << '\n';
        failed = 1;
    }
}

/* The status that a call's exception has; 0 without one. */
template <class Call>
static std::uint32_t refusal(Call call) {
    try {
        call();
    } catch (const talmuiga::refused &refused) {
        return refused.status();
    }
    return TALMUIGA_DONE;
}

static void in_streams(const talmuiga::formatter &prices, const talmuiga::formatter &english) {
    std::ostringstream out;
    out << talmuiga::number(prices, "1234.5") << '|' << std::setw(8) << std::setfill('*') << talmuiga::number(english, 1234);
    judge("a stream", out.str() == "1.234,50\u00a0€|***1,234");
    judge("whole numbers", talmuiga::number(english, -1234567LL).text() == "-1,234,567");
    judge("a whole number without a sign", talmuiga::number(english, 18446744073709551615ULL).text() == "18,446,744,073,709,551,615");
    judge("as it was given", talmuiga::number(english, "007").decimal() == "007");
    judge("no decimal", refusal([&] { talmuiga::number(english, "1e3").text(); }) == TALMUIGA_NOT_DECIMAL);
}

static void in_parts(const talmuiga::formatter &prices) {
    const talmuiga::parts_of parts(prices.parts("-1234.5"));
    std::ostringstream out;
    for (const talmuiga::part &part : parts) out << part.kind << '[' << part.text << "]@" << part.start << ' ';
    judge("parts", out.str() == "1[-]@0 3[1.234]@1 5[.]@2 6[,]@6 4[50]@7 7[€]@11 ");
    judge("their text", parts.text() == "-1.234,50\u00a0€" && parts.size() == 6);
    judge("a part that is looked for", std::find_if(parts.begin(), parts.end(), [](const talmuiga::part &part) {
                                           return part.kind == TALMUIGA_PART_CURRENCY;
                                       }) != parts.end());
    judge("no such part", std::none_of(parts.begin(), parts.end(), [](const talmuiga::part &part) {
              return part.kind == TALMUIGA_PART_UNIT;
          }));
    talmuiga::parts_of::iterator at = parts.begin();
    judge("a step", (*at++).kind == TALMUIGA_PART_MINUS_SIGN && (*at).kind == TALMUIGA_PART_INTEGER);
}

static void by_std_format(const talmuiga::formatter &prices, const talmuiga::formatter &english) {
#if TALMUIGA_HAS_FORMAT
    const talmuiga::number price(prices, "1234.5"), million(english, 1000000);
    judge("std::format", std::format("{} and {}", price, million) == "1.234,50\u00a0€ and 1,000,000");
    judge("a width", std::format("{:>12}|{:*<10}|{:^11}", million, million, million) == "   1,000,000|1,000,000*| 1,000,000 ");
    judge("a width as an argument", std::format("{:>{}}", million, 10) == " 1,000,000");
    judge("columns, not bytes", std::format("{:>12}|", price) == "  1.234,50\u00a0€|");
    judge("no decimal by std::format", refusal([&] { (void)std::format("{}", talmuiga::number(english, "x")); }) == TALMUIGA_NOT_DECIMAL);
    std::string out;
    std::format_to(std::back_inserter(out), "{}", million);
    judge("std::format_to", out == "1,000,000");
    std::cout << "with std::format\n";
#else
    (void)prices, (void)english;
    std::cout << "without std::format\n";
#endif
}

int main(int, char **words) {
    std::stringstream file;
    file << std::ifstream(words[1]).rdbuf();
    const talmuiga::formatter prices(file.str(), "de", talmuiga::skeleton{"currency/EUR"}), english;
    in_streams(prices, english);
    in_parts(prices);
    by_std_format(prices, english);
    return failed;
}
