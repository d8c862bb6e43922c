/* Formatters from C++, by the tables whose files are the two words. */
#include "talmuiga.hpp"

#include <atomic>
#include <fstream>
#include <iostream>
#include <sstream>
#include <thread>
#include <utility>
#include <vector>

static int failed;

static void judge(const char *what, bool right) {
    if (!right) {
        std::cerr << "cpp_kept: " << what << '\n';
        failed = 1;
    }
}

/* The status by which a call is refused, or 0. */
template <class Call> static std::uint32_t refusal(Call call) {
    try {
        call();
        return 0;
    } catch (const talmuiga::refused &error) {
        return error.status();
    }
}

/* The byte and the kind of the fault of a skeleton or of another text, and its words. */
template <class Refused = talmuiga::skeleton_refused, class Call> static std::string fault_of(Call call) {
    try {
        call();
        return "none";
    } catch (const Refused &error) {
        return std::to_string(error.byte()) + ' ' + std::to_string(error.kind()) + ' ' + error.what();
    }
}

/* A number's text with each part in brackets, behind its number. */
static std::string bracketed(const talmuiga::marked_text &marked) {
    std::ostringstream out;
    out << marked.text;
    for (const talmuiga_span &part : marked.parts)
        out << ' ' << part.part << '[' << marked.text.substr(part.start, part.end - part.start) << ']';
    return out.str();
}

/* Why a message isn't written: the name of an argument, and the status in words. */
template <class Call> static std::string argument_of(Call call) {
    try {
        call();
        return "none";
    } catch (const talmuiga::argument_refused &error) {
        return error.name() + ": " + error.what();
    }
}

/* Messages, by texts of ICU 72 and of the program locnum. */
static void as_messages(const std::string &tables) {
    using talmuiga::decimal;
    using talmuiga::message;
    using talmuiga::message_refused;
    const message files("{n, plural, =0{no files} one{# file} other{# files}}"),
        places("{n, selectordinal, one{#st} two{#nd} few{#rd} other{#th}}"),
        forms("{n, number, ::.00} ({n, number, ::compact-short}), {n}, {who}, {n, number, ::.00}"),
        whose("{who, select, female{her} other{their}}");
    judge("a message", files({{"n", 0}}) == "no files" && files({{"n", 1}}) == "1 file" && files({{"n", 1234567}}) == "1,234,567 files");
    judge("numbers of each kind", files({{"n", 1.5}}) == "1.5 files" && files({{"n", "1"}}) == "1 file" &&
                                      files({{"n", decimal{"-1"}}}) == "-1 file" && files({{"n", 2.0L}}) == "2 files" &&
                                      files({{"n", -1}}) == "-1 file" && files({{"n", true}}) == "1 file");
    judge("ordinals", places({{"n", 22}}) == "22nd" && places({{"n", 112u}}) == "112th");
    judge("places with a form", forms({{"n", 1234567}, {"who", "Ana"}}) == "1,234,567.00 (1.2M), 1,234,567, Ana, 1,234,567.00");
    judge("values in a vector",
          forms(std::vector<talmuiga::value>{{"who", std::string("Ben")}, {"n", 1}, {"n", 2}}) == "1.00 (1), 1, Ben, 1.00");
    judge("a choice by a text", whose({{"who", "female"}}) == "her" && whose({{"who", std::string_view("x")}}) == "their");
    judge("texts and numbers in a place", message("{n}")({{"n", "1000"}}) == "1000" && message("{n}")({{"n", 1000}}) == "1,000");
    judge("a long message", message(std::string(3000, 'a'))({}) == std::string(3000, 'a'));
    message german(tables, "de", "{n, plural, one{# Datei} other{# Dateien}} {n, number, ::currency/EUR}");
    const message moved(std::move(german));
    judge("by tables, and moved", moved({{"n", 1234.5}}) == "1.234,5 Dateien 1.234,50\u00a0€");
    judge("a text in a locale without numbers", message(tables, "xx", "{who}")({{"who", "Ana"}}) == "Ana");
    judge("a number there", argument_of([&] { message(tables, "xx", "{who}")({{"who", 1}}); }) == "who: no data");
    judge("a fault", fault_of<message_refused>([] { message("{n, plural, one{x}}"); }) == "18 15 no `other`");
    judge("a fault by tables", fault_of<message_refused>([&] { message(tables, "de", "{n}}"); }) == "3 4 the brace closes nothing");
    judge("a fault of a skeleton", fault_of<message_refused>([] { message("{n, number, ::scientific}"); }) == "14 10 left out");
    judge("not UTF-8", fault_of<message_refused>([] { message("a\xff"); }) == "1 1 not UTF-8");
    judge("refused", refusal([&] { message(tables, "e_n", "x"); }) == TALMUIGA_WORDS_REFUSED &&
                         refusal([&] { message("{", "en", "x"); }) == TALMUIGA_TABLES_REFUSED &&
                         refusal([&] { message(tables, "de", "{n, selectordinal, other{#}}"); }) == TALMUIGA_NO_DATA &&
                         refusal([&] { message(tables, "de", "{n, number, ::currency/CHF}"); }) == TALMUIGA_NO_DATA);
    judge("missing", argument_of([&] { forms({{"n", 1}}); }) == "who: an argument is missing");
    judge("no number", argument_of([&] { files({{"n", "x"}}); }) == "n: not a decimal");
    judge("not a text", argument_of([&] { whose({{"who", 1}}); }) == "who: an argument isn't a text");
    judge("not UTF-8 in a value", argument_of([&] { whose({{"who", "\xff"}}); }) == "who: not UTF-8");
    judge("NaN", argument_of([&] { files({{"n", 0.0 / 0.0}}); }) == "n: not a decimal");
    judge("a value that no name asks for", whose({{"who", "x"}, {"m", 1}}) == "their");
    std::vector<std::thread> threads;
    std::atomic<int> right{0};
    for (int i = 0; i < 4; i++) {
        threads.emplace_back([&] {
            for (int n = 2; n < 500; n++) right += files({{"n", n}}) == std::to_string(n) + " files";
        });
    }
    for (std::thread &thread : threads) thread.join();
    judge("four threads", right == 4 * 498);
}

/* Ranges by skeletons. */
static void as_ranges(const std::string &tables) {
    using talmuiga::skeleton;
    using talmuiga::with_ranges;
    const std::string german = tables.substr(0, tables.rfind('}')) +
                               ",\"ranges\":[{\"locale\":\"de\",\"pattern\":\"{0}–{1}\"},{\"locale\":\"fr\",\"pattern\":\"{0}–{1}\"}],"
                               "\"plural_ranges\":[{\"locale\":\"fr\",\"ranges\":[[\"one\",\"one\",\"one\"]]}]}";
    talmuiga::formatter prices(german, "de", skeleton{"currency/EUR"}, with_ranges);
    const talmuiga::formatter plain(skeleton{""}, with_ranges), short_ones(skeleton{"K"}, with_ranges), without(skeleton{""});
    judge("a range", plain.range("3", "5") == "3–5" && plain.range("-3", "5") == "-3 – 5");
    judge("a range of prices", prices.range("3", "5") == "3,00–5,00\u00a0€" && prices("3") == "3,00\u00a0€");
    talmuiga::formatter named(german, "fr", skeleton{"currency/EUR unit-width-full-name"}, with_ranges);
    judge("a range with a name", named.range("0", "1") == "0,00–1,00 euro" && named.range("0", "2") == "0,00–2,00 euros");
    judge("a range of compact numbers", short_ones.range("900", "2000") == "900 – 2K");
    judge("a range of equal texts", plain.range("3", "3.0") == "~3");
    const std::string many(3000, '9'), few(1500, '9');
    judge("a long range", plain.range(few, many) == plain(few) + "–" + plain(many));
    const auto written = [&](const char *start, const char *end) { return [&plain, start, end] { plain.range(start, end); }; };
    judge("a descending range", refusal(written("5", "3")) == TALMUIGA_DESCENDING);
    judge("a start that is no decimal", refusal(written("x", "y")) == TALMUIGA_NOT_DECIMAL);
    judge("an end that is no decimal", refusal(written("3", "y")) == TALMUIGA_END_NOT_DECIMAL);
    judge("a formatter without ranges", refusal([&] { without.range("3", "5"); }) == TALMUIGA_NO_PATTERN);
    judge("tables without ranges", refusal([&] { talmuiga::formatter(tables, "de", skeleton{"K"}, with_ranges); }) == TALMUIGA_NO_PATTERN);
    judge("a fault for ranges", fault_of([&] { talmuiga::formatter(german, "de", skeleton{"% %"}, with_ranges); }) == "2 4 set twice: unit");
    judge("a fault in English for ranges", fault_of([] { talmuiga::formatter(skeleton{"foo"}, with_ranges); }) == "0 2 unknown stem");
}

/* Numbers, money and percents by skeletons. */
static void by_skeletons(const std::string &tables) {
    using talmuiga::skeleton;
    talmuiga::formatter prices(tables, "de", skeleton{"currency/EUR"});
    talmuiga::formatter millions{tables, "de", skeleton{"K currency/EUR"}};
    judge("a price", prices("1234567.5") == "1.234.567,50\u00a0€");
    judge("millions", millions("1234567.5") == "1,2\u00a0Mio.\u00a0€");
    judge("parts of a price", bracketed(prices.parts("-3.5")) == "-3,50\u00a0€ 1[-] 3[3] 6[,] 4[50] 7[€]");
    judge("lines of prices", prices.lines("1\nx\n") == "1,00\u00a0€\nerror: not a decimal\n");
    judge("a share", talmuiga::formatter(tables, "de", skeleton{"%x100 .0"})("0.12345") == "12,3\u00a0%");
    const auto opened = [&](std::string_view text) { return [&tables, text] { talmuiga::formatter(tables, "de", skeleton{text}); }; };
    judge("a fault", fault_of(opened("percent foo")) == "8 2 unknown stem");
    judge("a NUL", fault_of(opened(std::string_view("% \0", 3))) == "2 2 unknown stem");
    judge("what is left out", fault_of(opened("scientific")) == "0 3 left out: scientific");
    judge("its status", refusal(opened("scientific")) == TALMUIGA_SKELETON_REFUSED);
    judge("groups of three", talmuiga::formatter(tables, "de", skeleton{"group-thousands"})("1234567") == "1.234.567");
    judge("a currency that the tables lack", refusal(opened("currency/USD")) == TALMUIGA_NO_DATA);
    judge("canonical", talmuiga::canonical({"%x100 .00"}) == "percent .00 scale/100");
    const std::string long_name = "unit/" + std::string(3000, 'a');
    judge("canonical and long", talmuiga::canonical({long_name}) == long_name);
    judge("not canonical", fault_of([] { talmuiga::canonical({"currency/EURO"}); }) == "9 9 unknown option");
}

/* Texts of numbers that are read back. */
static void as_read(const std::string &tables) {
    using talmuiga::formatter;
    using talmuiga::skeleton;
    const formatter english, german(tables, "de"), bengali(tables, "bn"), rounded(skeleton{".00"});
    judge("a text that is read", english.read("-1,234.50") == "-1234.50" && english.read("1234567") == "1234567");
    judge("in German", german.read("1.234,5") == "1234.5");
    judge("in Bengali", bengali.read("১২,৩৪,৫৬৭.৮৯") == "1234567.89");
    judge("a rounded number", rounded.read(rounded("2.345")) == "2.34");
    const std::string many(3000, '9');
    judge("a long text", german.read(german(many)) == many);
    const auto not_read = [](const formatter &by, std::string_view text) {
        try {
            return by.read(text);
        } catch (const talmuiga::not_read &error) {
            return std::to_string(error.byte()) + ' ' + error.what();
        }
    };
    judge("a text that isn't read", not_read(english, "12,34") == "2 not a number's text");
    judge("the empty text", not_read(english, "") == "0 not a number's text");
    judge("its status", refusal([&] { english.read("x"); }) == TALMUIGA_NOT_READ);
    judge("prices aren't read", refusal([] { formatter(skeleton{"currency/USD"}).read("$5.00"); }) == TALMUIGA_NO_READING);
}

/* English by skeletons, without tables. */
static void in_english() {
    using talmuiga::formatter;
    using talmuiga::skeleton;
    judge("dollars", formatter(skeleton{"currency/USD"})("-1234.5") == "-$1,234.50");
    judge("compact pounds", formatter(skeleton{"K currency/GBP"})("1234567") == "£1.2M");
    judge("percents", formatter(skeleton{"%x100 .0"})("0.12345") == "12.3%");
    judge("a number", formatter(skeleton{""})("1234.5") == "1,234.5");
    judge("Swiss francs", refusal([] { formatter(skeleton{"currency/CHF"}); }) == TALMUIGA_NO_DATA);
    judge("a fault in English", fault_of([] { formatter(skeleton{"percent foo"}); }) == "8 2 unknown stem");
}

/* What tables hold. */
static void by_names(std::string_view tables) {
    using talmuiga::listed;
    using talmuiga::names_in;
    using names = std::vector<std::string>;
    judge("locales", names_in(tables, listed::locales) == names{"en", "de", "fr", "ja", "bn", "ar-EG"});
    judge("currencies", names_in(tables, listed::currencies) == names{"EUR"});
    judge("no units", names_in(tables, listed::units).empty());
    judge("more names than have room at first", names_in(R"({"units":[{"unit":")" + std::string(5000, 'a') + R"("}]})", listed::units) ==
                                                    names{std::string(5000, 'a')});
    judge("names in no tables", refusal([] { names_in("{", listed::units); }) == TALMUIGA_TABLES_REFUSED);
    judge("names of another kind", refusal([&] { names_in(tables, static_cast<listed>(9)); }) == TALMUIGA_WORDS_REFUSED);
}

/* Bad input: numbers that are none, skeletons of a megabyte, bytes that are no text, threads that open and close. */
static void on_bad_input(std::string_view tables) {
    using talmuiga::formatter;
    using talmuiga::skeleton;
    const formatter prices(tables, "de", skeleton{"currency/EUR"});
    for (std::string_view none : {std::string_view("NaN"), std::string_view("inf"), std::string_view("-Infinity"), std::string_view("5\0", 2),
                                  std::string_view("\xff"), std::string_view("5\xe2\x82"), std::string_view()}) {
        judge("no decimal by a skeleton", refusal([&] { prices(none); }) == TALMUIGA_NOT_DECIMAL);
        judge("no decimal by a skeleton, with parts", refusal([&] { prices.parts(none); }) == TALMUIGA_NOT_DECIMAL);
    }
    judge("lines by a skeleton", prices.lines("1\nNaN\n-inf\n2\n") ==
                                     "1,00\u00a0€\nerror: not a decimal\nerror: not a decimal\n2,00\u00a0€\n");
    const auto opened = [&](const std::string &text) { return [&tables, text] { formatter(tables, "de", skeleton{text}); }; };
    judge("a megabyte of digits", fault_of(opened(std::string(1 << 20, '0'))) == "0 5 more than 999 digits");
    judge("a megabyte of blanks", refusal(opened(std::string(1 << 20, ' '))) == TALMUIGA_DONE);
    judge("a unit of a megabyte", refusal(opened("unit/" + std::string(1 << 20, 'a'))) == TALMUIGA_NO_DATA);
    judge("half a character", fault_of(opened("% \xe2\x82")) == "2 1 not UTF-8");
    judge("tables cut short", refusal([&] { formatter(tables.substr(0, tables.size() / 2), "de"); }) == TALMUIGA_TABLES_REFUSED);
    judge("tables of another version", refusal([] { formatter(R"({"version": 2})", "de"); }) == TALMUIGA_TABLES_REFUSED);
    std::atomic<int> wrong{0};
    std::vector<std::thread> threads;
    for (int number = 0; number < 8; number++) {
        threads.emplace_back([&] {
            for (int time = 0; time < 100; time++) {
                const formatter own(tables, "de", skeleton{time % 2 ? "currency/EUR" : "K currency/EUR"});
                wrong += prices("1234567.5") != "1.234.567,50\u00a0€";
                wrong += own("1234567.5") != (time % 2 ? "1.234.567,50\u00a0€" : "1,2\u00a0Mio.\u00a0€");
            }
        });
    }
    for (std::thread &thread : threads) thread.join();
    judge("eight threads", wrong == 0);
}

/* The whole file of a name. */
static std::string whole(const char *name) {
    std::stringstream file;
    file << std::ifstream(name).rdbuf();
    return file.str();
}

int main(int, char **words) {
    const std::string tables = whole(words[1]);
    by_skeletons(whole(words[2]));
    in_english();
    as_read(whole(words[2]));
    as_messages(whole(words[2]));
    as_ranges(whole(words[2]));
    by_names(whole(words[2]));
    on_bad_input(whole(words[2]));
    talmuiga::formatter english, moved;
    judge("English", english.one("1000007") == "1,000,007");
    judge("a long number", english.one(std::string(3000, '9')).size() == 3999);
    judge("lines", english.lines("1000\nx\n-5") == "1,000\nerror: not a decimal\n-5\n");
    judge("no line", english.lines("").empty());
    talmuiga::formatter compact(tables, "en", "short");
    judge("short", compact.one("1650") == "1.6K");
    judge("parts", bracketed(english.parts("-1234.5")) == "-1,234.5 1[-] 3[1,234] 5[,] 6[.] 4[5]");
    talmuiga::formatter bengali(tables, "bn");
    judge("parts of Bengali", bracketed(bengali.parts("+1234.5")) == "+১,২৩৪.৫ 2[+] 3[১,২৩৪] 5[,] 6[.] 4[৫]");
    judge("parts of a compact number", bracketed(compact.parts("-1650")) == "-1.6K 1[-]");
    judge("many parts", english.parts(std::string(3000, '9')).parts.size() == 1000);
    judge("no decimal in parts", refusal([&] { english.parts("1e3"); }) == TALMUIGA_NOT_DECIMAL);
    moved = std::move(compact);
    judge("moved", moved.one("1650") == "1.6K");
    judge("a long line", english.lines("1\n" + std::string(30000, '9') + "\n2\n").size() == 2 + 40000 + 2);
    judge("no decimal", refusal([&] { english.one("1e3"); }) == TALMUIGA_NOT_DECIMAL);
    judge("a line feed", refusal([&] { english.one("5\n"); }) == TALMUIGA_NOT_DECIMAL);
    judge("another style", refusal([&] { talmuiga::formatter(tables, "en", "tall"); }) == TALMUIGA_WORDS_REFUSED);
    judge("another locale", refusal([&] { talmuiga::formatter(tables, "xx"); }) == TALMUIGA_NO_DATA);
    judge("no tables", refusal([&] { talmuiga::formatter("{", "en"); }) == TALMUIGA_TABLES_REFUSED);
    judge("the sample is no fault", talmuiga::tables_fault(tables).empty());
    judge("tables that are no JSON", talmuiga::tables_fault("{") == "not JSON");
    const char *entry = R"({"symbols":[],"digits":[],"rules":[{"locale":"_","rules":[]}]})";
    judge("an entry that is refused", talmuiga::tables_fault(entry) == "entry 0 of `rules`: bad locale");
    return failed;
}
