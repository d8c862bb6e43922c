/* Formatters and messages of talmuiga.h for C++17: closed by their destructor, texts by std::string_view, refusals as exceptions.
 *
 *     talmuiga::formatter prices(tables, "de", talmuiga::skeleton{"currency/EUR"});
 *     prices("1234567.5");  // 1.234.567,50 €
 *     talmuiga::message files(tables, "de", "{n, plural, one{# Datei} other{# Dateien}}");
 *     files({{"n", 1234}});  // 1.234 Dateien */
#ifndef TALMUIGA_HPP
#define TALMUIGA_HPP

#include "talmuiga.h"

#include <charconv>
#include <initializer_list>
#include <memory>
#include <new>
#include <optional>
#include <stdexcept>
#include <string>
#include <string_view>
#include <type_traits>
#include <utility>
#include <vector>

namespace talmuiga {

/* What a call refuses; want of memory is std::bad_alloc. */
class refused : public std::runtime_error {
public:
    explicit refused(std::uint32_t status) : refused(status, talmuiga_status_text(status)) {}
    std::uint32_t status() const noexcept { return status_; }

protected:
    refused(std::uint32_t status, const char *words) : std::runtime_error(words), status_(status) {}

private:
    std::uint32_t status_;
};

/* A text with a fault: what() has the fault in words, kind() is its number, and byte() is where it stands. */
class text_refused : public refused {
public:
    std::uint32_t kind() const noexcept { return fault_.kind; }
    std::size_t byte() const noexcept { return fault_.byte; }

protected:
    text_refused(std::uint32_t status, const char *words, const talmuiga_fault &fault) : refused(status, words), fault_(fault) {}

private:
    talmuiga_fault fault_;
};

/* A number skeleton with a fault: kind() is one of TALMUIGA_FAULT_NOT_UTF8 and so on. */
class skeleton_refused : public text_refused {
public:
    explicit skeleton_refused(const talmuiga_fault &fault)
        : text_refused(TALMUIGA_SKELETON_REFUSED, talmuiga_fault_text(&fault), fault) {}
};

/* A text that isn't a number's: byte() is the first at which it differs from the texts of numbers. */
class not_read : public refused {
public:
    explicit not_read(std::size_t byte) : refused(TALMUIGA_NOT_READ), byte_(byte) {}
    std::size_t byte() const noexcept { return byte_; }

private:
    std::size_t byte_;
};

/* The text of a number skeleton, as "currency/EUR" or "compact-short". */
struct skeleton {
    std::string_view text;
};

/* Asks for a formatter that writes ranges too. */
struct with_ranges_t {};
inline constexpr with_ranges_t with_ranges{};

/* The canonical text of a skeleton. */
inline std::string canonical(skeleton asked) {
    std::string text(asked.text.size() * 2 + 64, '\0');
    for (;;) {
        const std::size_t room = text.size();
        std::size_t length;
        talmuiga_fault fault;
        std::uint32_t status =
            talmuiga_skeleton_canonical(asked.text.data(), asked.text.size(), text.data(), room, &length, &fault);
        if (status == TALMUIGA_OUT_OF_MEMORY) throw std::bad_alloc();
        if (status == TALMUIGA_SKELETON_REFUSED) throw skeleton_refused(fault);
        text.resize(length);
        if (length <= room) return text;
    }
}

/* Why tables are refused, in words for people; nothing where they are accepted. */
inline std::string tables_fault(std::string_view tables) {
    std::string fault(128, '\0');
    for (;;) {
        const std::size_t room = fault.size();
        std::size_t length;
        std::uint32_t status = talmuiga_tables_fault(tables.data(), tables.size(), fault.data(), room, &length);
        fault.resize(length);
        if (status == TALMUIGA_OUT_OF_MEMORY) throw std::bad_alloc();
        if (length <= room) return fault;
    }
}

/* What tables can be asked for. */
enum class listed : std::uint32_t {
    locales = TALMUIGA_LIST_LOCALES,
    systems = TALMUIGA_LIST_SYSTEMS,
    currencies = TALMUIGA_LIST_CURRENCIES,
    units = TALMUIGA_LIST_UNITS
};

/* The names of a kind that tables have, each once. */
inline std::vector<std::string> names_in(std::string_view tables, listed kind) {
    std::string lines(1024, '\0');
    for (;;) {
        const std::size_t room = lines.size();
        std::size_t length;
        std::uint32_t status =
            talmuiga_tables_list(tables.data(), tables.size(), static_cast<std::uint32_t>(kind), lines.data(), room, &length);
        lines.resize(length);
        if (status == TALMUIGA_OUT_OF_MEMORY) throw std::bad_alloc();
        if (status != TALMUIGA_DONE && status != TALMUIGA_OUTPUT_TOO_SMALL) throw refused(status);
        if (length <= room) break;
    }
    std::vector<std::string> names;
    for (std::size_t begin = 0, end; (end = lines.find('\n', begin)) != std::string::npos; begin = end + 1) {
        names.push_back(lines.substr(begin, end - begin));
    }
    return names;
}

/* The text of a number, and where its parts stand in it, as talmuiga_formatter_parts tells them. */
struct marked_text {
    std::string text;
    std::vector<talmuiga_span> parts;
};

/* A formatter. Any number of threads may format with one at once. */
class formatter {
public:
    /* Plain English. */
    formatter() {
        talmuiga_formatter *made;
        judge(talmuiga_formatter_open_english(&made));
        held_.reset(made);
    }

    /* In English by a number skeleton, without tables. */
    explicit formatter(skeleton asked) {
        talmuiga_formatter *made;
        talmuiga_fault fault;
        std::uint32_t status =
            talmuiga_formatter_open_english_skeleton(asked.text.data(), asked.text.size(), &fault, &made);
        hold(status, fault, made);
    }

    /* By tables; the words are as of talmuiga_formatter_open. */
    formatter(std::string_view tables, const std::string &locale, const std::string &style = "plain",
              const std::string &system = "-", const std::string &grouping = "") {
        talmuiga_formatter *made;
        judge(talmuiga_formatter_open(tables.data(), tables.size(), locale.c_str(), system.c_str(), style.c_str(),
                                      grouping.c_str(), &made));
        held_.reset(made);
    }

    /* By tables, a locale and a number skeleton. */
    formatter(std::string_view tables, const std::string &locale, skeleton asked) {
        talmuiga_formatter *made;
        talmuiga_fault fault;
        std::uint32_t status = talmuiga_formatter_open_skeleton(tables.data(), tables.size(), locale.c_str(), asked.text.data(),
                                                                asked.text.size(), &fault, &made);
        hold(status, fault, made);
    }

    /* By tables, a locale and a number skeleton, for ranges too: talmuiga::formatter(tables, "de", asked, talmuiga::with_ranges). */
    formatter(std::string_view tables, const std::string &locale, skeleton asked, with_ranges_t) {
        talmuiga_formatter *made;
        talmuiga_fault fault;
        std::uint32_t status = talmuiga_formatter_open_ranges(tables.data(), tables.size(), locale.c_str(), asked.text.data(),
                                                              asked.text.size(), &fault, &made);
        hold(status, fault, made);
    }

    /* The same in English, without tables. */
    formatter(skeleton asked, with_ranges_t) {
        talmuiga_formatter *made;
        talmuiga_fault fault;
        std::uint32_t status =
            talmuiga_formatter_open_english_ranges(asked.text.data(), asked.text.size(), &fault, &made);
        hold(status, fault, made);
    }

    /* The text of one number. */
    std::string operator()(std::string_view number) const { return one(number); }

    /* The text of one number. */
    std::string one(std::string_view number) const {
        std::string text(number.size() * 4 + 32, '\0');
        for (;;) {
            std::size_t length;
            std::uint32_t status =
                talmuiga_formatter_one(held_.get(), number.data(), number.size(), text.data(), text.size(), &length);
            text.resize(length);
            if (status != TALMUIGA_OUTPUT_TOO_SMALL) {
                judge(status);
                return text;
            }
        }
    }

    /* The text of one number and its parts. */
    marked_text parts(std::string_view number) const {
        marked_text marked{std::string(number.size() * 4 + 32, '\0'),
                           std::vector<talmuiga_span>(number.size() / 2 + 8)};
        for (;;) {
            std::size_t length, count;
            std::uint32_t status = talmuiga_formatter_parts(held_.get(), number.data(), number.size(), marked.text.data(),
                                                            marked.text.size(), &length, marked.parts.data(),
                                                            marked.parts.size(), &count);
            marked.text.resize(length);
            marked.parts.resize(count);
            if (status != TALMUIGA_OUTPUT_TOO_SMALL) {
                judge(status);
                return marked;
            }
        }
    }

    /* The decimal of a number's text, as talmuiga_formatter_read reads it; not_read where it is no number's. */
    std::string read(std::string_view text) const {
        std::string number(text.size(), '\0');
        for (;;) {
            std::size_t length, byte;
            std::uint32_t status =
                talmuiga_formatter_read(held_.get(), text.data(), text.size(), number.data(), number.size(), &length, &byte);
            number.resize(length);
            if (status == TALMUIGA_NOT_READ) throw not_read(byte);
            if (status != TALMUIGA_OUTPUT_TOO_SMALL) {
                judge(status);
                return number;
            }
        }
    }

    /* The text of the range of two numbers, by a formatter that was made with_ranges. */
    std::string range(std::string_view start, std::string_view end) const {
        std::string text((start.size() + end.size()) * 4 + 64, '\0');
        for (;;) {
            std::size_t length;
            std::uint32_t status = talmuiga_formatter_range(held_.get(), start.data(), start.size(), end.data(), end.size(),
                                                            text.data(), text.size(), &length);
            text.resize(length);
            if (status != TALMUIGA_OUTPUT_TOO_SMALL) {
                judge(status);
                return text;
            }
        }
    }

    /* The answers of lines, an error line in the place of each that isn't a number. */
    std::string lines(std::string_view input) const {
        std::string output;
        std::size_t room = input.size() * 3 + 64;
        for (;;) {
            const std::size_t before = output.size();
            talmuiga_reached reached;
            output.resize(before + room);
            std::uint32_t status = talmuiga_formatter_format(held_.get(), input.data(), input.size(),
                                                             output.data() + before, room, &reached);
            output.resize(before + reached.written);
            if (status != TALMUIGA_OUTPUT_TOO_SMALL) {
                judge(status);
                return output;
            }
            input.remove_prefix(reached.consumed);
            room = input.size() * 3 + 64;
            if (room < reached.needed) room = reached.needed;
        }
    }

    /* What calls of talmuiga.h take; it is this formatter's, and isn't closed. */
    const talmuiga_formatter *get() const noexcept { return held_.get(); }

private:
    struct close {
        void operator()(talmuiga_formatter *held) const noexcept { talmuiga_formatter_close(held); }
    };

    static void judge(std::uint32_t status) {
        if (status == TALMUIGA_OUT_OF_MEMORY) throw std::bad_alloc();
        if (status != TALMUIGA_DONE) throw refused(status);
    }

    /* Holds a formatter that a call opened by a skeleton, or throws why it didn't. */
    void hold(std::uint32_t status, const talmuiga_fault &fault, talmuiga_formatter *made) {
        if (status == TALMUIGA_SKELETON_REFUSED) throw skeleton_refused(fault);
        judge(status);
        held_.reset(made);
    }

    std::unique_ptr<talmuiga_formatter, close> held_;
};

/* A text that is no message: kind() is one of TALMUIGA_MESSAGE_FAULT_NOT_UTF8 and so on. */
class message_refused : public text_refused {
public:
    explicit message_refused(const talmuiga_fault &fault)
        : text_refused(TALMUIGA_MESSAGE_REFUSED, talmuiga_message_fault_text(&fault), fault) {}
};

/* A message isn't written: name() is that of an argument, and status() says why, as TALMUIGA_MISSING_ARGUMENT. */
class argument_refused : public refused {
public:
    argument_refused(std::uint32_t status, std::string name) : refused(status), name_(std::move(name)) {}
    const std::string &name() const noexcept { return name_; }

private:
    std::string name_;
};

/* A number by the text of its decimal, as "0.10". */
struct decimal {
    std::string_view text;
};

/* A value of a message by its name: a text, or a number. A text is a number if the message wants one. */
class value {
public:
    value(std::string name, std::string text) : name_(std::move(name)), text_(std::move(text)) {}
    value(std::string name, const char *text) : name_(std::move(name)), text_(text) {}
    value(std::string name, std::string_view text) : name_(std::move(name)), text_(text) {}
    value(std::string name, decimal number) : name_(std::move(name)), text_(number.text), is_number_(true) {}

    /* A whole number, or a floating one by its shortest text. */
    template <typename Number, typename = std::enable_if_t<std::is_arithmetic_v<Number>>>
    value(std::string name, Number number) : name_(std::move(name)), is_number_(true) {
        char text[400];
        std::to_chars_result written{};
        if constexpr (std::is_floating_point_v<Number>) {
            written = std::to_chars(text, text + sizeof text, static_cast<double>(number), std::chars_format::fixed);
        } else {
            written = std::to_chars(text, text + sizeof text, +number);
        }
        text_.assign(text, written.ptr);
    }

    const std::string &name() const noexcept { return name_; }
    const std::string &text() const noexcept { return text_; }
    bool is_number() const noexcept { return is_number_; }

private:
    std::string name_, text_;
    bool is_number_ = false;
};

/* A plural message (ICU MessageFormat) of a locale. It holds a formatter of plain numbers, if it takes a number anywhere, and one for each
 * skeleton of its places. Any number of threads may write with one at once. */
class message {
public:
    /* By tables, a locale and a text. */
    message(std::string_view tables, const std::string &locale, std::string_view text)
        : text_(std::make_unique<const std::string>(text)) {
        talmuiga_message *made;
        talmuiga_fault fault;
        std::uint32_t status =
            talmuiga_message_open(tables.data(), tables.size(), locale.c_str(), text.data(), text.size(), &fault, &made);
        hold(status, fault, made, [&](std::string_view asked) { return formatter(tables, locale, skeleton{asked}); });
    }

    /* In English, without tables. */
    explicit message(std::string_view text) : text_(std::make_unique<const std::string>(text)) {
        talmuiga_message *made;
        talmuiga_fault fault;
        std::uint32_t status = talmuiga_message_open_english(text.data(), text.size(), &fault, &made);
        hold(status, fault, made, [](std::string_view asked) { return formatter(skeleton{asked}); });
    }

    /* The text of the message with values. Values that it doesn't name are ignored, and of two with one name the first counts. */
    std::string operator()(std::initializer_list<value> values) const { return write(values.begin(), values.end()); }
    std::string operator()(const std::vector<value> &values) const { return write(values.begin(), values.end()); }

private:
    struct close {
        void operator()(talmuiga_message *held) const noexcept { talmuiga_message_close(held); }
        void operator()(talmuiga_arguments *held) const noexcept { talmuiga_arguments_close(held); }
    };
    using arguments = std::unique_ptr<talmuiga_arguments, close>;

    /* A place with a form of its own, by its name and its skeleton, which stand in the text. */
    struct place {
        std::string_view name, asked;
        formatter by;
    };

    static void judge(std::uint32_t status) {
        if (status == TALMUIGA_OUT_OF_MEMORY) throw std::bad_alloc();
        if (status != TALMUIGA_DONE) throw refused(status);
    }

    /* A word of the text. */
    std::string_view word(talmuiga_word at) const { return std::string_view(*text_).substr(at.start, at.end - at.start); }

    /* Whether a place is among those that are opened. */
    bool is_opened(std::string_view name, std::string_view asked) const {
        for (const place &opened : places_) {
            if (opened.name == name && opened.asked == asked) return true;
        }
        return false;
    }

    /* Holds a message that a call opened, and its formatters, or throws why it wasn't. */
    template <typename Open>
    void hold(std::uint32_t status, const talmuiga_fault &fault, talmuiga_message *made, Open open) {
        if (status == TALMUIGA_MESSAGE_REFUSED) throw message_refused(fault);
        judge(status);
        held_.reset(made);
        talmuiga_named named;
        for (std::size_t at = 0; (status = talmuiga_message_name(made, at, &named)) == TALMUIGA_DONE; at++) {
            names_.emplace_back(word(named.name), named.kind);
            if (named.kind == TALMUIGA_NUMBER_ARGUMENT && !plain_) plain_.emplace(open(""));
        }
        if (status != TALMUIGA_NO_SUCH_PLACE) judge(status);
        /* places without a form take texts, where a locale has no numbers */
        try {
            if (!plain_ && takes_numbers()) plain_.emplace(open(""));
        } catch (const refused &) {
        }
        talmuiga_place found;
        for (std::size_t at = 0; talmuiga_message_place(made, at, &found) == TALMUIGA_DONE; at++) {
            const std::string_view name = word(found.name), asked = word(found.skeleton);
            if (!is_opened(name, asked)) places_.push_back(place{name, asked, open(asked)});
        }
    }

    /* Whether a name takes a number besides a text. */
    bool takes_numbers() const {
        for (const auto &named : names_) {
            if (named.second == TALMUIGA_ANY_ARGUMENT) return true;
        }
        return false;
    }

    /* Adds a value of a name, as the message asks for it. */
    std::uint32_t add(talmuiga_arguments *given, std::uint32_t kind, const value &one) const {
        const std::string &name = one.name(), &text = one.text();
        if (!one.is_number() && kind != TALMUIGA_NUMBER_ARGUMENT) {
            return talmuiga_arguments_text(given, name.c_str(), text.data(), text.size());
        }
        if (kind == TALMUIGA_TEXT_ARGUMENT) return TALMUIGA_NOT_A_TEXT;
        if (!plain_) return TALMUIGA_NO_DATA;
        std::uint32_t status = talmuiga_arguments_number(given, plain_->get(), name.c_str(), text.data(), text.size());
        for (const place &opened : places_) {
            if (status == TALMUIGA_DONE && opened.name == name) {
                status = talmuiga_arguments_form(given, opened.by.get(), name.c_str(), opened.asked.data(), opened.asked.size(),
                                                 text.data(), text.size());
            }
        }
        return status;
    }

    /* Adds a value, if the message has its name. */
    std::uint32_t add(talmuiga_arguments *given, const value &one) const {
        for (const auto &named : names_) {
            if (named.first == one.name()) return add(given, named.second, one);
        }
        return TALMUIGA_DONE;
    }

    template <typename Values>
    std::string write(Values begin, Values end) const {
        arguments given(talmuiga_arguments_open());
        if (!given) throw std::bad_alloc();
        std::size_t room = text_->size() * 2 + 64;
        for (Values at = begin; at != end; ++at) {
            const std::uint32_t status = add(given.get(), *at);
            if (status == TALMUIGA_OUT_OF_MEMORY) throw std::bad_alloc();
            if (status != TALMUIGA_DONE) throw argument_refused(status, at->name());
            room += at->text().size();
        }
        std::string written(room, '\0');
        for (;;) {
            std::size_t length;
            talmuiga_word name;
            const std::uint32_t status =
                talmuiga_message_write(held_.get(), given.get(), written.data(), written.size(), &length, &name);
            written.resize(length);
            if (status == TALMUIGA_OUTPUT_TOO_SMALL) continue;
            if (status == TALMUIGA_OUT_OF_MEMORY) throw std::bad_alloc();
            if (status != TALMUIGA_DONE) throw argument_refused(status, std::string(word(name)));
            return written;
        }
    }

    std::unique_ptr<const std::string> text_;
    std::unique_ptr<talmuiga_message, close> held_;
    std::vector<std::pair<std::string_view, std::uint32_t>> names_;
    std::optional<formatter> plain_;
    std::vector<place> places_;
};

}  // namespace talmuiga

#endif
