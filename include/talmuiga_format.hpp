/* Numbers for std::format, and iteration over the parts of a number's text, over the formatters of talmuiga.hpp; for C++17, with
 * std::format where the compiler's library has it (C++20).
 *
 *     const talmuiga::formatter prices(tables, "de", talmuiga::skeleton{"currency/EUR"});
 *     std::format("{:>16}", talmuiga::number(prices, "1234.5"));
 *     for (const talmuiga::part &part : talmuiga::parts_of(prices.parts("-1234.5"))) part.text;
 *
 * TALMUIGA_HAS_FORMAT is 1 where std::formatter<talmuiga::number> is there, and else 0. A caller may define it before. */
#ifndef TALMUIGA_FORMAT_HPP
#define TALMUIGA_FORMAT_HPP

#include "talmuiga.hpp"

#include <cstddef>
#include <iterator>
#include <ostream>
#include <string>
#include <string_view>
#include <type_traits>
#include <utility>

#if defined(__has_include)
#if __has_include(<version>)
#include <version>
#endif
#endif
#ifndef TALMUIGA_HAS_FORMAT
#if defined(__cpp_lib_format) && __cpp_lib_format >= 201907L
#define TALMUIGA_HAS_FORMAT 1
#else
#define TALMUIGA_HAS_FORMAT 0
#endif
#endif
#if TALMUIGA_HAS_FORMAT
#include <format>
#endif

namespace talmuiga {

/* A number and the formatter that writes it: a decimal's text, or a whole number. The formatter has to live as long as this does. */
class number {
public:
    number(const formatter &by, std::string_view text) : by_(&by), text_(text) {}
    template <class Whole, std::enable_if_t<std::is_integral_v<Whole> && !std::is_same_v<Whole, bool>, int> = 0>
    number(const formatter &by, Whole value) : by_(&by), text_(std::to_string(value)) {}

    /* The decimal's text, as it was given. */
    const std::string &decimal() const noexcept { return text_; }

    /* The number in the form of the locale; talmuiga::refused if it is no decimal. */
    std::string text() const { return by_->one(text_); }

private:
    const formatter *by_;
    std::string text_;
};

/* Writes the number into a stream, with its width and fill. */
inline std::ostream &operator<<(std::ostream &out, const number &written) {
    return out << written.text();
}

/* A part of a number's text. */
struct part {
    std::uint32_t kind;    /* one of TALMUIGA_PART_MINUS_SIGN and so on */
    std::string_view text; /* its bytes */
    std::size_t start;     /* where they begin in the whole text */
};

/* The parts of a text, in the order in which they begin, each with its bytes. It holds the text. */
class parts_of {
public:
    class iterator {
    public:
        using iterator_category = std::input_iterator_tag;
        using value_type = part;
        using difference_type = std::ptrdiff_t;
        using pointer = const part *;
        using reference = part;

        iterator() = default;
        part operator*() const {
            const talmuiga_span &span = of_->parts[at_];
            return {span.part, std::string_view(of_->text).substr(span.start, span.end - span.start), span.start};
        }
        iterator &operator++() {
            ++at_;
            return *this;
        }
        iterator operator++(int) {
            iterator before = *this;
            ++at_;
            return before;
        }
        friend bool operator==(const iterator &a, const iterator &b) { return a.at_ == b.at_; }
        friend bool operator!=(const iterator &a, const iterator &b) { return a.at_ != b.at_; }

    private:
        friend class parts_of;
        iterator(const marked_text *of, std::size_t at) : of_(of), at_(at) {}
        const marked_text *of_ = nullptr;
        std::size_t at_ = 0;
    };

    explicit parts_of(marked_text marked) : marked_(std::move(marked)) {}
    iterator begin() const noexcept { return {&marked_, 0}; }
    iterator end() const noexcept { return {&marked_, marked_.parts.size()}; }
    std::size_t size() const noexcept { return marked_.parts.size(); }
    const std::string &text() const noexcept { return marked_.text; }

private:
    marked_text marked_;
};

}  // namespace talmuiga

#if TALMUIGA_HAS_FORMAT
/* A number takes what a text takes: fill, alignment, width and precision, as "{:>16}". */
template <>
struct std::formatter<talmuiga::number, char> : std::formatter<std::string_view, char> {
    template <class Context>
    auto format(const talmuiga::number &written, Context &context) const {
        const std::string text = written.text();
        return std::formatter<std::string_view, char>::format(text, context);
    }
};
#endif

#endif
