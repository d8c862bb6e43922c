// What the peers of ICU share that answer each line of standard input by one.
#include <iostream>
#include <string>
#include <unicode/uversion.h>

// Answers each line. With the word --version it prints the version of ICU instead.
template <typename Answer> int answer_lines(int count, char **words, Answer answer) {
    if (count > 1) {
        std::cout << U_ICU_VERSION << '\n';
        return std::string(words[1]) != "--version";
    }
    std::ios::sync_with_stdio(false);
    std::string line;
    while (std::getline(std::cin, line)) {
        std::cout << answer(line) << '\n';
    }
    return 0;
}
