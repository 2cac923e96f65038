// Prints the sort keys of texts by rules, as ICU4C makes them, for tests/random_rules.py. A line of the input is a list of rules and
// then texts, in UTF-8 and parted by tabs; a line of the output is the keys in hexadecimal digits, parted by tabs, or why ICU4C
// refuses the rules.
#include <unicode/ucol.h>
#include <unicode/unistr.h>

#include <iomanip>
#include <iostream>
#include <sstream>
#include <string>
#include <vector>

static std::vector<icu::UnicodeString> words_of(const std::string &line) {
    std::vector<icu::UnicodeString> words;
    std::istringstream left(line);
    std::string word;
    while (std::getline(left, word, '\t')) {
        words.push_back(icu::UnicodeString::fromUTF8(word));
    }
    return words;
}

static void print_key(UCollator *collator, const icu::UnicodeString &text) {
    std::vector<uint8_t> key(64);
    int32_t length = ucol_getSortKey(collator, text.getBuffer(), text.length(), key.data(), static_cast<int32_t>(key.size()));
    key.resize(length);
    length = ucol_getSortKey(collator, text.getBuffer(), text.length(), key.data(), length);
    std::cout << '\t' << std::hex << std::setfill('0');
    for (int32_t i = 0; i + 1 < length; ++i) {
        std::cout << std::setw(2) << static_cast<int>(key[i]);
    }
    std::cout << std::dec;
}

static void answer(const std::vector<icu::UnicodeString> &words) {
    UErrorCode status = U_ZERO_ERROR;
    UParseError place;
    UCollator *collator = ucol_openRules(words[0].getBuffer(), words[0].length(), UCOL_ON, UCOL_QUATERNARY, &place, &status);
    if (U_FAILURE(status)) {
        std::cout << "refused " << u_errorName(status) << ' ' << place.offset << '\n';
        return;
    }
    std::cout << "ok";
    for (size_t i = 1; i < words.size(); ++i) {
        print_key(collator, words[i]);
    }
    std::cout << '\n';
    ucol_close(collator);
}

int main() {
    std::string line;
    while (std::getline(std::cin, line)) {
        answer(words_of(line));
    }
    return 0;
}
