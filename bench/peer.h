// ICU4C: its collator of the root, or of a locale.
#pragma once

#include <algorithm>
#include <array>
#include <cstdint>
#include <cstdlib>
#include <iostream>
#include <memory>
#include <string>
#include <string_view>
#include <vector>

#include <unicode/ucol.h>
#include <unicode/ucoleitr.h>
#include <unicode/uloc.h>
#include <unicode/usearch.h>
#include <unicode/ustring.h>

// The settings of a row. The library takes the first five, and normalizes texts always.
struct Settings {
    // By ICU's number, UCOL_TERTIARY and the like.
    uint32_t strength = 2;
    // What is on where it isn't 0. By a file: the library's tables are those of a language, from a table file.
    uint32_t numeric = 0, shifted = 0, case_level = 0, by_file = 0, normalized = 0;
    // The language, by its tag, and its table file.
    std::string language = "und", tables = "";

    bool operator==(const Settings &) const = default;
};

inline void must(UErrorCode error, const char *call) {
    if (U_FAILURE(error)) {
        std::cerr << call << ": " << u_errorName(error) << '\n';
        std::exit(1);
    }
}

// A text in UTF-16.
inline std::u16string in_utf16(std::string_view text) {
    std::u16string units(text.size(), u'\0');
    UErrorCode error = U_ZERO_ERROR;
    int32_t length = 0;
    u_strFromUTF8(units.data(), static_cast<int32_t>(units.size()), &length, text.data(), static_cast<int32_t>(text.size()), &error);
    must(error, "u_strFromUTF8");
    units.resize(length);
    return units;
}

struct Close {
    void operator()(UCollator *it) const { ucol_close(it); }
    void operator()(UCollationElements *it) const { ucol_closeElements(it); }
    void operator()(UStringSearch *it) const { usearch_close(it); }
};
using Collator = std::unique_ptr<UCollator, Close>;

class Peer {
  public:
    // By ICU's collation of the language.
    explicit Peer(const Settings &settings) : settings_(settings), key_(1 << 20) {
        UErrorCode error = U_ZERO_ERROR;
        std::array<char, 100> locale{};
        uloc_forLanguageTag(settings.language.c_str(), locale.data(), locale.size(), nullptr, &error);
        must(error, "uloc_forLanguageTag");
        collator_.reset(ucol_open(locale.data(), &error));
        must(error, "ucol_open");
        set(collator_.get());
        elements_.reset(ucol_openElements(collator_.get(), u"", 0, &error));
        must(error, "ucol_openElements");
        root_.reset(ucol_open("root", &error));
        tables_.resize(1 << 20);
        tables_.resize(ucol_cloneBinary(root_.get(), tables_.data(), static_cast<int32_t>(tables_.size()), &error));
        must(error, "ucol_cloneBinary");
    }

    // -1, 0 or 1: the order of two texts in UTF-8.
    int compare(std::string_view left, std::string_view right) const {
        UErrorCode error = U_ZERO_ERROR;
        return ucol_strcollUTF8(collator_.get(), left.data(), static_cast<int32_t>(left.size()), right.data(),
                                static_cast<int32_t>(right.size()), &error);
    }

    // The same of two texts in UTF-16.
    int compare(std::u16string_view left, std::u16string_view right) const {
        return ucol_strcoll(collator_.get(), left.data(), static_cast<int32_t>(left.size()), right.data(),
                            static_cast<int32_t>(right.size()));
    }

    // Writes the sort key of a text into room that is there, and returns its length.
    uint64_t key(std::u16string_view text) { return key_into(text, key_.data(), key_.size()); }

    // Goes through the elements of a text, and returns their sum.
    uint64_t elements(std::u16string_view text) {
        UErrorCode error = U_ZERO_ERROR;
        ucol_setText(elements_.get(), text.data(), static_cast<int32_t>(text.size()), &error);
        uint64_t sum = 0;
        for (int32_t next = 0; (next = ucol_next(elements_.get(), &error)) != UCOL_NULLORDER;) {
            sum += static_cast<uint32_t>(next);
        }
        return sum;
    }

    // How many matches a search finds of a pattern in a text.
    uint64_t found(std::u16string_view pattern, std::u16string_view text) const {
        UErrorCode error = U_ZERO_ERROR;
        const std::unique_ptr<UStringSearch, Close> search(
            usearch_openFromCollator(pattern.data(), static_cast<int32_t>(pattern.size()), text.data(), static_cast<int32_t>(text.size()),
                                     collator_.get(), nullptr, &error));
        must(error, "usearch_openFromCollator");
        uint64_t count = 0;
        for (int32_t at = usearch_first(search.get(), &error); at != USEARCH_DONE; at = usearch_next(search.get(), &error)) {
            ++count;
        }
        must(error, "usearch_next");
        return count;
    }

    // Makes a collator of tables in memory, and gives it the settings.
    uint64_t make() const {
        UErrorCode error = U_ZERO_ERROR;
        const Collator made(ucol_openBinary(tables_.data(), static_cast<int32_t>(tables_.size()), root_.get(), &error));
        must(error, "ucol_openBinary");
        set(made.get());
        return 1;
    }

    // Makes a collator from another one, and gives it the settings.
    uint64_t make_from_another() const {
        UErrorCode error = U_ZERO_ERROR;
        const Collator made(ucol_clone(root_.get(), &error));
        must(error, "ucol_clone");
        set(made.get());
        return 1;
    }

    // Writes the sort key of a text into room if it fits, and returns its length.
    size_t key_into(std::u16string_view text, uint8_t *room, size_t size) const {
        return ucol_getSortKey(collator_.get(), text.data(), static_cast<int32_t>(text.size()), room, static_cast<int32_t>(size));
    }

  private:
    Settings settings_;
    Collator collator_, root_;
    std::unique_ptr<UCollationElements, Close> elements_;
    std::vector<uint8_t> key_, tables_;

    void set(UCollator *collator) const {
        UErrorCode error = U_ZERO_ERROR;
        ucol_setStrength(collator, static_cast<UCollationStrength>(settings_.strength));
        ucol_setAttribute(collator, UCOL_NUMERIC_COLLATION, settings_.numeric ? UCOL_ON : UCOL_OFF, &error);
        ucol_setAttribute(collator, UCOL_ALTERNATE_HANDLING, settings_.shifted ? UCOL_SHIFTED : UCOL_NON_IGNORABLE, &error);
        ucol_setAttribute(collator, UCOL_CASE_LEVEL, settings_.case_level ? UCOL_ON : UCOL_OFF, &error);
        ucol_setAttribute(collator, UCOL_NORMALIZATION_MODE, settings_.normalized ? UCOL_ON : UCOL_OFF, &error);
        must(error, "ucol_setAttribute");
    }
};
