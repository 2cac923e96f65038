// The plan of the rows, and their texts.
#pragma once

#include <array>
#include <fstream>
#include <limits>
#include <sstream>

#include "peer.h"

// What the library is asked for, by the numbers that `passes.rt.txt` has for it.
enum class Operation : uint32_t {
    End = 0,
    Compare = 1,
    CompareUtf16 = 2,
    Keys = 3,
    Elements = 4,
    SortByComparisons = 5,
    SortByKeys = 6,
    Index = 7,
    Make = 8,
    MakeFromAnother = 9,
    ElementsOfCharacters = 10,
    Search = 11,
    Signs = 12,
    SignsUtf16 = 13,
    KeySigns = 14,
};

// A row of the plan, and the least time of a call so far, in nanoseconds, of the peer and of the library.
struct Row {
    Operation measured = Operation::End;
    Settings settings;
    std::string file;
    // Its pairs of texts.
    uint32_t first = 0, end = 0;
    // The peer does nothing.
    bool alone = false;
    // How many units of UTF-16 its second texts have, which are searched.
    size_t searched = 0;
    // How many passes are timed together.
    uint64_t peer_passes = 1, library_passes = 1;
    double peer = std::numeric_limits<double>::infinity(), library = peer;
    // How many pairs or lists were not in the peer's order, and how many keys not in that of their texts.
    uint64_t unlike_peer = 0, unlike_keys = 0;

    bool compares() const { return measured == Operation::Compare || measured == Operation::CompareUtf16; }
    bool searches() const { return measured == Operation::Search; }
    bool makes() const { return measured == Operation::Make || measured == Operation::MakeFromAnother; }
    bool sorts() const {
        return measured == Operation::SortByComparisons || measured == Operation::SortByKeys || measured == Operation::Index;
    }

    // The calls of a pass: a collator, or one for each pair, or one for each text. Of searches it is their characters.
    double calls() const { return searches() ? searched : makes() ? 1.0 : (compares() ? 1.0 : 2.0) * (end - first); }
};

inline std::ifstream opened(const std::string &file) {
    std::ifstream it(file, std::ios::binary);
    if (!it) {
        std::cerr << file << ": not opened\n";
        std::exit(1);
    }
    return it;
}

inline std::string contents(const std::string &file) {
    std::ostringstream all;
    all << opened(file).rdbuf();
    return all.str();
}

inline Operation operation_named(std::string_view name) {
    constexpr std::string_view names[] = {"compare", "compare UTF-16", "keys", "elements", "sort by comparisons", "sort by keys",
                                          "index",   "make",           "make from another", "elements of characters",
                                          "search"};
    const auto found = std::find(std::begin(names), std::end(names), name);
    return static_cast<Operation>(1 + (found - std::begin(names)));
}

// The rows of a plan, one a line: what is measured, the settings, the file of the texts, the language and its table file if it has
// one.
inline std::vector<Row> rows_of(const std::string &plan) {
    std::vector<Row> rows;
    auto lines = opened(plan);
    for (std::string line; std::getline(lines, line);) {
        std::istringstream words(line);
        std::string operation, settings;
        Row row;
        Settings &it = row.settings;
        for (std::string *word : {&operation, &settings, &row.file, &it.language, &it.tables}) {
            std::getline(words, *word, '\t');
        }
        row.alone = operation == "search alone";
        row.measured = operation_named(row.alone ? "search" : operation);
        std::istringstream numbers(settings);
        numbers >> it.strength >> it.numeric >> it.shifted >> it.case_level >> it.normalized;
        it.by_file = it.tables.empty() ? 0 : 1;
        rows.push_back(row);
    }
    return rows;
}

// The texts of several rows, as the library takes them: in UTF-8 and in UTF-16, where each text ends, and which texts are a pair.
class Texts {
  public:
    std::string bytes;
    std::u16string units;
    std::vector<uint32_t> ends, unit_ends;
    std::vector<std::array<uint32_t, 2>> pairs;

    // Adds the texts of the row's file, and notes which pairs are its own. A pair that stands alone is gone through twenty
    // times in a pass, so that the clock counts little, but for a search, whose text is long.
    void add(Row &row) {
        row.first = static_cast<uint32_t>(pairs.size());
        auto lines = opened(row.file);
        for (std::string left, right; std::getline(lines, left) && std::getline(lines, right);) {
            const uint32_t first = added(left);
            pairs.push_back({first, added(right)});
            row.searched += utf16(pairs.back()[1]).size();
        }
        if (pairs.size() == row.first + 1 && !row.searches()) {
            const auto pair = pairs.back();
            pairs.insert(pairs.end(), 19, pair);
        }
        row.end = static_cast<uint32_t>(pairs.size());
    }

    std::string_view utf8(uint32_t at) const { return piece<std::string_view>(bytes, ends, at); }
    std::u16string_view utf16(uint32_t at) const { return piece<std::u16string_view>(units, unit_ends, at); }

  private:
    template <typename View> static View piece(View all, const std::vector<uint32_t> &ends, uint32_t at) {
        const uint32_t start = at == 0 ? 0 : ends[at - 1];
        return all.substr(start, ends[at] - start);
    }

    uint32_t added(const std::string &text) {
        bytes += text;
        units += in_utf16(text);
        ends.push_back(static_cast<uint32_t>(bytes.size()));
        unit_ends.push_back(static_cast<uint32_t>(units.size()));
        return static_cast<uint32_t>(ends.size() - 1);
    }
};
