// Times the library beside ICU4C, in one process and on one thread.
//
// usage: collation_bench PLAN ROUNDS [FRACTIONAL_UCA]
//
// Over the tables of the row's language where it has a table file, else over the root of CLDR where its file is given, and else over
// Mini, the small table of `icu_table_mini`. Each row of the plan is measured
// once in each round, first the peer and then the library; of each the least processor time counts. Prints a line a row, parted by
// tabs: the nanoseconds of a call of ICU4C and of the library, how many pairs of texts or lists were not in ICU4C's order, and of
// how many pairs the keys were in another order than the texts.
// Status 1: the plan or its texts aren't read, or there is no collator.
#include <iomanip>

#include "session.h"

extern "C" {
// Of the library: makes a collator, over Mini where `tables` is empty, and serves passes until the operation is `End`. Returns 0, or
// why there is no collator.
uint32_t bench_serve(const uint8_t *tables, size_t tables_length, const Settings *settings, const uint8_t *bytes, size_t bytes_length,
                     const uint32_t *ends, size_t ends_length, const char16_t *units, size_t units_length,
                     const uint32_t *unit_ends, size_t unit_ends_length, const std::array<uint32_t, 2> *pairs,
                     size_t pairs_length, uint8_t *signs, size_t signs_length);
// Of this program: ends the pass that returned `answer`, and says what the next one is.
Request bench_next(uint64_t answer);
}

static Session *session;

Request bench_next(uint64_t answer) { return session->next(answer); }

// Measures the rows of the same settings as the first one.
static void measure(const std::vector<Row *> &rows, uint64_t rounds, const std::string &root) {
    Texts texts;
    for (Row *row : rows) {
        texts.add(*row);
    }
    const Settings &settings = rows.front()->settings;
    const std::string tables = settings.tables.empty() ? root : contents(settings.tables);
    Session passes(texts, rows, rounds, !tables.empty());
    session = &passes;
    const auto as_bytes = [](const std::string &it) { return reinterpret_cast<const uint8_t *>(it.data()); };
    const uint32_t refusal =
        bench_serve(as_bytes(tables), tables.size(), &settings, as_bytes(texts.bytes), texts.bytes.size(),
                    texts.ends.data(), texts.ends.size(), texts.units.data(), texts.units.size(), texts.unit_ends.data(),
                    texts.unit_ends.size(), texts.pairs.data(), texts.pairs.size(), passes.signs.data(), passes.signs.size());
    if (refusal != 0) {
        const char *const why[] = {"", "no memory", "the file of the tables is refused", "the tables are refused"};
        std::cerr << "no collator: " << why[std::min<uint32_t>(refusal, 3)] << '\n';
        std::exit(1);
    }
}

int main(int count, char **words) {
    if (count < 3) {
        std::cerr << "usage: collation_bench PLAN ROUNDS [FRACTIONAL_UCA]\n";
        return 2;
    }
    auto rows = rows_of(words[1]);
    const uint64_t rounds = std::stoull(words[2]);
    const std::string root = count > 3 ? contents(words[3]) : "";
    std::vector<Row *> left;
    for (Row &row : rows) {
        left.push_back(&row);
    }
    while (!left.empty()) {
        const Settings settings = left.front()->settings;
        const auto others = std::stable_partition(left.begin(), left.end(), [&](Row *it) { return it->settings == settings; });
        measure({left.begin(), others}, rounds, root);
        left.erase(left.begin(), others);
    }
    std::cout << std::fixed << std::setprecision(1);
    for (const Row &row : rows) {
        std::cout << row.peer << '\t' << row.library << '\t' << row.unlike_peer << '\t' << row.unlike_keys << '\n';
    }
    return 0;
}
