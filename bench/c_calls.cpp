// Times the library for C beside ICU4C, in one process and on one thread: comparisons and sort keys of the bench's texts.
//
// usage: c_calls PLAN ROUNDS
//
// Each row of the plan has a table file. It is measured once in each round, first the peer and then the library; of each the least
// processor time counts. Prints what `main.cpp` prints of a row. Status 1: the plan, its texts or a table file isn't read.
#include <iomanip>

#include "../bindings/c/collate.h"
#include "session.h"

static std::string tag_of(const Settings &it) {
    std::string tag = "und-u-ks-" + (it.strength < 4 ? "level" + std::to_string(it.strength + 1) : std::string("identic"));
    return tag + (it.case_level ? "-kc" : "") + (it.numeric ? "-kn" : "") + (it.shifted ? "-ka-shifted" : "");
}

static const uint8_t *bytes(std::string_view text) { return collate_text(text.data()); }
static const uint16_t *units(std::u16string_view text) { return reinterpret_cast<const uint16_t *>(text.data()); }

// The calls of a handle.
class Calls {
  public:
    explicit Calls(const Settings &settings) : room_(1 << 20) {
        const std::string file = contents(settings.tables), tag = tag_of(settings);
        const int32_t status = collate_open(&handle_, bytes(file), file.size(), bytes(tag), tag.size());
        if (status != COLLATE_DONE) {
            std::cerr << settings.tables << ", " << tag << ": status " << status << '\n';
            std::exit(1);
        }
    }
    Calls(const Calls &) = delete;
    ~Calls() { collate_close(&handle_); }

    int compare(std::string_view left, std::string_view right) {
        return collate_compare_utf8(&handle_, bytes(left), left.size(), bytes(right), right.size());
    }
    int compare(std::u16string_view left, std::u16string_view right) {
        return collate_compare_utf16(&handle_, units(left), left.size(), units(right), right.size());
    }
    std::string_view key(std::string_view text) {
        size_t length = 0;
        if (collate_key_utf8(&handle_, bytes(text), text.size(), room_.data(), room_.size(), &length) != COLLATE_DONE) std::exit(1);
        return {reinterpret_cast<const char *>(room_.data()), length};
    }

  private:
    collate_handle handle_ = COLLATE_CLOSED;
    std::vector<uint8_t> room_;
};

// One pass over the pairs of a row, by the library or by the peer.
template <typename Collation> static uint64_t pass(Collation &by, const Texts &texts, const Row &row) {
    uint64_t sum = 0;
    for (uint32_t at = row.first; at < row.end; ++at) {
        const auto [left, right] = texts.pairs[at];
        if (row.measured == Operation::CompareUtf16) {
            sum += by.compare(texts.utf16(left), texts.utf16(right));
        } else if (row.measured == Operation::Compare) {
            sum += by.compare(texts.utf8(left), texts.utf8(right));
        } else if constexpr (std::is_same_v<Collation, Peer>) {
            sum += by.key(texts.utf16(left)) + by.key(texts.utf16(right));
        } else {
            sum += by.key(texts.utf8(left)).size() + by.key(texts.utf8(right)).size();
        }
    }
    return sum;
}

// Counts pairs that aren't in the peer's order, or whose keys aren't in theirs.
static void look(Calls &calls, const Peer &peer, const Texts &texts, Row &row) {
    for (uint32_t at = row.first; at < row.end; ++at) {
        const auto [left, right] = texts.pairs[at];
        const int order = calls.compare(texts.utf8(left), texts.utf8(right));
        const std::string key(calls.key(texts.utf8(left)));
        const int by_keys = key.compare(calls.key(texts.utf8(right)));
        row.unlike_peer += order != peer.compare(texts.utf8(left), texts.utf8(right));
        row.unlike_keys += order != (by_keys > 0) - (by_keys < 0);
    }
}

int main(int count, char **words) {
    if (count != 3) {
        std::cerr << "usage: c_calls PLAN ROUNDS\n";
        return 2;
    }
    const uint64_t rounds = std::stoull(words[2]);
    volatile uint64_t sum = 0;
    std::cout << std::fixed << std::setprecision(1);
    for (Row &row : rows_of(words[1])) {
        Texts texts;
        texts.add(row);
        Calls calls(row.settings);
        Peer peer(row.settings);
        look(calls, peer, texts, row);
        const auto timed = [&](auto &by, uint64_t &passes, double &least, bool is_first) {
            const double start = now();
            for (uint64_t at = 0; at < passes; ++at) sum = sum + pass(by, texts, row);
            const double time = now() - start;
            if (is_first) passes = passes_for(time);
            else least = std::min(least, time / (static_cast<double>(passes) * row.calls()));
        };
        for (uint64_t round = 0; round <= rounds; ++round) {
            timed(peer, row.peer_passes, row.peer, round == 0);
            timed(calls, row.library_passes, row.library, round == 0);
        }
        std::cout << row.peer << '\t' << row.library << '\t' << row.unlike_peer << '\t' << row.unlike_keys << std::endl;
    }
    return 0;
}
