// What one collator of the library serves: the looks at what it returns, and the rounds.
#pragma once

#include <ctime>

#include "sorts.h"

// What the library is to do next: an operation over the pairs from `first` to before `end`.
struct Request {
    Operation operation;
    uint32_t first, end;
};

// The processor time of this thread in nanoseconds: what other processes do counts little.
inline double now() {
    timespec time;
    clock_gettime(CLOCK_THREAD_CPUTIME_ID, &time);
    return 1e9 * static_cast<double>(time.tv_sec) + static_cast<double>(time.tv_nsec);
}

// How many passes are timed together where one takes so many nanoseconds: enough for a millisecond.
inline uint64_t passes_for(double once) { return static_cast<uint64_t>(std::clamp(1e6 / once, 1.0, 10'000.0)); }

// The library asks for its next pass whenever one has ended; what the peer does is done in between, on the same thread.
class Session {
  public:
    // What the library writes where orders are asked for: 0, 1, 2 for less, equal, greater.
    std::vector<uint8_t> signs;

    // With `same_order` the library's tables are to order texts as the peer does.
    Session(const Texts &texts, std::vector<Row *> rows, uint64_t rounds, bool same_order)
        : signs(texts.pairs.size()), texts_(texts), rows_(std::move(rows)), peer_(rows_.front()->settings), rounds_(rounds),
          same_order_(same_order), orders_(signs.size()) {}

    Request next(uint64_t answer) {
        sum_ = sum_ + answer;
        answer_ = answer;
        if (left_ > 0) {
            --left_;
            return request_;
        }
        if (request_.operation != Operation::End) {
            end_passes(now() - start_);
        }
        begin_passes();
        start_ = now();
        return request_;
    }

  private:
    // Each turn goes through all rows: two look at what the library returns, one sees how long a pass is, the others are rounds.
    static constexpr uint64_t SIGNS = 0, KEY_SIGNS = 1, FIRST = 2, ROUNDS = 3;

    const Texts &texts_;
    std::vector<Row *> rows_;
    Peer peer_;
    uint64_t rounds_;
    bool same_order_;
    std::vector<uint8_t> orders_;
    uint64_t turn_ = SIGNS;
    size_t at_ = 0;
    Request request_{Operation::End, 0, 0};
    uint64_t left_ = 0;
    double start_ = 0;
    // What the last pass returned, of the library and of the peer.
    uint64_t answer_ = 0, peer_answer_ = 0;
    // Takes in each result, so that no call can be left out.
    volatile uint64_t sum_ = 0;

    Row &row() { return *rows_[at_]; }

    void begin_passes() {
        if (at_ == rows_.size()) {
            at_ = 0;
            ++turn_;
        }
        if (turn_ == ROUNDS + rounds_) {
            request_.operation = Operation::End;
            return;
        }
        request_ = Request{operation(), row().first, row().end};
        if (turn_ >= FIRST) {
            time_peer();
            left_ = row().library_passes - 1;
        }
    }

    Operation operation() {
        const bool utf16 = row().measured == Operation::CompareUtf16;
        return turn_ == SIGNS       ? (utf16 ? Operation::SignsUtf16 : Operation::Signs)
               : turn_ == KEY_SIGNS ? Operation::KeySigns
                                    : row().measured;
    }

    void end_passes(double time) {
        if (turn_ == SIGNS) {
            look_at_orders();
        } else if (turn_ == KEY_SIGNS) {
            look_at_keys();
        } else {
            look_at_list();
            note(time, row().library_passes, row().library);
        }
        ++at_;
    }

    void time_peer() {
        if (row().alone) {
            return;
        }
        const double start = now();
        for (uint64_t pass = 0; pass < row().peer_passes; ++pass) {
            peer_answer_ = peer_pass();
            sum_ = sum_ + peer_answer_;
        }
        note(now() - start, row().peer_passes, row().peer);
    }

    // Notes the time of so many passes: for one call, where it is the least so far, or how many passes are timed from now on.
    void note(double time, uint64_t &passes, double &least) {
        if (turn_ == FIRST) {
            passes = passes_for(time);
        } else {
            least = std::min(least, time / (static_cast<double>(passes) * row().calls()));
        }
    }

    uint64_t peer_pass() {
        switch (row().measured) {
        case Operation::SortByComparisons:
            return sorted_by_comparisons(peer_, texts_, row());
        case Operation::SortByKeys:
        case Operation::Index:
            return sorted_by_keys(peer_, texts_, row());
        case Operation::Make:
            return peer_.make();
        case Operation::MakeFromAnother:
            return peer_.make_from_another();
        default:
            return pass_over_pairs();
        }
    }

    uint64_t pass_over_pairs() {
        uint64_t sum = 0;
        for (uint32_t at = row().first; at < row().end; ++at) {
            const auto [left, right] = texts_.pairs[at];
            switch (row().measured) {
            case Operation::Keys:
                sum += peer_.key(texts_.utf16(left)) + peer_.key(texts_.utf16(right));
                break;
            case Operation::Elements:
            case Operation::ElementsOfCharacters:
                sum += peer_.elements(texts_.utf16(left)) + peer_.elements(texts_.utf16(right));
                break;
            case Operation::Search:
                sum += peer_.found(texts_.utf16(left), texts_.utf16(right));
                break;
            default:
                sum += peer_order(at);
            }
        }
        return sum;
    }

    // The order of a pair by the peer: 0, 1, 2 for less, equal, greater.
    uint8_t peer_order(uint32_t at) {
        const auto [left, right] = texts_.pairs[at];
        const int order = row().measured == Operation::CompareUtf16 ? peer_.compare(texts_.utf16(left), texts_.utf16(right))
                                                                    : peer_.compare(texts_.utf8(left), texts_.utf8(right));
        return static_cast<uint8_t>(order + 1);
    }

    // By the same tables texts are ordered as the peer orders them.
    void look_at_orders() {
        for (uint32_t at = row().first; at < row().end; ++at) {
            orders_[at] = signs[at];
            if (signs[at] > 2 || (same_order_ && signs[at] != peer_order(at))) {
                complain(at, row().unlike_peer, "not ordered as by ICU4C");
            }
        }
    }

    // Keys are in the order of their texts.
    void look_at_keys() {
        for (uint32_t at = row().first; at < row().end; ++at) {
            if (signs[at] != orders_[at]) {
                complain(at, row().unlike_keys, "not ordered as their keys");
            }
        }
    }

    // Lists are sorted as the peer sorts them, and patterns are found as often.
    void look_at_list() {
        if (turn_ == FIRST && (row().sorts() || row().searches()) && !row().alone && same_order_ && answer_ != peer_answer_) {
            ++row().unlike_peer;
        }
    }

    // Counts a pair, and prints the row's first.
    void complain(uint32_t at, uint64_t &count, const char *what) {
        if (count++ == 0) {
            const auto [left, right] = texts_.pairs[at];
            std::cerr << texts_.utf8(left).substr(0, 200) << " and " << texts_.utf8(right).substr(0, 200) << ": " << what << '\n';
        }
    }
};
