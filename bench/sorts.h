// The sorts of the peer: of the texts of some pairs, by comparisons and by keys.
#pragma once

#include "keyed.h"
#include "texts.h"

// What a list comes to where a further name stands behind it: a number that depends on the order of the names, the same as in
// `sorts.rt.txt`.
inline uint64_t listed(uint64_t sum, std::string_view name) {
    const uint64_t ends = name.empty() ? 0 : 256 * static_cast<uint8_t>(name.front()) + static_cast<uint8_t>(name.back());
    return (sum * 31 + name.size()) * 31 + ends;
}

inline std::vector<uint32_t> indices(const Texts &texts, const Row &row) {
    std::vector<uint32_t> all;
    for (uint32_t at = row.first; at < row.end; ++at) {
        all.insert(all.end(), texts.pairs[at].begin(), texts.pairs[at].end());
    }
    return all;
}

inline uint64_t sorted_by_comparisons(const Peer &peer, const Texts &texts, const Row &row) {
    auto all = indices(texts, row);
    std::stable_sort(all.begin(), all.end(),
                     [&](uint32_t left, uint32_t right) { return peer.compare(texts.utf8(left), texts.utf8(right)) < 0; });
    uint64_t sum = 0;
    for (const uint32_t index : all) {
        sum = listed(sum, texts.utf8(index));
    }
    return sum;
}

inline uint64_t sorted_by_keys(const Peer &peer, const Texts &texts, const Row &row) {
    Keys keys(peer);
    std::vector<Keyed> all;
    for (const uint32_t index : indices(texts, row)) {
        all.push_back(keys.keyed(texts.utf8(index), texts.utf16(index)));
    }
    std::stable_sort(all.begin(), all.end());
    uint64_t sum = 0;
    for (const Keyed &it : all) {
        sum = listed(sum, it.text);
    }
    return sum;
}
