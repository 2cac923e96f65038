// Texts with their sort keys of ICU4C, and their order. Keys are written into blocks that are not cleared and don't move, and compared
// by their first eight bytes as a number, and then by what stands behind.
#pragma once

#include <cstring>

#include "peer.h"

struct Keyed {
    uint64_t front;
    std::string_view text, key;
};

inline bool operator<(const Keyed &left, const Keyed &right) {
    return left.front != right.front ? left.front < right.front : left.key < right.key;
}

class Keys {
  public:
    explicit Keys(const Peer &peer) : peer_(peer) {}

    // A text in UTF-8 and its key, which is that of the text in UTF-16.
    Keyed keyed(std::string_view text, std::u16string_view units) {
        size_t length = peer_.key_into(units, block() + used_, size_ - used_);
        if (length > size_ - used_) {
            size_ = std::max(BLOCK, length);
            blocks_.emplace_back(new uint8_t[size_]);
            used_ = 0;
            peer_.key_into(units, block(), length);
        }
        const std::string_view key(reinterpret_cast<const char *>(block()) + used_, length);
        used_ += length;
        return {front(key), text, key};
    }

  private:
    static constexpr size_t BLOCK = 1 << 22;
    const Peer &peer_;
    std::vector<std::unique_ptr<uint8_t[]>> blocks_;
    size_t used_ = 0, size_ = 0;

    uint8_t *block() { return blocks_.empty() ? nullptr : blocks_.back().get(); }

    static uint64_t front(std::string_view key) {
        uint64_t front = 0;
        std::memcpy(&front, key.data(), std::min<size_t>(key.size(), 8));
        return __builtin_bswap64(front);
    }
};
