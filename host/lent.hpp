// Buffers for calls of the library that show when a call reads or writes where it must not.
#ifndef LENT_HPP
#define LENT_HPP

#include <sys/mman.h>

#include <cstdint>
#include <cstring>
#include <stdexcept>
#include <vector>

// A buffer of `entries` entries with guard entries on both sides, all filled with one pattern.
template <class Entry>
class Lent {
public:
    explicit Lent(std::size_t entries) : entries_(entries), all_(entries + 2 * guard) {
        for (std::size_t i = 0; i < all_.size(); ++i) all_[i] = pattern(i);
    }

    Entry *data() { return all_.data() + guard; }

    // The first `length` entries. Throws if any other entry has changed.
    std::vector<Entry> taken(std::size_t length) const {
        if (length > entries_) throw std::logic_error("the length written is above the buffer's");
        for (std::size_t i = 0; i < all_.size(); ++i) {
            const bool may_change = i >= guard && i < guard + length;
            if (!may_change && all_[i] != pattern(i))
                throw std::logic_error("an entry changed that must keep its value");
        }
        return {all_.begin() + guard, all_.begin() + guard + length};
    }

private:
    static Entry pattern(std::size_t i) { return static_cast<Entry>(0xA5C3 + 31 * i); }

    static constexpr std::size_t guard = 64;
    std::size_t entries_;
    std::vector<Entry> all_;
};

// Memory whose last byte is the last one that may be touched: one byte further ends the process.
class Brink {
public:
    Brink() {
        void *whole = mmap(nullptr, 2 * span, PROT_READ | PROT_WRITE, MAP_PRIVATE | MAP_ANONYMOUS, -1, 0);
        if (whole == MAP_FAILED || mprotect(static_cast<char *>(whole) + span, span, PROT_NONE) != 0)
            throw std::runtime_error("no memory for guarded pages");
        end_ = static_cast<std::uint8_t *>(whole) + span;
    }
    Brink(const Brink &) = delete;
    Brink &operator=(const Brink &) = delete;
    ~Brink() { munmap(end_ - span, 2 * span); }

    std::uint8_t *last(std::size_t bytes) {
        if (bytes > span) throw std::logic_error("more than the guarded pages hold");
        return end_ - bytes;
    }

    std::uint8_t *copy(const std::vector<std::uint8_t> &bytes) {
        if (!bytes.empty()) std::memcpy(last(bytes.size()), bytes.data(), bytes.size());
        return last(bytes.size());
    }

private:
    static constexpr std::size_t span = 1 << 18;  // a multiple of every page size in use
    std::uint8_t *end_;
};

#endif
