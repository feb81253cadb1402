// What the calls of mst_store.hpp answer, and how they refuse.
#pragma once
#include "mst_store.h"

#include <array>
#include <cstddef>
#include <cstdint>
#include <iterator>
#include <optional>
#include <stdexcept>
#include <string>
#include <string_view>
#include <utility>
#include <vector>

namespace mst {

using digest = std::array<std::uint8_t, MST_ROOT_LENGTH>;
using pair = std::pair<std::string, std::string>;

// The formats of trees and proofs, by their numbers in mst_store.h and mst_verifier.h.
enum class format : std::uint32_t { one = 1, two = 2 };

// Why a call was refused. It changed nothing, but where the call says otherwise.
class refused : public std::runtime_error {
    int number;

public:
    explicit refused(int code) : std::runtime_error(mst_error_text(code)), number(code) {}

    // One of the numbers of mst_store.h.
    int code() const noexcept { return number; }
};

// Why a batch was refused: one of its edits has a key or a value of a length out of the limits.
class refused_edit : public refused {
    std::size_t number;

public:
    refused_edit(int code, std::size_t place) : refused(code), number(place) {}

    // The number of the first such edit, from 0.
    std::size_t place() const noexcept { return number; }
};

// Why a block was refused: a shard refused its edits, or there was no memory for the lists of all
// edits. Nothing has changed in any shard.
class refused_shard : public refused {
    std::size_t number;

public:
    refused_shard(int code, std::size_t shard) : refused(code), number(shard) {}

    // The number of the shard, from 0. It is the number of the shards if the directory refused its
    // own edits, or if there was no memory for the lists.
    std::size_t shard() const noexcept { return number; }
};

// Why a block was refused: a shard or the directory has a version that is not the writer's last, so
// another has written. No call leads to this.
class overtaken : public refused_shard {
public:
    explicit overtaken(std::size_t shard) : refused_shard(MST_OVERTAKEN, shard) {}
};

// What a call that tries to write has done.
struct [[nodiscard]] tried {
    bool is_busy = false;           // another pass has the turn, and nothing is written
    std::optional<std::string> old; // the value that the key had before, if it had one

    explicit operator bool() const noexcept { return !is_busy; }
};

// What a call that tries to make a batch has done.
struct [[nodiscard]] applied {
    bool is_busy = false; // another pass has the turn, and nothing is written

    explicit operator bool() const noexcept { return !is_busy; }
};

// What a call that tries to migrate has done.
struct [[nodiscard]] migrated {
    bool is_busy = false;      // another pass has the turn, and nothing is written
    std::optional<format> was; // the format before, if it is not busy

    explicit operator bool() const noexcept { return !is_busy; }
};

// What a count of rows has found.
struct [[nodiscard]] counted {
    bool is_busy = false;              // another pass has the turn, and nothing is counted
    std::optional<std::uint32_t> rows; // nothing if some pass pins a version

    explicit operator bool() const noexcept { return !is_busy; }
};

// Pairs by rising keys, which are read in pages of at most 64: a range for one loop, or for one
// algorithm. It takes memory for one page, and a loop may end at any pair. The object that it comes
// from, a pinned pass say, must neither move nor go meanwhile. A refusal is thrown by begin, for the
// first page, or by the step to the next pair, and then no pair is left: MST_BAD_KEY if a bound has
// more than 32 bytes, MST_CLOSED once the pin has ended, or MST_MEMORY.
//
//     for (auto &&[key, value] : then.items("a", "m")) use(key, value);
template <typename Of> class [[nodiscard]] items {
    friend Of;
    static constexpr std::size_t page_most = 64; // for which the first room of a range is enough

    Of *of;
    std::string from, to;
    std::string last; // the last key of the page, empty before the first page
    std::vector<pair> page;
    std::size_t place = 0; // of the pair that is next
    bool is_last = false;  // no page follows

    items(Of *whose, std::string_view low, std::string_view high)
        : of(whose), from(low), to(high) {}

    // Whether a pair is next, perhaps one of the next page. That begins with the last pair of the
    // page before, if it is still there.
    bool has_next() {
        if (place == page.size() && !is_last) {
            is_last = true; // also after an exception
            auto next = of->range(last.empty() ? from : last, to, page_most);
            std::size_t first = !next.empty() && next.front().first == last ? 1 : 0;
            if (!next.empty()) last = next.back().first;
            page = std::move(next);
            place = first;
            is_last = page.size() < page_most;
        }
        return place < page.size();
    }

public:
    // Where a loop is. All iterators of a range go on together. A loop may move the pair out.
    class iterator {
        friend class items;
        items *in = nullptr; // null at the end

        explicit iterator(items *range) : in(range->has_next() ? range : nullptr) {}

        // A pair that the iterator has left.
        struct left {
            pair value;
            pair &operator*() noexcept { return value; }
        };

    public:
        // What algorithms ask of an iterator.
        using iterator_category = std::input_iterator_tag;
        using value_type = pair;
        using difference_type = std::ptrdiff_t;
        using pointer = pair *;
        using reference = pair &;

        iterator() noexcept = default;

        // Returns the pair.
        pair &operator*() const noexcept { return in->page[in->place]; }

        // Returns the place of the pair.
        pair *operator->() const noexcept { return &**this; }

        // Goes on to the next pair, or to the end.
        iterator &operator++() {
            auto *range = std::exchange(in, nullptr); // it is at the end after an exception
            range->place++;
            if (range->has_next()) in = range;
            return *this;
        }

        // Does the same, and returns what has the pair before.
        left operator++(int) {
            left before{std::move(**this)};
            ++*this;
            return before;
        }

        friend bool operator==(const iterator &one, const iterator &other) noexcept {
            return one.in == other.in;
        }
        friend bool operator!=(const iterator &one, const iterator &other) noexcept {
            return one.in != other.in;
        }
    };

    items(const items &) = delete;
    items &operator=(const items &) = delete;

    // Returns an iterator at the pair that is next, or at the end. The first call reads a page.
    iterator begin() { return iterator(this); }

    // Returns the end.
    iterator end() noexcept { return iterator(); }
};

} // namespace mst
