// The reads of mst_store.hpp, by a pass or while it pins a version.
#pragma once
#include "mst_differing.hpp"
#include "mst_store.h"
#include "mst_store_answers.hpp"

#include <algorithm>
#include <cstddef>
#include <cstdint>
#include <memory>
#include <optional>
#include <string>
#include <string_view>
#include <type_traits>
#include <utility>
#include <vector>

namespace mst {

namespace detail {

inline const std::uint8_t *bytes(std::string_view text) noexcept {
    return reinterpret_cast<const std::uint8_t *>(text.data());
}

// A hand, and the room for proofs, which grows to the longest: so a proof is made once.
struct held {
    mst_pass pass = MST_PASS_CLOSED;
    std::vector<std::uint8_t> room;
};

} // namespace detail

// The reads, which a pass and a pinned pass both have. The hand lies on the heap, so that a pass
// may be moved or closed while it is pinned.
class reads {
protected:
    std::shared_ptr<detail::held> hand;

    reads() noexcept = default;
    explicit reads(std::shared_ptr<detail::held> of) noexcept : hand(std::move(of)) {}
    ~reads() = default;

    mst_pass *at() const {
        if (hand == nullptr) throw refused(MST_CLOSED);
        return &hand->pass;
    }

    static const std::uint8_t *bytes(std::string_view text) noexcept {
        return detail::bytes(text);
    }

    static std::string text(const std::uint8_t *room, std::size_t length) {
        return std::string(reinterpret_cast<const char *>(room), length);
    }

    static void require_done(int code) {
        if (code != MST_OK) throw refused(code);
    }

    static std::optional<std::string> told(int code, const std::uint8_t *room) {
        if (code >= 0) return text(room, static_cast<std::size_t>(code));
        if (code == MST_ABSENT) return std::nullopt;
        throw refused(code);
    }

    static mst::format told_format(int code) {
        if (code < 0) throw refused(code);
        return static_cast<mst::format>(code);
    }

    static std::vector<pair> pairs(const std::uint8_t *room, std::size_t count) {
        std::vector<pair> found;
        found.reserve(count);
        std::size_t at = 0;
        while (found.size() < count) {
            mst_pair one;
            at = mst_pair_at(room, at, &one);
            found.emplace_back(text(one.key, one.key_length), text(one.value, one.value_length));
        }
        return found;
    }

    // The pairs that mst_range or mst_page_after finds.
    std::vector<pair> listing(decltype(mst_range) find, std::string_view low, std::string_view to,
                              std::size_t limit) {
        auto most = static_cast<std::uint32_t>(std::min<std::size_t>(limit, UINT32_MAX));
        std::vector<std::uint8_t> room(MST_PAIR_LONGEST * std::min<std::size_t>(limit, 64));
        for (;;) {
            std::size_t count = 0, length = 0;
            int code = find(at(), bytes(low), low.size(), bytes(to), to.size(), most,
                            room.data(), room.size(), &count, &length);
            if (code == MST_OK) return pairs(room.data(), count);
            if (code != MST_SHORT_ROOM) throw refused(code);
            room.resize(length); // by the next try a free pass may have more: so this is a loop
        }
    }

public:
    reads(const reads &) = delete;
    reads &operator=(const reads &) = delete;

    // Returns the value of the key, or nothing if the key is absent.
    std::optional<std::string> get(std::string_view key) {
        std::uint8_t room[MST_VALUE_LONGEST];
        return told(mst_get(at(), bytes(key), key.size(), room, sizeof room), room);
    }

    // Returns the pair of the least key above `after`, or of the least key of all if `after` is
    // empty; nothing if there is no such pair.
    std::optional<pair> next(std::string_view after = {}) {
        std::uint8_t key[MST_KEY_LONGEST], room[MST_VALUE_LONGEST];
        std::size_t length = 0;
        auto value = told(mst_next(at(), bytes(after), after.size(), key, sizeof key, &length,
                                   room, sizeof room), room);
        if (!value) return std::nullopt;
        return pair(text(key, length), std::move(*value));
    }

    // Returns the first pairs, at most `limit`, with from <= key < to, all of one version. An empty
    // bound does not bind.
    std::vector<pair> range(std::string_view from = {}, std::string_view to = {},
                            std::size_t limit = SIZE_MAX) {
        return listing(mst_range, from, to, limit);
    }

    // As range, of the pairs with after < key < to: the page behind a pair that was the last of the
    // one before. Behind an empty key are all pairs. The pages of a pinned pass are of one version;
    // those of a free pass are not, if another pass writes between them.
    std::vector<pair> page_after(std::string_view after, std::string_view to = {},
                                 std::size_t limit = SIZE_MAX) {
        return listing(mst_page_after, after, to, limit);
    }

    // Returns the pairs with from <= key < to, for a loop, which reads them in pages. An empty
    // bound does not bind. Those of a pinned pass are of one version; those of a free pass are not,
    // if another pass writes between two pages.
    //
    //     for (auto &&[key, value] : then.items()) use(key, value);
    mst::items<reads> items(std::string_view from = {}, std::string_view to = {}) & {
        return mst::items<reads>(this, from, to);
    }

    // Returns the root digest of the version. It depends on its pairs and its format alone.
    digest root() {
        digest root;
        int code = mst_root(at(), root.data(), root.size());
        if (code < 0) throw refused(code);
        return root;
    }

    // Returns the proof of the key's answer, for mst_verify and the format and root digest of the
    // same version.
    std::vector<std::uint8_t> prove(std::string_view key) {
        mst_pass *pass = at();
        auto &room = hand->room;
        if (room.empty()) room.resize(4096);
        for (;;) {
            std::size_t length = 0;
            int code = mst_prove(pass, bytes(key), key.size(), room.data(), room.size(), &length);
            if (code == MST_OK) return {room.data(), room.data() + length};
            if (code != MST_SHORT_ROOM) throw refused(code);
            room.resize(std::max(length, 2 * room.size())); // a loop as in range
        }
    }

    // Returns where the map differs from another one of the same format, of which only this root
    // digest need be trusted: by rising keys, what mst_differing tells. `ask` is called with a key,
    // a std::string_view, and a number, and returns this piece of the other map's proof of the key
    // as a std::vector<std::uint8_t>. It does not use this pass. What it throws is thrown.
    //
    //     then.differing(root, [&](std::string_view key, std::uint32_t number) {
    //         return mst::proof_piece(other.prove(key), number).value(); });
    template <typename Ask> std::vector<difference> differing(const digest &root, Ask &&ask) {
        return detail::walk<std::remove_reference_t<Ask>>(ask).over(at(), root);
    }

    // Returns the number of the version: how many writes and migrations there were before it.
    // Sent with a message, it, or that of made, is all that read-your-writes over threads needs: a
    // pass that is not pinned, and has here at least the number that it was sent, has seen, in this
    // call and in each later one, all that the sender had written and read.
    std::uint64_t version() {
        std::uint64_t number = 0;
        require_done(mst_version(at(), &number));
        return number;
    }

    // Returns how many pairs the version has. It counts them anew each time, by the nodes of the
    // tree.
    std::uint64_t len() {
        std::uint64_t count = 0;
        require_done(mst_len(at(), &count));
        return count;
    }

    // Returns the format of the version, in which its root digest and its proofs are.
    mst::format format() { return told_format(mst_format(at())); }
};

// A pass while it pins a version: all reads are of that version. The pin ends with the object, or
// with its pass: then reads by the object are refused. It is used in the thread of its pass.
class [[nodiscard]] pinned : public reads {
    friend class pass;
    explicit pinned(std::shared_ptr<detail::held> of) : reads(std::move(of)) {
        require_done(mst_pin(at()));
    }

public:
    pinned(pinned &&other) noexcept : reads(std::move(other.hand)) {}
    pinned &operator=(pinned &&) = delete;
    ~pinned() { unpin(); }

    // Ends the pin before the object ends. No read may follow: it is refused.
    void unpin() noexcept {
        if (auto of = std::move(hand)) mst_unpin(&of->pass); // has no effect after its pass
    }
};

} // namespace mst
