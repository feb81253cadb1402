// The readers of mst_sharded.hpp, and the snapshots that they take.
#pragma once
#include "mst_store.hpp"

namespace mst {

namespace detail {

// A hand of a sharded map, and the room for proofs.
struct sharded_held {
    mst_handle handle = MST_HANDLE_CLOSED;
    std::vector<std::uint8_t> room;
};

inline int require(int code) {
    if (code < 0) throw refused(code);
    return code;
}

// The value that a call has written to the room, or nothing if the key is absent.
inline std::optional<std::string> told(int code, const std::uint8_t *room) {
    if (code == MST_ABSENT) return std::nullopt;
    auto length = static_cast<std::size_t>(require(code));
    return std::string(reinterpret_cast<const char *>(room), length);
}

// The pairs that a call lists in a room. Of a snapshot the second room is long enough.
template <typename Call> std::vector<pair> pairs(Call call) {
    std::vector<std::uint8_t> room(MST_PAIR_LONGEST * 64);
    std::size_t count = 0, length = 0;
    int code = call(room, count, length);
    if (code == MST_SHORT_ROOM) {
        room.resize(length);
        code = call(room, count, length);
    }
    require(code);
    std::vector<pair> found;
    found.reserve(count);
    std::size_t at = 0;
    while (found.size() < count) {
        mst_pair one;
        at = mst_pair_at(room.data(), at, &one);
        found.emplace_back(
            std::string(reinterpret_cast<const char *>(one.key), one.key_length),
            std::string(reinterpret_cast<const char *>(one.value), one.value_length));
    }
    return found;
}

// The proof that a call writes to the room, which grows to the longest.
template <typename Call>
std::vector<std::uint8_t> proof(std::vector<std::uint8_t> &room, Call call) {
    if (room.empty()) room.resize(4096);
    for (;;) {
        std::size_t length = 0;
        int code = call(room, length);
        if (code == MST_OK) return {room.data(), room.data() + length};
        if (code != MST_SHORT_ROOM) throw refused(code);
        room.resize(std::max(length, 2 * room.size()));
    }
}

} // namespace detail

namespace sharded {

class writer;
struct begun;
struct opened;
struct options;

// What the writer, a reader and a snapshot have in common. The hand lies on the heap, so that a
// reader may be moved or closed while it has a snapshot.
class member {
protected:
    std::shared_ptr<mst::detail::sharded_held> hand;

    member() noexcept = default;
    explicit member(std::shared_ptr<mst::detail::sharded_held> of) noexcept : hand(std::move(of)) {}
    ~member() = default;

    mst_handle *at() const {
        if (hand == nullptr) throw refused(MST_CLOSED);
        return &hand->handle;
    }

    void close_hand() noexcept {
        if (auto of = std::move(hand)) mst_sharded_close(&of->handle);
    }

    std::uint64_t number_told() const {
        std::uint64_t number = 0;
        mst::detail::require(mst_sharded_number(at(), &number));
        return number;
    }

    digest root_told() const {
        digest root;
        mst::detail::require(mst_sharded_root(at(), root.data(), root.size()));
        return root;
    }

    std::optional<std::string> value_told(std::string_view key) const {
        std::uint8_t room[MST_VALUE_LONGEST];
        int code = mst_sharded_get(at(), mst::detail::bytes(key), key.size(), room, sizeof room);
        return mst::detail::told(code, room);
    }

public:
    member(const member &) = delete;
    member &operator=(const member &) = delete;

    // Returns how many shards there are.
    std::size_t shards() const {
        return static_cast<std::size_t>(mst::detail::require(mst_sharded_shards(at())));
    }
};

// A reader while it has a snapshot of exactly one block, unless SHA-256 collides: all reads are of
// this block. Its pins end with the object, or with its reader: then reads by the object are
// refused. It is used in the thread of its reader.
class [[nodiscard]] snapshot : public member {
    friend class reader;
    // The hand holds the snapshot already.
    explicit snapshot(std::shared_ptr<mst::detail::sharded_held> of) noexcept
        : member(std::move(of)) {}

public:
    snapshot(snapshot &&other) noexcept : member(std::move(other.hand)) {}
    snapshot &operator=(snapshot &&) = delete;
    ~snapshot() { release(); }

    // Returns the number of the block: how many blocks led to this map.
    std::uint64_t number() { return number_told(); }

    // Returns the root digest of all shards. It depends on their pairs, their format and the splits
    // alone.
    digest root() { return root_told(); }

    // Returns the value of the key, or nothing if the key is absent.
    std::optional<std::string> get(std::string_view key) { return value_told(key); }

    // Returns the pair of the least key above `after`, or of the least key of all if `after` is
    // empty; nothing if there is no such pair.
    std::optional<pair> next(std::string_view after = {}) {
        std::uint8_t key[MST_KEY_LONGEST], room[MST_VALUE_LONGEST];
        std::size_t length = 0;
        int code = mst_sharded_next(at(), mst::detail::bytes(after), after.size(), key, sizeof key,
                                    &length, room, sizeof room);
        auto value = mst::detail::told(code, room);
        if (!value) return std::nullopt;
        return pair(std::string(reinterpret_cast<const char *>(key), length), std::move(*value));
    }

    // Returns the first pairs, at most `limit`, with from <= key < to. An empty bound does not
    // bind.
    std::vector<pair> range(std::string_view from = {}, std::string_view to = {},
                            std::size_t limit = SIZE_MAX) {
        auto most = static_cast<std::uint32_t>(std::min<std::size_t>(limit, UINT32_MAX));
        return mst::detail::pairs([&](auto &room, std::size_t &count, std::size_t &length) {
            return mst_sharded_range(at(), mst::detail::bytes(from), from.size(),
                                     mst::detail::bytes(to), to.size(), most, room.data(),
                                     room.size(), &count, &length);
        });
    }

    // Returns the pairs with from <= key < to, for a loop, which reads them in pages. An empty
    // bound does not bind.
    mst::items<snapshot> items(std::string_view from = {}, std::string_view to = {}) & {
        return mst::items<snapshot>(this, from, to);
    }

    // Returns of each shard its lower bound, with its root digest of 32 bytes and its upper bound,
    // which is empty if there is none: the pairs whose root digest is that of the snapshot.
    std::vector<pair> directory() {
        return mst::detail::pairs([&](auto &room, std::size_t &count, std::size_t &length) {
            return mst_sharded_directory(at(), room.data(), room.size(), &count, &length);
        });
    }

    // Returns how many pairs all shards have together. It counts them anew each time, by the nodes
    // of their trees.
    std::uint64_t len() {
        std::uint64_t count = 0;
        mst::detail::require(mst_sharded_len(at(), &count));
        return count;
    }

    // Returns the format of the map, in which the root digest and the proofs are.
    mst::format format() {
        return static_cast<mst::format>(mst::detail::require(mst_sharded_format(at())));
    }

    // Returns the proof of the key's answer, for mst_verify_sharded and the format and root digest
    // of this snapshot.
    std::vector<std::uint8_t> prove(std::string_view key) {
        mst_handle *from = at();
        return mst::detail::proof(hand->room, [&](auto &room, std::size_t &length) {
            return mst_sharded_prove(from, mst::detail::bytes(key), key.size(), room.data(),
                                     room.size(), &length);
        });
    }

    // Puts all pairs, as one block, into another sharded map, by its writer, and returns the number
    // of this block. The other map may be of the other format, with other splits, or with more
    // rows: so a map is migrated, split anew, or enlarged, while its readers go on. Keys that the
    // other map has besides keep their values. Blocks that are made after the snapshot are not
    // copied. If the block is refused, nothing has changed in any shard, as with writer::apply.
    // There may also be no memory for the list of all pairs.
    std::uint64_t copy_to(writer &other);

    // Ends the pins before the object ends. No read may follow: it is refused.
    void release() noexcept {
        if (auto of = std::move(hand)) mst_sharded_release(&of->handle);
    }
};

// A reader of a sharded map: it takes snapshots, one at a time.
class reader : public member {
    friend opened open(const options &);

public:
    reader() noexcept = default;
    reader(reader &&other) noexcept : member(std::move(other.hand)) {}
    reader &operator=(reader &&other) noexcept {
        if (this != &other) {
            close();
            hand = std::move(other.hand);
        }
        return *this;
    }
    ~reader() { close(); }

    // Returns the value that the key has now, or nothing if the key is absent. Two such reads need
    // not be of one block. While the reader has a snapshot, it reads the snapshot's block.
    std::optional<std::string> get(std::string_view key) { return value_told(key); }

    // Returns a snapshot of one block, or nothing while a block is just being published.
    std::optional<sharded::snapshot> try_snapshot() {
        int code = mst_sharded_try_snapshot(at());
        if (code == MST_MOVING) return std::nullopt;
        mst::detail::require(code);
        return sharded::snapshot(hand);
    }

    // As try_snapshot, but tries again while a block is being published. It is not promised when a
    // try falls between two blocks; and if the writer's thread has died within apply, none may.
    sharded::snapshot snapshot() {
        mst::detail::require(mst_sharded_snapshot(at()));
        return sharded::snapshot(hand);
    }

    // Closes the reader before the object ends, and ends its pins if it has a snapshot. All later
    // calls are refused.
    void close() noexcept { close_hand(); }
};

} // namespace sharded

} // namespace mst
