// Sharded maps from C++17: one map over many stores, its shards, each for an interval of keys. A
// block is edits of all shards as one version of the whole map, with one number and one root
// digest, made whole or not at all.
//
//     auto [writer, readers] = mst::sharded::open({1000, 1, {"m"}}); // two shards of 1,000 rows
//     auto number = writer.apply(mst::batch().put("apple", "30"));  // 1
//     auto then = readers[0].snapshot();            // of one block, unless SHA-256 collides
//     auto root = then.root();                                      // as writer.root()
//
// The writer alone makes blocks, and readers take snapshots of them. Each is one thread's at a
// time; it is moved, never copied, and closes itself. The map is freed with the last of them. By
// mst_sharded_group.hpp several threads share a writer. All else is as in mst_store.hpp.
#pragma once
#include "mst_sharded_reads.hpp"
#include "mst_store.hpp"

#include <thread>
#include <utility>

namespace mst {

namespace detail {

// The splits as mst_sharded_open takes them.
inline std::vector<std::uint8_t> packed(const std::vector<std::string> &splits) {
    std::vector<std::uint8_t> bytes_of(MST_SPLIT_LONGEST * splits.size());
    std::size_t length = 0;
    for (const auto &split : splits)
        length = mst_split(bytes_of.data(), length, bytes(split), split.size());
    bytes_of.resize(length);
    return bytes_of;
}

// The number of a block that a call has made. The shard is the one that refused its edits, if the
// code says that one did.
inline std::uint64_t block(int code, std::uint64_t number, std::size_t shard) {
    switch (code) {
    case MST_OK: return number;
    case MST_OVERTAKEN: throw overtaken(shard);
    case MST_BUSY:
    case MST_MEMORY:
    case MST_VERSIONS_SPENT:
    case MST_NO_FREE_ROWS: throw refused_shard(code, shard);
    default: throw refused(code);
    }
}

// The number of the block that a call makes of edits.
template <typename Call> std::uint64_t applied(Call call) {
    std::size_t place = 0, shard = 0;
    std::uint64_t number = 0;
    int code = call(&place, &shard, &number);
    if (code == MST_BAD_KEY || code == MST_BAD_VALUE) throw refused_edit(code, place);
    return block(code, number, shard);
}

// The code of a call that ends a block, once no part of it is just being prepared.
template <typename Call> int ended(Call call) {
    for (;;) {
        std::size_t shard = SIZE_MAX; // told where a shard is busy, but not where a part is
        int code = call(&shard);
        if (code != MST_BUSY || shard != SIZE_MAX) return code;
        std::this_thread::yield();
    }
}

} // namespace detail

namespace sharded {

// A part of a block that was begun: the edits of one shard. It is one thread's at a time, and closes
// itself. If that is before its block ends, the block loses nothing.
class part {
    friend class writer;
    mst_handle handle = MST_HANDLE_CLOSED;

public:
    part() noexcept = default;
    part(part &&other) noexcept : handle(other.handle) { other.handle = MST_HANDLE_CLOSED; }
    part &operator=(part &&other) noexcept {
        if (this != &other) {
            close();
            handle = other.handle;
            other.handle = MST_HANDLE_CLOSED;
        }
        return *this;
    }
    ~part() { close(); }

    // Makes the edits in free rows, and hashes them: readers see nothing of it. Parts may be
    // prepared in any order, each in any thread, or not at all. Returns whether nothing is left to
    // do. It throws nothing: if the shard refuses its edits, block::commit says why.
    bool prepare() noexcept { return mst_sharded_prepare(&handle) == MST_OK; }

    // Closes the part before the object ends. A later prepare does nothing, and returns false.
    void close() noexcept { mst_sharded_close(&handle); }
};

// A block that was begun, by writer::begin. Until it ends, the calls of its writer are refused, with
// MST_WRONG_STATE. If the object ends first, the block is cancelled. If the writer is closed first,
// the block is lost.
class [[nodiscard]] block {
    friend class writer;
    std::shared_ptr<mst::detail::sharded_held> hand; // that of the writer

    block() noexcept = default;

public:
    block(block &&other) noexcept : hand(std::move(other.hand)) {}
    block &operator=(block &&other) noexcept {
        if (this != &other) {
            cancel();
            hand = std::move(other.hand);
        }
        return *this;
    }
    ~block() { cancel(); }

    // Makes the block, as writer::apply makes one of the same edits: returns its number, or throws
    // why it is refused, and nothing has changed. It prepares the parts that are not prepared, and
    // waits for one that another thread is just preparing. No other call may follow.
    std::uint64_t commit() {
        auto of = std::exchange(hand, nullptr);
        if (of == nullptr) throw refused(MST_CLOSED);
        std::size_t refusing = 0;
        std::uint64_t number = 0;
        int code = mst::detail::ended([&](std::size_t *shard) {
            int told = mst_sharded_commit(&of->handle, shard, &number);
            refusing = *shard;
            return told;
        });
        return mst::detail::block(code, number, refusing);
    }

    // Takes the block back before the object ends: nothing has changed. It waits for a part that
    // another thread is just preparing. No other call may follow.
    void cancel() noexcept {
        if (auto of = std::exchange(hand, nullptr))
            mst::detail::ended([&](std::size_t *) { return mst_sharded_cancel(&of->handle); });
    }
};

// The writer of a sharded map, which alone makes its blocks.
class writer : public member {
    friend class snapshot;
    friend class group; // of mst_sharded_group.hpp
    friend opened open(const options &);

public:
    writer() noexcept = default;
    writer(writer &&other) noexcept : member(std::move(other.hand)) {}
    writer &operator=(writer &&other) noexcept {
        if (this != &other) {
            close();
            hand = std::move(other.hand);
        }
        return *this;
    }
    ~writer() { close(); }

    // Returns how many rows are free to the next block in the shard with this number, from 0, or in
    // the directory, which has the number of the shards; nothing if there is no such shard.
    std::optional<std::uint32_t> free_rows(std::size_t shard) {
        std::uint32_t rows = 0;
        int code = mst_sharded_free_rows(at(), shard, &rows);
        if (code == MST_ABSENT) return std::nullopt;
        mst::detail::require(code);
        return rows;
    }

    // Makes the edits of all shards as the next block, and returns its number: one more than that
    // of the block before. Readers see none of them before all are made. No edits make a block too.
    // If the block is refused, nothing has changed in any shard: refused_edit tells which edit is
    // none, and refused_shard, or overtaken, which shard refused its edits.
    std::uint64_t apply(const batch &edits) {
        const auto &packed = edits.edits;
        return mst::detail::applied([&](auto... told) {
            return mst_sharded_apply(at(), packed.data(), packed.size(), told...);
        });
    }

    // As apply, but by at most so many threads: this one, and others, which have ended when it
    // returns. Each makes and hashes the edits of other shards. It starts them anew each time, so a
    // block of few edits may take longer than by apply. Where a thread cannot be started, the
    // others do its work.
    std::uint64_t apply_in_threads(const batch &edits, std::size_t threads) {
        const auto &packed = edits.edits;
        return mst::detail::applied([&](auto... told) {
            return mst_sharded_apply_in_threads(at(), packed.data(), packed.size(), threads,
                                                told...);
        });
    }

    // Begins the next block, of these edits, and returns it with its parts, one for each shard, for
    // threads that the caller has. If an edit is none, or there is no memory, nothing has changed.
    //
    //     auto [block, parts] = writer.begin(edits);
    //     std::thread other([&part = parts[0]] { part.prepare(); });
    //     parts[1].prepare();
    //     other.join();
    //     auto number = block.commit();
    begun begin(const batch &edits);

    // Returns the value of the key in the last block, or nothing if the key is absent: so a block
    // can depend on what the map has.
    std::optional<std::string> get(std::string_view key) { return value_told(key); }

    // Returns the number of the last block; 0 is that of the empty map.
    std::uint64_t number() { return number_told(); }

    // Returns the root digest of all shards after the last block, as a snapshot of it has it.
    digest root() { return root_told(); }

    // Closes the writer before the object ends: then no more blocks are made, and readers go on.
    // All later calls are refused.
    void close() noexcept { close_hand(); }
};

// A block that was begun, and its parts, in the order of the shards.
struct begun {
    sharded::block block;
    std::vector<part> parts;
};

inline begun writer::begin(const batch &edits) {
    std::vector<mst_handle> hands(shards()); // null, as MST_HANDLE_CLOSED
    begun all{block(), std::vector<part>(hands.size())};
    mst::detail::applied([&](std::size_t *place, std::size_t *shard, std::uint64_t *) {
        *shard = hands.size(); // as apply tells it, if there is no memory for lists
        return mst_sharded_begin(at(), edits.edits.data(), edits.edits.size(), place, hands.data(),
                                 hands.size());
    });
    all.block.hand = hand;
    // what the hands hold moves, once, as by open
    for (std::size_t i = 0; i < hands.size(); i++) all.parts[i].handle = hands[i];
    return all;
}

inline std::uint64_t snapshot::copy_to(writer &other) {
    std::size_t shard = 0;
    std::uint64_t number = 0;
    int code = mst_sharded_copy(at(), other.at(), &shard, &number);
    return mst::detail::block(code, number, shard);
}

// The shape and the format of a sharded map. The rows have to be given.
struct options {
    std::uint32_t rows = 0;  // of each shard, 4 to 65,535
    std::size_t readers = 0; // 0 to 31
    // At most 1,023 keys that rise strictly, from above that of one zero byte: the keys from one of
    // them on, and below the next, are those of a shard.
    std::vector<std::string> splits = {};
    mst::format format = mst::format::one;
};

// The writer of a map, and its readers.
//
//     auto [writer, readers] = mst::sharded::open({1000, 3, {"h", "p"}});
struct opened {
    sharded::writer writer;
    std::vector<reader> readers;
};

// Opens a sharded map of the empty map, which is block 0, and returns its writer and its readers.
// The map keeps its format; snapshot::copy_to copies it to a map of another.
inline opened open(const options &wanted) {
    if (wanted.readers >= MST_PASSES_MOST) throw refused(MST_BAD_SHAPE);
    auto splits = mst::detail::packed(wanted.splits);
    opened all{writer(), std::vector<reader>(wanted.readers)};
    std::vector<mst_handle> hands(wanted.readers + 1); // null, as MST_HANDLE_CLOSED
    all.writer.hand = std::make_shared<mst::detail::sharded_held>();
    for (auto &one : all.readers) one.hand = std::make_shared<mst::detail::sharded_held>();
    mst::detail::require(mst_sharded_open(static_cast<std::uint32_t>(wanted.format), wanted.rows,
                                          splits.data(), splits.size(), hands.data(),
                                          hands.size()));
    // what the hands hold moves, once: those of the array are not looked at again
    all.writer.hand->handle = hands[0];
    for (std::size_t i = 0; i < all.readers.size(); i++)
        all.readers[i].hand->handle = hands[i + 1];
    return all;
}

} // namespace sharded

} // namespace mst
