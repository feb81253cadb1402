// Groups from C++17: several threads that write a sharded map by its one writer (group commit).
// While one of them makes a block, the edits of the others wait, and then all that wait are made as
// one block.
//
//     auto [writer, readers] = mst::sharded::open({1000, 1, {"m"}});
//     mst::sharded::group group(std::move(writer));
//     std::thread other([&] { group.apply(mst::batch().put("apple", "30")); });
//     auto number = group.apply(mst::batch().put("pear", "12"));     // of the block that has it
//     other.join();
//     writer = group.close();                                        // once all threads are done
//
// All else is as in mst_sharded.hpp.
#pragma once
#include "mst_sharded.hpp"

namespace mst {

namespace sharded {

// The writer of a sharded map for any number of threads, which call apply of one object. It is
// moved, never copied, and closes itself, and the writer with it. While it is moved, closed or
// destroyed no other thread may be in a call of it.
class group {
    std::shared_ptr<mst::detail::sharded_held> hand; // the writer's: empty until the group ends
    mst_sharded_group *shared = nullptr;

    mst_sharded_group *at() const {
        if (shared == nullptr) throw refused(MST_CLOSED);
        return shared;
    }

public:
    group() noexcept = default;

    // Takes the writer. It is refused, and the writer is as it was: with MST_CLOSED if that was
    // closed, moved or never opened, with MST_WRONG_STATE while a block of it is begun, and with
    // MST_MEMORY if there is none.
    explicit group(writer &&of) {
        mst::detail::require(mst_sharded_group_open(of.at(), &shared));
        hand = std::move(of.hand);
    }

    group(group &&other) noexcept
        : hand(std::move(other.hand)), shared(std::exchange(other.shared, nullptr)) {}
    group &operator=(group &&other) noexcept {
        if (this != &other) {
            (void)close();
            hand = std::move(other.hand);
            shared = std::exchange(other.shared, nullptr);
        }
        return *this;
    }
    ~group() { (void)close(); }

    // Makes the edits in a block of the writer, and returns its number once they are published. Any
    // number of threads may be in this call at a time. Calls whose edits were made as one block are
    // told the same number, and those that a thread is told rise. In a block the edits of each call
    // follow those of the calls that came before it. A call of no edits gets a number too. The root
    // digest is not told: a snapshot that is taken afterwards has it, if it is of the same number.
    //
    // If the call is refused, none of its edits is made, and no other call is refused with it. It
    // throws what writer::apply would throw of these edits alone, after those of the calls before:
    // refused_edit if a key or a value has a bad length, with the place among these edits;
    // refused_shard, or overtaken, with the shard that refused them, such as one that is full. Once
    // the group was closed or moved, it throws refused with MST_CLOSED.
    //
    // It reads nothing: another thread may change what a reader or a snapshot tells before these
    // edits are made. So if edits depend on what the map has, as those of a counter do, hold a lock
    // around the read and this call in all threads that write. Otherwise updates may be lost.
    //
    // A thread leaves this call by its return, or by what it throws. If a thread ends within it, by
    // whatever cause, others may wait without end, and the group must not be closed or destroyed.
    std::uint64_t apply(const batch &edits) {
        const auto &packed = edits.edits;
        return mst::detail::applied([&](auto... told) {
            return mst_sharded_group_apply(at(), packed.data(), packed.size(), told...);
        });
    }

    // Ends the group before the object ends, and returns its writer, whose last block is that of
    // the highest number that a call was told. If nobody keeps the writer, it is closed too. All
    // later calls of the group are refused. A group that has no writer returns one that is closed.
    writer close() noexcept {
        writer back;
        if (auto of = std::exchange(shared, nullptr)) {
            mst_sharded_group_close(of, &hand->handle);
            back.hand = std::move(hand);
        }
        return back;
    }
};

} // namespace sharded

} // namespace mst
