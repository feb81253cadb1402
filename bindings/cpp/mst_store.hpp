// The store from C++17: an ordered map of short keys and values with a root digest, proofs, and
// versions that stay readable while they are pinned.
//
//     auto passes = mst::open({1000, 2});         // 1,000 rows, two passes
//     passes[0].put("apple", "30");
//     auto value = passes[1].get("apple");        // std::optional<std::string>
//     passes[0].migrate(mst::format::two);        // shorter proofs; a store opens in format one
//
// From C++20 on the options may be named: mst::open({.rows = 1000, .passes = 2}).
//
// A pass is one thread's at a time; it is moved, never copied, and closes itself. The store is
// freed with its last pass. Refusals are exceptions of the class mst::refused. That another pass
// has the turn is no refusal: the calls that try, and those that wait for a time, return it. If C++
// has no memory for an answer, a call throws std::bad_alloc, and what it has written stays. A call
// has room for each old value, so MST_SHORT_ROOM, with which a put has been made all the same, is
// never thrown. Keys have 1 to 32 bytes, values 0 to 64. What the header mst_store.h says that a
// caller owes, callers of this one owe too.
#pragma once
#include "mst_store.h"
#include "mst_store_answers.hpp"
#include "mst_store_reads.hpp"

#include <chrono>
#include <cstddef>
#include <cstdint>
#include <memory>
#include <optional>
#include <string>
#include <string_view>
#include <utility>
#include <vector>

namespace mst {

// The version of the library that is linked, as MST_VERSION_TEXT is that of mst_store.h.
inline const char *library_version() noexcept { return mst_library_version(); }

namespace sharded {
class writer;
class group;
}

// Edits that a pass makes as one version, and the writer of a sharded map as one block, in their
// order: of those of one key the last decides.
//
//     pass.apply(mst::batch().put("apple", "30").remove("pear"));
class batch {
    friend class pass;
    friend class sharded::writer;
    friend class sharded::group;
    std::vector<std::uint8_t> edits; // as mst_try_apply takes them
    std::size_t count = 0;

    template <typename Write> batch &add(Write write) {
        std::size_t length = edits.size();
        edits.resize(length + MST_EDIT_LONGEST);
        edits.resize(write(edits.data(), length));
        count++;
        return *this;
    }

public:
    // Adds a put. If a length is out of the limits, the call that makes the batch is refused.
    batch &put(std::string_view key, std::string_view value) {
        return add([&](std::uint8_t *room, std::size_t at) {
            return mst_edit_put(room, at, detail::bytes(key), key.size(), detail::bytes(value),
                                value.size());
        });
    }

    // Adds a remove: that of a key that is absent changes nothing.
    batch &remove(std::string_view key) {
        return add([&](std::uint8_t *room, std::size_t at) {
            return mst_edit_remove(room, at, detail::bytes(key), key.size());
        });
    }

    // Returns how many edits there are.
    std::size_t size() const noexcept { return count; }

    // Takes all edits out.
    void clear() noexcept {
        edits.clear();
        count = 0;
    }
};

// The shape and the format of a store. The rows and the passes have to be given.
//
//     mst::options wanted;
//     wanted.rows = 1000;
//     wanted.passes = 2;
struct options {
    std::uint32_t rows = 0; // 4 to 65,535: a map takes one for each of its pairs and nodes
    std::size_t passes = 0; // 1 to 32
    mst::format format = mst::format::one;
};

// A pass of a store: reads of the current version, and writes.
class pass : public reads {
    friend std::vector<pass> open(const options &);

    // Each of these is by a call that tries, by the one that waits, or by the one that waits for no
    // longer than a time, which stands last.
    template <typename Call, typename... Time>
    tried put_by(Call call, std::string_view key, std::string_view value, Time... longest) {
        std::uint8_t room[MST_VALUE_LONGEST];
        int code = call(at(), bytes(key), key.size(), bytes(value), value.size(), room,
                        sizeof room, longest...);
        if (code == MST_BUSY) return tried{true, std::nullopt};
        return tried{false, told(code, room)};
    }

    template <typename Call, typename... Time>
    tried remove_by(Call call, std::string_view key, Time... longest) {
        std::uint8_t room[MST_VALUE_LONGEST];
        int code = call(at(), bytes(key), key.size(), room, sizeof room, longest...);
        if (code == MST_BUSY) return tried{true, std::nullopt};
        return tried{false, told(code, room)};
    }

    template <typename Call, typename... Time>
    applied apply_by(Call call, const batch &edits, Time... longest) {
        std::size_t place = 0;
        int code = call(at(), edits.edits.data(), edits.edits.size(), &place, longest...);
        if (code == MST_BUSY) return applied{true};
        if (code == MST_BAD_KEY || code == MST_BAD_VALUE) throw refused_edit(code, place);
        require_done(code);
        return applied{};
    }

    template <typename Call, typename... Time>
    migrated migrate_by(Call call, mst::format to, Time... longest) {
        int code = call(at(), static_cast<std::uint32_t>(to), longest...);
        if (code == MST_BUSY) return migrated{true, std::nullopt};
        return migrated{false, told_format(code)};
    }

    // A time below 0 is none.
    static std::uint64_t microseconds(std::chrono::microseconds longest) noexcept {
        return longest.count() > 0 ? static_cast<std::uint64_t>(longest.count()) : 0;
    }

public:
    pass() noexcept = default;
    pass(pass &&other) noexcept : reads(std::move(other.hand)) {}
    pass &operator=(pass &&other) noexcept {
        if (this != &other) {
            close();
            hand = std::move(other.hand);
        }
        return *this;
    }
    ~pass() { close(); }

    // Closes the pass before the object ends, and ends its pin if it has one. All later calls are
    // refused.
    void close() noexcept {
        if (auto of = std::move(hand)) mst_close(&of->pass);
    }

    // Returns how many rows the current version takes.
    counted rows() {
        counted answer;
        std::uint32_t rows = 0;
        int code = mst_rows(at(), &rows);
        answer.is_busy = code == MST_BUSY;
        if (answer.is_busy || code == MST_ROWS_PINNED) return answer;
        require_done(code);
        answer.rows = rows;
        return answer;
    }

    // Returns how many rows are free to the next write, also while versions are pinned; nothing if
    // another pass has the turn.
    std::optional<std::uint32_t> free_rows() {
        std::uint32_t rows = 0;
        int code = mst_free_rows(at(), &rows);
        if (code == MST_BUSY) return std::nullopt;
        require_done(code);
        return rows;
    }

    // Returns the versions that are pinned, in rising order, each once; nothing if another pass has
    // the turn.
    std::optional<std::vector<std::uint64_t>> pinned_versions() {
        std::vector<std::uint64_t> versions(MST_PASSES_MOST);
        std::size_t count = 0;
        int code = mst_pinned_versions(at(), versions.data(), versions.size(), &count);
        if (code == MST_BUSY) return std::nullopt;
        require_done(code);
        versions.resize(count);
        return versions;
    }

    // Returns the version that the last write of this pass made, whatever others wrote since;
    // nothing if it has made none.
    std::optional<std::uint64_t> made() {
        std::uint64_t version = 0;
        int code = mst_made(at(), &version);
        if (code == MST_ABSENT) return std::nullopt;
        require_done(code);
        return version;
    }

    // Gives the key the value, if no other pass has the turn.
    tried try_put(std::string_view key, std::string_view value) {
        return put_by(mst_try_put, key, value);
    }

    // Takes the key out, if no other pass has the turn.
    tried try_remove(std::string_view key) { return remove_by(mst_try_remove, key); }

    // As try_put, but waits for the turn. Returns the value that the key had before.
    std::optional<std::string> put(std::string_view key, std::string_view value) {
        return put_by(mst_put, key, value).old;
    }

    // As try_remove, but waits for the turn. Returns the value that the key had before.
    std::optional<std::string> remove(std::string_view key) {
        return remove_by(mst_remove, key).old;
    }

    // As put, but waits for no longer than this: then it is busy, and nothing is written. It tries
    // at least once, and with 0 exactly once, as try_put does.
    //
    //     if (!pass.put_within("apple", "30", std::chrono::milliseconds(5))) give_up();
    tried put_within(std::string_view key, std::string_view value,
                     std::chrono::microseconds longest) {
        return put_by(mst_put_within, key, value, microseconds(longest));
    }

    // As remove, but waits for no longer than this, as put_within does.
    tried remove_within(std::string_view key, std::chrono::microseconds longest) {
        return remove_by(mst_remove_within, key, microseconds(longest));
    }

    // Makes the edits as one version, if no other pass has the turn.
    applied try_apply(const batch &edits) { return apply_by(mst_try_apply, edits); }

    // As try_apply, but waits for the turn.
    void apply(const batch &edits) { (void)apply_by(mst_apply, edits); }

    // As apply, but waits for no longer than this, as put_within does.
    applied apply_within(const batch &edits, std::chrono::microseconds longest) {
        return apply_by(mst_apply_within, edits, microseconds(longest));
    }

    // Turns the tree of the map to a format, if no other pass has the turn. The map stays, and so
    // do the pinned versions, each in its format.
    migrated try_migrate(mst::format to) { return migrate_by(mst_try_migrate, to); }

    // As try_migrate, but waits for the turn. Returns the format before.
    mst::format migrate(mst::format to) { return *migrate_by(mst_migrate, to).was; }

    // As migrate, but waits for no longer than this, as put_within does.
    migrated migrate_within(mst::format to, std::chrono::microseconds longest) {
        return migrate_by(mst_migrate_within, to, microseconds(longest));
    }

    // Pins the current version.
    pinned pin() { return pinned(hand); }
};

// Opens a store of the empty map, and returns its passes.
inline std::vector<pass> open(const options &wanted) {
    if (wanted.passes > MST_PASSES_MOST) throw refused(MST_BAD_SHAPE);
    std::vector<pass> all(wanted.passes);
    std::vector<mst_pass> hands(all.size()); // null, as MST_PASS_CLOSED
    for (auto &one : all) one.hand = std::make_shared<detail::held>();
    auto format = static_cast<std::uint32_t>(wanted.format);
    int code = mst_open(format, wanted.rows, hands.data(), hands.size());
    if (code != MST_OK) throw refused(code);
    // what the hands hold moves, once: those of the array are not looked at again
    for (std::size_t i = 0; i < hands.size(); i++) all[i].hand->pass = hands[i];
    return all;
}

} // namespace mst
