// Sharded maps from C++: what a snapshot has is what one block left of a std::map, and the verifier
// accepts its proofs; blocks that are refused or by several threads, copies, ends, and threads that
// read.
#include "mst_sharded.hpp"
#include "mst_verifier.h"
#include "tests.h"

#include <atomic>
#include <map>
#include <mutex>
#include <random>
#include <thread>

namespace {

using known = std::map<std::string, std::string>;

std::string one_byte(unsigned number) { return std::string(1, static_cast<char>(number)); }

std::vector<std::string> sixteen() {
    std::vector<std::string> splits;
    for (unsigned number = 16; number < 256; number += 16) splits.push_back(one_byte(number));
    return splits;
}

std::optional<std::string> found(const known &map, const std::string &key) {
    auto at = map.find(key);
    return at == map.end() ? std::nullopt : std::optional<std::string>(at->second);
}

template <typename Call> bool is_refused(int code, Call call) {
    try {
        call();
    } catch (const mst::refused &refusal) {
        return refusal.code() == code;
    }
    return false;
}

// What the writer tells of a block, and the map that it left.
struct block {
    std::uint64_t number = 0;
    mst::digest root = {};
    known map = {};
};

// Makes a block of up to 23 edits at random.
block made(mst::sharded::writer &writer, const block &before, std::mt19937 &chance) {
    block next{0, {}, before.map};
    mst::batch edits;
    for (auto more = chance() % 24; more > 0; more--) {
        auto key = one_byte(chance() % 256);
        if (chance() % 3 == 0) {
            edits.remove(key);
            next.map.erase(key);
        } else {
            next.map[key] = std::to_string(chance());
            edits.put(key, next.map[key]);
        }
    }
    next.number = writer.apply(edits);
    next.root = writer.root();
    EXPECT(next.number == before.number + 1 && next.number == writer.number());
    auto key = one_byte(chance() % 256);
    EXPECT(writer.get(key) == found(next.map, key));
    return next;
}

bool is_pair(const mst::pair &one, const known::value_type &other) {
    return one.first == other.first && one.second == other.second;
}

// Whether a snapshot is of this block.
bool shows(mst::sharded::snapshot &then, const block &of) {
    bool is = then.number() == of.number && then.root() == of.root && then.len() == of.map.size();
    for (unsigned number = 0; number < 256; number += 5) {
        auto key = one_byte(number);
        auto above = of.map.upper_bound(key);
        auto next = then.next(key);
        is = is && then.get(key) == found(of.map, key)
            && (above == of.map.end() ? !next : next == mst::pair(above->first, above->second));
    }
    auto all = then.items(), some = then.items("0", "p");
    return is && then.range() == std::vector<mst::pair>(of.map.begin(), of.map.end())
        && std::equal(all.begin(), all.end(), of.map.begin(), of.map.end(), is_pair)
        && std::equal(some.begin(), some.end(), of.map.lower_bound("0"), of.map.lower_bound("p"),
                      is_pair);
}

// Whether the verifier accepts the proofs of a snapshot.
bool proves(mst::sharded::snapshot &then, const block &of) {
    bool is = then.directory().size() == 16 && then.range("0", "p", 3).size() <= 3;
    for (unsigned number = 0; number < 256; number += 5) {
        auto key = one_byte(number);
        auto proof = then.prove(key);
        auto wanted = found(of.map, key);
        std::uint8_t room[MST_VALUE_LONGEST];
        int told = mst_verify_sharded(static_cast<std::uint32_t>(then.format()), of.root.data(),
                                      of.root.size(), mst::detail::bytes(key), key.size(),
                                      proof.data(), proof.size(), room, sizeof room);
        is = is && told == (wanted ? static_cast<int>(wanted->size()) : MST_ABSENT);
    }
    return is;
}

void snapshots_keep_their_blocks(mst::format format) {
    auto [writer, readers] = mst::sharded::open({256, 2, sixteen(), format});
    std::mt19937 chance(7);
    block last{0, writer.root(), {}};
    EXPECT(writer.number() == 0 && writer.shards() == 16 && readers[1].shards() == 16);
    for (int round = 0; round < 40; round++) {
        auto kept = last;
        auto then = readers[0].snapshot();
        for (int more = 0; more < 4; more++) {
            last = made(writer, last, chance);
            auto now = readers[1].try_snapshot();
            EXPECT(now && shows(*now, last));
        }
        EXPECT(shows(then, kept) && proves(then, kept) && then.format() == format);
        then.release();
        EXPECT(readers[0].get("a") == found(last.map, "a"));
    }
}

// The number of the shard that refuses a block for want of rows.
std::size_t stopped_at(mst::sharded::writer &writer, const mst::batch &edits) {
    try {
        (void)writer.apply(edits);
    } catch (const mst::refused_shard &refusal) {
        EXPECT(refusal.code() == MST_NO_FREE_ROWS);
        return refusal.shard();
    }
    return 77;
}

void refused_blocks() {
    auto [writer, readers] = mst::sharded::open({12, 2, {"b", "c", "d"}, mst::format::two});
    EXPECT(writer.apply(mst::batch().put("a", "old").put("c", "old")) == 1);
    block first{1, writer.root(), {{"a", "old"}, {"c", "old"}}};
    auto then = readers[1].snapshot();
    mst::batch edits;
    edits.put("d", "1");
    for (char end = 'a'; end < 'm'; end++) edits.put(std::string("c") + end, "1");
    edits.put("a", "1");
    for (int again = 0; again < 3; again++) {
        EXPECT(stopped_at(writer, edits) == 2);
        auto now = readers[0].snapshot();
        EXPECT(shows(now, first) && writer.number() == 1 && writer.root() == first.root);
    }
    EXPECT(writer.apply(mst::batch().put("a", "new").put("d", "new").remove("c")) == 2);
    EXPECT(shows(then, first));
    then.release();
    auto now = readers[1].snapshot();
    EXPECT(shows(now, block{2, writer.root(), {{"a", "new"}, {"d", "new"}}}));
}

void refused_edits() {
    auto [writer, readers] = mst::sharded::open({16, 1, {"m"}});
    std::size_t place = 77;
    try {
        (void)writer.apply(mst::batch().put("a", "1").put("", "1"));
    } catch (const mst::refused_edit &refusal) {
        EXPECT(refusal.code() == MST_BAD_KEY);
        place = refusal.place();
    }
    EXPECT(place == 1 && writer.number() == 0 && !readers[0].get("a"));
    auto empty = writer.root();
    EXPECT(writer.apply(mst::batch()) == 1 && writer.root() == empty);
}

// A map of one format is copied to one of the other, with other splits, and to one that is full.
void copies(mst::format format) {
    auto other = format == mst::format::one ? mst::format::two : mst::format::one;
    auto [writer, readers] = mst::sharded::open({256, 1, sixteen(), format});
    std::mt19937 chance(9);
    block last{0, writer.root(), {}};
    for (int more = 0; more < 30; more++) last = made(writer, last, chance);
    auto then = readers[0].snapshot();
    auto [its_writer, its_readers] = mst::sharded::open({999, 1, {"a", "b"}, other});
    auto direct = mst::sharded::open({500, 0, {"a", "b"}, other}).writer;
    EXPECT(then.copy_to(its_writer) == 1);
    mst::batch edits;
    for (const auto &[key, value] : last.map) edits.put(key, value);
    EXPECT(direct.apply(edits) == 1);
    auto now = its_readers[0].snapshot();
    EXPECT(shows(now, block{1, direct.root(), last.map}) && now.format() == other);
    auto full = mst::sharded::open({8, 1, {"a"}, other});
    EXPECT(is_refused(MST_NO_FREE_ROWS, [&] { (void)then.copy_to(full.writer); }));
    EXPECT(full.writer.number() == 0 && full.readers[0].snapshot().range().empty());
    full.writer.close();
    EXPECT(is_refused(MST_CLOSED, [&] { (void)then.copy_to(full.writer); }));
    then.release();
    EXPECT(is_refused(MST_CLOSED, [&] { (void)then.copy_to(direct); }));
}

void openings() {
    auto with = [](std::vector<std::string> splits) {
        return [splits] { (void)mst::sharded::open({16, 1, splits}); };
    };
    EXPECT(is_refused(MST_BAD_SPLITS, with({""})));
    EXPECT(is_refused(MST_BAD_SPLITS, with({"b", "b"})));
    EXPECT(is_refused(MST_BAD_SPLITS, with({"c", "b"})));
    EXPECT(is_refused(MST_BAD_SPLITS, with({std::string(33, 'a')})));
    EXPECT(is_refused(MST_BAD_SHAPE, [] { (void)mst::sharded::open({3, 1}); }));
    EXPECT(is_refused(MST_BAD_SHAPE, [] { (void)mst::sharded::open({16, 32}); }));
    EXPECT(is_refused(MST_BAD_SHAPE, [] { (void)mst::sharded::open({}); }));
    EXPECT(mst::sharded::open({16, 31}).readers.size() == 31);
#if __cplusplus >= 202002L
    EXPECT(mst::sharded::open({.rows = 16, .splits = {"m"}}).writer.shards() == 2);
#endif
    auto writer = mst::sharded::open({16, 0, {"m"}}).writer;
    EXPECT(writer.apply(mst::batch().put("a", "1")) == 1);
    EXPECT(writer.free_rows(0) == 14u && writer.free_rows(1) == 16u && writer.free_rows(2) > 0u);
    EXPECT(writer.free_rows(3) == std::nullopt);
    EXPECT(mst::overtaken(3).code() == MST_OVERTAKEN && mst::overtaken(3).shard() == 3);
}

void ends() {
    auto opened = mst::sharded::open({16, 2, {"m"}});
    auto writer = std::move(opened.writer);
    auto reader = std::move(opened.readers[0]), other = std::move(opened.readers[1]);
    EXPECT(is_refused(MST_CLOSED, [&] { (void)opened.writer.number(); }));
    EXPECT(writer.apply(mst::batch().put("a", "1")) == 1);
    block first{1, writer.root(), {{"a", "1"}}};
    writer.close();
    EXPECT(is_refused(MST_CLOSED, [&] { (void)writer.apply(mst::batch()); }));
    auto then = reader.snapshot();
    EXPECT(is_refused(MST_WRONG_STATE, [&] { (void)reader.snapshot(); }));
    EXPECT(is_refused(MST_WRONG_STATE, [&] { (void)reader.try_snapshot(); }));
    EXPECT(is_refused(MST_BAD_KEY, [&] { (void)then.prove(""); }));
    auto moved = std::move(then);
    EXPECT(shows(moved, first));
    EXPECT(is_refused(MST_CLOSED, [&] { (void)then.root(); }));
    moved.release();
    EXPECT(is_refused(MST_CLOSED, [&] { (void)moved.get("a"); }));
    EXPECT(is_refused(MST_CLOSED, [&] { (void)moved.len(); }));
    EXPECT(reader.get("a") == "1" && is_refused(MST_BAD_KEY, [&] { (void)reader.get(""); }));
    auto none = moved.items();
    EXPECT(is_refused(MST_CLOSED, [&] { none.begin(); }) && none.begin() == none.end());
    auto last = reader.snapshot();
    reader.close();
    EXPECT(is_refused(MST_CLOSED, [&] { (void)last.number(); }));
    EXPECT(is_refused(MST_CLOSED, [&] { (void)reader.get("a"); }));
    auto now = other.snapshot();
    EXPECT(shows(now, first));
}

// Some edits at random.
mst::batch some_edits(std::mt19937 &chance) {
    mst::batch edits;
    for (auto more = chance() % 200; more > 0; more--) {
        auto key = one_byte(chance() % 256);
        if (chance() % 3 == 0)
            edits.remove(key);
        else
            edits.put(key, std::to_string(chance()));
    }
    return edits;
}

// Prepares the parts in so many threads, some of them twice or not at all.
void prepare(std::vector<mst::sharded::part> &parts, std::size_t threads) {
    std::atomic<int> wrong_ones{0};
    std::vector<std::thread> all;
    for (std::size_t first = 0; first < threads; first++)
        all.emplace_back([&, first] {
            for (auto at = first; at < parts.size(); at += threads)
                for (auto times = at % 3; times > 0; times--) wrong_ones += !parts[at].prepare();
        });
    for (auto &thread : all) thread.join();
    EXPECT(wrong_ones == 0);
}

// The same blocks by apply, by threads that the library starts, and by threads of this test.
void blocks_by_threads() {
    auto [writer, readers] = mst::sharded::open({256, 1, sixteen()});
    auto once = mst::sharded::open({256, 0, sixteen()}).writer;
    auto hers = mst::sharded::open({256, 0, sixteen()}).writer;
    std::mt19937 chance(11);
    for (std::uint64_t number = 1; number <= 60; number++) {
        auto edits = some_edits(chance), others = some_edits(chance);
        EXPECT(once.apply(edits) == number && hers.apply_in_threads(edits, number % 5) == number);
        {
            auto [block, parts] = writer.begin(others);
            EXPECT(parts.size() == 16);
            prepare(parts, 3);
            // not made: it ends here
        }
        auto [block, parts] = writer.begin(edits);
        EXPECT(is_refused(MST_WRONG_STATE, [&, &by = writer] { (void)by.number(); }));
        prepare(parts, 1 + number % 4);
        if (number % 2 == 0) parts.clear();
        EXPECT(block.commit() == number && writer.number() == number);
        EXPECT(parts.empty() || !parts[0].prepare());
        EXPECT(once.root() == writer.root() && once.root() == hers.root());
        EXPECT(readers[0].snapshot().root() == once.root());
    }
}

void refused_blocks_by_threads() {
    auto writer = mst::sharded::open({12, 0, {"b", "c", "d"}}).writer;
    mst::batch edits, none;
    for (char end = 'a'; end < 'm'; end++) edits.put(std::string("c") + end, "1");
    edits.put("a", "1");
    none.put("a", "1").put("b", std::string(65, '1'));
    auto empty = writer.root();
    auto refused_at = [](auto call) -> std::size_t {
        try {
            (void)call();
        } catch (const mst::refused_shard &refusal) {
            return refusal.code() == MST_NO_FREE_ROWS ? refusal.shard() : 66;
        } catch (const mst::refused_edit &refusal) {
            return refusal.code() == MST_BAD_VALUE ? 10 + refusal.place() : 66;
        }
        return 77;
    };
    EXPECT(refused_at([&] { return writer.apply_in_threads(edits, 4); }) == 2);
    EXPECT(refused_at([&] { return writer.apply_in_threads(none, 4); }) == 11);
    EXPECT(refused_at([&] { return writer.begin(none).parts.size(); }) == 11);
    auto [block, parts] = writer.begin(edits);
    EXPECT(parts[0].prepare() && !parts[2].prepare());
    EXPECT(refused_at([&, &of = block] { return of.commit(); }) == 2);
    EXPECT(is_refused(MST_CLOSED, [&, &of = block] { (void)of.commit(); }));
    EXPECT(writer.number() == 0 && writer.root() == empty && !writer.get("a"));
    auto next = writer.begin(mst::batch().put("a", "1"));
    auto moved = std::move(next.block);
    next.block.cancel();
    EXPECT(moved.commit() == 1 && writer.get("a") == "1");
    auto last = writer.begin(mst::batch());
    writer.close();
    EXPECT(is_refused(MST_CLOSED, [&] { (void)last.block.commit(); }));
}

// What the writer has told of its blocks, for the threads that read.
struct told {
    std::mutex lock;
    std::vector<mst::digest> roots;
};

constexpr std::uint64_t BLOCKS = 2000;

// Takes snapshots until the last block, and returns whether each was of one block, by its number.
bool reads(mst::sharded::reader &reader, told &of) {
    for (std::uint64_t before = 0; before < BLOCKS;) {
        auto then = reader.snapshot();
        auto number = then.number();
        for (unsigned shard = 0; shard < 16; shard++) {
            auto value = then.get(one_byte(16 * shard + 1));
            if (number > 0 ? value != std::to_string(number) : value.has_value()) return false;
        }
        // the writer tells of a block after it has made it
        std::lock_guard<std::mutex> taken(of.lock);
        if (number < before) return false;
        if (number < of.roots.size() && then.root() != of.roots[number]) return false;
        before = number;
    }
    return true;
}

void threads() {
    auto opened = mst::sharded::open({64, 3, sixteen()});
    told of;
    of.roots.push_back(opened.writer.root());
    std::atomic<int> wrong_ones{0};
    std::vector<std::thread> all;
    for (auto &reader : opened.readers)
        all.emplace_back([&] { wrong_ones += !reads(reader, of); });
    for (std::uint64_t number = 1; number <= BLOCKS; number++) {
        mst::batch edits;
        for (unsigned shard = 0; shard < 16; shard++)
            edits.put(one_byte(16 * shard + 1), std::to_string(number));
        EXPECT(opened.writer.apply(edits) == number);
        std::lock_guard<std::mutex> taken(of.lock);
        of.roots.push_back(opened.writer.root());
    }
    for (auto &thread : all) thread.join();
    EXPECT(wrong_ones == 0);
}

} // namespace

int main() {
    snapshots_keep_their_blocks(mst::format::one);
    snapshots_keep_their_blocks(mst::format::two);
    refused_blocks();
    refused_edits();
    copies(mst::format::one);
    copies(mst::format::two);
    openings();
    ends();
    blocks_by_threads();
    refused_blocks_by_threads();
    threads();
    return ended("sharded maps in C++");
}
