// Groups from C++: threads that share the one writer of a sharded map. Each call is told the number
// of a block that has its edits, or why they alone are refused.
#include "mst_sharded_group.hpp"
#include "tests.h"

#include <algorithm>
#include <atomic>
#include <map>
#include <set>
#include <thread>
#include <type_traits>

namespace {

using known = std::map<std::string, std::string>;

constexpr std::size_t THREADS = 8;
constexpr unsigned ROUNDS = 500, OWN_KEYS = 5;

static_assert(!std::is_copy_constructible_v<mst::sharded::group>);
static_assert(std::is_nothrow_move_constructible_v<mst::sharded::group>);
static_assert(std::is_nothrow_move_assignable_v<mst::sharded::group>);

template <typename Call> bool is_refused(int code, Call call) {
    try {
        call();
    } catch (const mst::refused &refusal) {
        return refusal.code() == code;
    }
    return false;
}

// Calls with the number of each thread, in all threads at a time. Returns how many of the calls
// throw, or return that something is wrong.
template <typename Call> int wrong_in_threads(Call call) {
    std::atomic<int> wrong_ones{0};
    std::vector<std::thread> all;
    for (std::size_t own = 0; own < THREADS; own++)
        all.emplace_back([&, own] {
            try {
                wrong_ones += !call(own);
            } catch (const std::exception &) {
                wrong_ones++;
            }
        });
    for (auto &thread : all) thread.join();
    return wrong_ones;
}

// A key of this thread alone, in one of the shards "a" to "h".
std::string own_key(std::size_t own, unsigned at) {
    auto shard = static_cast<char>('a' + (own + at) % 8);
    return shard + std::to_string(own) + "." + std::to_string(at % OWN_KEYS);
}

// Up to three edits of a thread's own keys, which are made in a map too.
mst::batch edits_of(std::size_t own, unsigned round, known &map) {
    mst::batch edits;
    for (unsigned more = 0; more < round % 4; more++) {
        auto key = own_key(own, 7 * round + more);
        if ((round + more) % 5 == 0) {
            edits.remove(key);
            map.erase(key);
        } else {
            map[key] = std::to_string(round);
            edits.put(key, map[key]);
        }
    }
    return edits;
}

// What a thread was told, and what its keys have then.
struct told {
    std::vector<std::uint64_t> numbers;
    known map;
};

// Whether each number is above the one before.
bool writes(mst::sharded::group &group, std::size_t own, told &of) {
    std::uint64_t before = 0;
    for (unsigned round = 1; round <= ROUNDS; round++) {
        auto number = group.apply(edits_of(own, round, of.map));
        if (number <= before) return false;
        of.numbers.push_back(number);
        before = number;
    }
    return true;
}

void threads_share_a_writer(mst::format format) {
    auto [writer, readers] =
        mst::sharded::open({256, 1, {"b", "c", "d", "e", "f", "g", "h"}, format});
    mst::sharded::group group(std::move(writer));
    std::vector<told> each(THREADS);
    EXPECT(wrong_in_threads([&](std::size_t own) { return writes(group, own, each[own]); }) == 0);
    writer = group.close();
    std::set<std::uint64_t> numbers;
    known all;
    for (const auto &one : each) {
        EXPECT(one.numbers.size() == ROUNDS);
        numbers.insert(one.numbers.begin(), one.numbers.end());
        all.insert(one.map.begin(), one.map.end());
    }
    // each block up to the last was told to somebody
    auto last = writer.number();
    EXPECT(last == numbers.size() && last == *numbers.rbegin());
    EXPECT(all.size() > THREADS);
    for (const auto &[key, value] : all) EXPECT(writer.get(key) == value);
    auto then = readers[0].snapshot();
    EXPECT(then.number() == last && then.root() == writer.root());
    EXPECT(then.range() == std::vector<mst::pair>(all.begin(), all.end()));
    EXPECT(writer.apply(mst::batch()) == last + 1);
}

// The code of a call, with the place or the shard that it is told.
struct answer {
    int code = MST_OK;
    std::size_t at = 0;
};

// How the calls of a thread are refused, or that they are not.
answer wanted_of(std::size_t own) {
    switch (own) {
    case 0: return {MST_BAD_KEY, 2};
    case 1: return {MST_BAD_KEY, 0};
    case 2: return {MST_BAD_VALUE, 1};
    case 3: return {MST_NO_FREE_ROWS, 1};
    default: return {};
    }
}

// A put in each of both shards, and of some threads edits with a key that is too long or empty, a
// value that is too long, or more keys than the second shard has rows.
mst::batch asked_of(std::size_t own, const std::string &value) {
    mst::batch edits;
    if (own == 1) edits.remove("");
    edits.put("a" + std::to_string(own), value);
    if (own == 2) edits.put("a", std::string(65, '1'));
    edits.put("z" + std::to_string(own), value);
    if (own == 0) edits.put(std::string(33, 'a'), value);
    for (int more = 0; own == 3 && more < 100; more++)
        edits.put("z3" + std::to_string(more), value);
    return edits;
}

// The number is 0 if the call is refused.
answer answer_of(mst::sharded::group &group, const mst::batch &edits, std::uint64_t &number) {
    number = 0;
    try {
        number = group.apply(edits);
    } catch (const mst::refused_edit &refusal) {
        return {refusal.code(), refusal.place()};
    } catch (const mst::refused_shard &refusal) {
        return {refusal.code(), refusal.shard()};
    }
    return {};
}

// Whether each call is told what it is to be told. The number is the last one.
bool is_told(mst::sharded::group &group, std::size_t own, std::uint64_t &number) {
    auto wanted = wanted_of(own);
    for (unsigned round = 1; round <= ROUNDS; round++) {
        auto before = number;
        auto answered = answer_of(group, asked_of(own, std::to_string(round)), number);
        if (answered.code != wanted.code || answered.at != wanted.at) return false;
        if (answered.code == MST_OK && number <= before) return false;
    }
    return true;
}

void refused_calls() {
    auto [writer, readers] = mst::sharded::open({80, 1, {"m"}, mst::format::two});
    mst::sharded::group group(std::move(writer));
    std::vector<std::uint64_t> last(THREADS);
    EXPECT(wrong_in_threads([&](std::size_t own) { return is_told(group, own, last[own]); }) == 0);
    writer = group.close();
    EXPECT(writer.number() == *std::max_element(last.begin(), last.end()));
    EXPECT(writer.number() >= ROUNDS && writer.number() <= ROUNDS * (THREADS - 4));
    known all;
    for (std::size_t own = 4; own < THREADS; own++)
        for (const char *shard : {"a", "z"})
            all[shard + std::to_string(own)] = std::to_string(ROUNDS);
    for (const auto &[key, value] : all) EXPECT(writer.get(key) == value);
    auto then = readers[0].snapshot();
    EXPECT(then.range() == std::vector<mst::pair>(all.begin(), all.end()));
}

void openings() {
    auto opened = mst::sharded::open({16, 0, {"m"}});
    auto &writer = opened.writer;
    auto opens = [](mst::sharded::writer &of) {
        return [&of] { (void)mst::sharded::group(std::move(of)); };
    };
    mst::sharded::writer never;
    EXPECT(is_refused(MST_CLOSED, opens(never)));
    {
        // the writer stays with its block
        auto begun = writer.begin(mst::batch().put("a", "1"));
        EXPECT(is_refused(MST_WRONG_STATE, opens(writer)));
        EXPECT(begun.block.commit() == 1 && writer.number() == 1);
    }
    auto moved = std::move(writer);
    EXPECT(is_refused(MST_CLOSED, opens(writer)));
    mst::sharded::group group(std::move(moved));
    EXPECT(is_refused(MST_CLOSED, opens(moved)));
    EXPECT(is_refused(MST_CLOSED, [&] { (void)moved.number(); }));
    EXPECT(group.apply(mst::batch().put("a", "2")) == 2);
    writer = group.close();
    EXPECT(writer.number() == 2 && writer.get("a") == "2");
    writer.close();
    EXPECT(is_refused(MST_CLOSED, opens(writer)));
}

void ends() {
    auto opened = mst::sharded::open({16, 1, {"m"}});
    mst::sharded::group group(std::move(opened.writer)), none;
    auto moved = std::move(group);
    EXPECT(is_refused(MST_CLOSED, [&] { (void)group.apply(mst::batch()); }));
    EXPECT(is_refused(MST_CLOSED, [&] { (void)none.apply(mst::batch()); }));
    EXPECT(moved.apply(mst::batch().put("a", "1")) == 1);
    auto writer = moved.close();
    EXPECT(is_refused(MST_CLOSED, [&] { (void)moved.apply(mst::batch()); }));
    EXPECT(is_refused(MST_CLOSED, [&] { (void)moved.close().number(); }));
    group = mst::sharded::group(std::move(writer));
    EXPECT(group.apply(mst::batch().put("b", "2")) == 2);
    // it has another writer from here on, and the first one is closed
    auto other = mst::sharded::open({16}).writer;
    group = mst::sharded::group(std::move(other));
    EXPECT(group.apply(mst::batch()) == 1);
    auto then = opened.readers[0].snapshot();
    EXPECT(then.number() == 2 && then.range().size() == 2);
}

} // namespace

int main() {
    threads_share_a_writer(mst::format::one);
    threads_share_a_writer(mst::format::two);
    refused_calls();
    openings();
    ends();
    return ended("groups in C++");
}
