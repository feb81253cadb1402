// The calls of mst_store.hpp, their refusals, moves, pins, migrations, and two threads.
#include "mst_store.hpp"
#include "mst_verifier.h"
#include <iostream>
#include <iterator>
#include <thread>
#include <type_traits>
#if __cplusplus >= 202002L
#include <ranges>
static_assert(std::ranges::input_range<mst::items<mst::reads>>);
#endif

static int wrong = 0;

#define EXPECT(holds) expect((holds), #holds, __LINE__)

static void expect(bool holds, const char *text, int line) {
    if (holds) return;
    wrong++;
    std::cout << "line " << line << ": " << text << "\n";
}

template <typename Call> static int code_of(Call call) {
    try {
        call();
    } catch (const mst::refused &fault) {
        return fault.code();
    }
    return MST_OK;
}

static_assert(!std::is_copy_constructible_v<mst::pass> && !std::is_copy_assignable_v<mst::pass>);
static_assert(std::is_nothrow_move_constructible_v<mst::pass>);
static_assert(!std::is_copy_constructible_v<mst::pinned>);
static_assert(std::is_nothrow_move_constructible_v<mst::pinned>);
static_assert(std::is_nothrow_move_assignable_v<mst::pass>);

// What the verifier shows of a key by a reader's format, root digest and proof: the code of
// mst_verify.
static int verified(mst::reads &reader, std::string_view key) {
    auto root = reader.root();
    auto proof = reader.prove(key);
    std::uint8_t room[MST_VALUE_ROOM];
    return mst_verify(static_cast<std::uint32_t>(reader.format()), root.data(), root.size(),
                      reinterpret_cast<const std::uint8_t *>(key.data()), key.size(),
                      proof.data(), proof.size(), room, sizeof room);
}

static void reads_and_writes(mst::pass &pass) {
    EXPECT(!pass.put("b", "2") && !pass.put("a", "1") && !pass.put("c", ""));
    EXPECT(pass.put("a", "one") == "1" && pass.get("a") == "one");
    EXPECT(pass.get("c") == "" && !pass.get("d"));
    EXPECT(pass.next() == mst::pair("a", "one") && pass.next("a") == mst::pair("b", "2"));
    EXPECT(!pass.next("c"));
    EXPECT(pass.range("", "", 9).size() == 3 && pass.range("", "", 2).size() == 2);
    EXPECT(pass.range("b", "c", 9) == std::vector<mst::pair>{mst::pair("b", "2")});
    EXPECT(pass.range("aa", "", 9).front().first == "b" && pass.range("", "", 0).empty());
    EXPECT(pass.range().size() == 3 && pass.range("c").front() == mst::pair("c", ""));
    EXPECT(pass.version() == 4 && pass.rows().rows.value() > 3);
    auto tried = pass.try_remove("c");
    EXPECT(tried && tried.old == "" && !pass.get("c") && !pass.remove("c"));
    EXPECT(pass.prove("a").capacity() < 4096); // no longer than the proof, or little
    std::string zero("k\0z", 3);
    EXPECT(!pass.put(zero, zero) && pass.get(zero) == zero && pass.remove(zero) == zero);
}

// How many pairs there are: of no key, of keys that are replaced and taken out, and while pinned.
static void lengths() {
    auto passes = mst::open({2000, 2});
    EXPECT(passes[0].len() == 0 && passes[1].pin().len() == 0);
    for (int i = 0; i < 300; i++) passes[0].put("k" + std::to_string(i), "1");
    passes[0].put("k7", "2");
    auto then = passes[1].pin();
    for (int i = 0; i < 300; i += 3) passes[0].remove("k" + std::to_string(i));
    passes[0].remove("none");
    EXPECT(then.len() == 300 && passes[1].len() == 300 && passes[0].len() == 200);
    EXPECT(passes[0].len() == passes[0].range().size());
    then.unpin();
    EXPECT(passes[1].len() == 200 && code_of([&] { then.len(); }) == MST_CLOSED);
    passes[1].close();
    EXPECT(passes[0].len() == 200 && code_of([&] { passes[1].len(); }) == MST_CLOSED);
}

// More bytes than the first room has, and keys and values with zeros in them.
static void long_range() {
    auto pass = std::move(mst::open({2000, 1}).front());
    for (int i = 0; i < 300; i++) {
        const char key[2] = {char(i / 256), char(i % 256)};
        pass.put(std::string_view(key, 2), std::string(64, '\0'));
    }
    auto all = pass.range();
    EXPECT(all.size() == 300 && all.front().first == std::string(2, '\0'));
    EXPECT(all.back() == mst::pair(std::string("\1\53", 2), std::string(64, '\0')));
    EXPECT(pass.range({}, {}, 299) == std::vector<mst::pair>(all.begin(), all.end() - 1));
    EXPECT(pass.pin().range() == all);
}

// Keys of 32 bytes, behind which no longer one follows.
static void pages() {
    auto pass = std::move(mst::open({2000, 1}).front());
    for (int i = 0; i < 300; i++)
        pass.put(std::string(31, i % 3 ? '\xFF' : 'k') + char(i % 256), std::to_string(i));
    auto then = pass.pin();
    std::vector<mst::pair> all = then.range(), found;
    for (auto page = then.page_after("", "", 7); !page.empty();
         page = then.page_after(found.back().first, "", 7))
        found.insert(found.end(), page.begin(), page.end());
    EXPECT(found == all && then.page_after("").size() == all.size());
    EXPECT(then.page_after("k", std::string(31, 'k') + '\0', 7).empty());
    EXPECT(code_of([&] { then.page_after(std::string(33, 'k')); }) == MST_BAD_KEY);
}

// A key of 32 bytes, by its number.
static std::string long_key(int number) {
    return std::string(30, '\xFF') + char(number / 256) + char(number % 256);
}

// Takes out each pair that a reader comes to, and returns these pairs.
static std::vector<mst::pair> emptied(mst::pass &writer, mst::reads &reader) {
    std::vector<mst::pair> found;
    for (auto &&pair : reader.items()) {
        EXPECT(writer.remove(pair.first) == pair.second);
        found.push_back(std::move(pair));
    }
    EXPECT(writer.range().empty());
    return found;
}

// As many pages as there may be, within bounds, of a pinned pass and of a free one.
static void items() {
    for (int count : {0, 1, 63, 64, 65, 127, 128, 190, 300}) {
        auto passes = mst::open({2000, 2});
        mst::batch edits;
        std::vector<mst::pair> all;
        for (int i = 0; i < count; i++) {
            all.emplace_back(long_key(i), std::to_string(i));
            edits.put(all.back().first, all.back().second);
        }
        passes[0].apply(edits);
        auto then = passes[1].pin();
        EXPECT(emptied(passes[0], then) == all);
        for (int from = 0; from <= count; from += 63) {
            auto some = then.items(long_key(from)), others = then.items("", long_key(from));
            std::vector<mst::pair> above(some.begin(), some.end());
            std::vector<mst::pair> below(others.begin(), others.end());
            EXPECT(above == std::vector<mst::pair>(all.begin() + from, all.end()));
            EXPECT(below == std::vector<mst::pair>(all.begin(), all.begin() + from));
            auto none = then.items(long_key(from), long_key(from));
            EXPECT(none.begin() == none.end());
        }
        then.unpin();
        passes[0].apply(edits);
        // it goes on behind a pair that is gone
        EXPECT(emptied(passes[0], passes[1]) == all);
    }
}

// Loops that end early, an iterator by itself, and refusals, after which no pair is left.
static void items_that_end() {
    auto pass = std::move(mst::open({2000, 1}).front());
    for (int i = 0; i < 200; i++) pass.put(long_key(i), std::to_string(i));
    auto then = pass.pin();
    auto all = then.items();
    for (auto &&[key, value] : all)
        if (value == "99") break;
    auto at = all.begin();
    EXPECT(at->second == "99" && (*at++).second == "99" && (*at).second == "100");
    EXPECT(std::distance(at, all.end()) == 100 && all.begin() == all.end());
    auto long_one = then.items(std::string(33, 'k'));
    EXPECT(code_of([&] { long_one.begin(); }) == MST_BAD_KEY && long_one.begin() == long_one.end());
    auto rest = then.items();
    int seen = 0;
    EXPECT(code_of([&] {
        for (auto &&pair : rest) {
            if (pair.second == "7") then.unpin();
            seen++;
        }
    }) == MST_CLOSED);
    EXPECT(seen == 64 && rest.begin() == rest.end());
    EXPECT(code_of([&] { then.items().begin(); }) == MST_CLOSED);
}

// Proofs that are longer than the first room, and shorter ones after them.
static void long_proofs() {
    auto pass = std::move(mst::open({9000, 1}).front());
    auto key = [](int number) { return std::to_string(number * 7919); };
    for (int i = 0; i < 3000; i++) pass.put(key(i), std::string(64, 'v'));
    std::size_t longest = 0, shortest = SIZE_MAX;
    for (int i = 0; i < 3000; i += 7) {
        auto proof = pass.prove(key(i));
        longest = std::max(longest, proof.size());
        shortest = std::min(shortest, proof.size());
        EXPECT(verified(pass, key(i)) == 64 && proof.capacity() == proof.size());
        EXPECT(pass.pin().prove(key(i)) == proof);
    }
    EXPECT(longest > 4096 && shortest < longest);
}

// The place of the edit for which a batch is refused, if it is refused by this number.
static std::optional<std::size_t> place_of(mst::pass &pass, const mst::batch &edits, int code) {
    try {
        pass.apply(edits);
    } catch (const mst::refused_edit &fault) {
        if (fault.code() == code) return fault.place();
    }
    return std::nullopt;
}

static void batches() {
    auto passes = mst::open({1000, 2});
    auto &pass = passes[0], &other = passes[1];
    pass.put("a", "1");
    pass.put("b", "2");
    auto root = pass.root();
    pass.apply(mst::batch().put("c", "3").remove("a").put("b", "two").remove("none"));
    EXPECT(pass.version() == 3 && !other.get("a") && other.get("b") == "two");
    mst::batch edits;
    edits.put("b", "").remove("c").put("a", "1").put("b", "2");
    EXPECT(edits.size() == 4 && other.try_apply(edits) && pass.version() == 4);
    EXPECT(pass.root() == root && pass.range().size() == 2);
    edits.clear();
    pass.apply(edits);
    EXPECT(edits.size() == 0 && pass.version() == 5 && pass.root() == root);
    std::string zero("k\0z", 3), long_key(32, 'k'), long_value(64, 'v');
    pass.apply(mst::batch().put(zero, zero).put(long_key, long_value));
    EXPECT(pass.get(zero) == zero && pass.get(long_key) == long_value);
    EXPECT(place_of(pass, mst::batch().put("a", "").remove(""), MST_BAD_KEY) == 1u);
    EXPECT(place_of(pass, mst::batch().put(std::string(70000, 'k'), ""), MST_BAD_KEY) == 0u);
    EXPECT(place_of(pass, mst::batch().put("a", std::string(65, 'v')), MST_BAD_VALUE) == 0u);
    EXPECT(pass.version() == 6 && pass.get("a") == "1");
    auto then = other.pin();
    EXPECT(code_of([&] { other.apply(mst::batch()); }) == MST_WRONG_STATE);
    pass.apply(mst::batch().remove("a").remove("b"));
    EXPECT(then.get("a") == "1" && !pass.get("a") && !pass.get("b"));
    for (int i = 0; i < 1000; i++) edits.put(std::to_string(i), long_value);
    EXPECT(code_of([&] { pass.apply(edits); }) == MST_NO_FREE_ROWS && !pass.get("999"));
    passes.clear();
}

// Options by their names: each that is not set has its default.
static void options() {
    mst::options wanted;
    wanted.rows = 4;
    wanted.passes = 1;
    EXPECT(mst::open(wanted)[0].format() == mst::format::one);
    wanted.format = mst::format::two;
    EXPECT(mst::open(wanted)[0].format() == mst::format::two);
#if __cplusplus >= 202002L
    EXPECT(mst::open({.rows = 4, .passes = 32}).size() == 32);
    EXPECT(mst::open({.rows = 4, .passes = 1, .format = wanted.format}).size() == 1);
#endif
}

static void refusals(mst::pass &pass) {
    EXPECT(code_of([&] { pass.get(""); }) == MST_BAD_KEY);
    EXPECT(code_of([&] { pass.put(std::string(33, 'k'), "v"); }) == MST_BAD_KEY);
    EXPECT(code_of([&] { pass.put("k", std::string(65, 'v')); }) == MST_BAD_VALUE);
    EXPECT(code_of([&] { pass.next(std::string(33, 'k')); }) == MST_BAD_KEY);
    EXPECT(code_of([&] { pass.range("", std::string(33, 'k'), 1); }) == MST_BAD_KEY);
    EXPECT(code_of([&] { pass.prove(""); }) == MST_BAD_KEY);
    EXPECT(code_of([&] { mst::open({}); }) == MST_BAD_SHAPE);
    EXPECT(code_of([&] { mst::open({3, 1}); }) == MST_BAD_SHAPE);
    EXPECT(code_of([&] { mst::open({1000, 0}); }) == MST_BAD_SHAPE);
    EXPECT(code_of([&] { mst::open({1000, 33}); }) == MST_BAD_SHAPE);
    auto no_format = static_cast<mst::format>(99);
    EXPECT(code_of([&] { mst::open({1000, 1, no_format}); }) == MST_UNKNOWN_FORMAT);
    EXPECT(code_of([&] { (void)pass.try_migrate(no_format); }) == MST_UNKNOWN_FORMAT);
    EXPECT(code_of([&] { pass.migrate(no_format); }) == MST_UNKNOWN_FORMAT);
}

static void pins(mst::pass &writer, mst::pass &reader) {
    auto then = reader.pin();
    auto root = then.root();
    auto version = then.version();
    EXPECT(code_of([&] { reader.put("x", "y"); }) == MST_WRONG_STATE);
    EXPECT(code_of([&] { (void)reader.pin(); }) == MST_WRONG_STATE);
    EXPECT(code_of([&] { reader.migrate(mst::format::two); }) == MST_WRONG_STATE);
    EXPECT(writer.rows() && !writer.rows().rows);
    auto free = writer.free_rows().value();
    writer.put("a", "newer");
    // the pinned version holds rows that the writer's does not
    EXPECT(writer.free_rows().value() < free && writer.made() == writer.version());
    EXPECT(writer.pinned_versions().value() == std::vector<std::uint64_t>{version});
    EXPECT(code_of([&] { reader.pinned_versions(); }) == MST_WRONG_STATE);
    EXPECT(then.get("a") == "one" && then.root() == root && then.version() == version);
    EXPECT(then.range("", "", 9).front().second == "one");
    EXPECT(verified(then, "a") == 3);
    auto moved_pin = std::move(then);
    mst::pass moved = std::move(reader); // the pin stays with the hand
    EXPECT(moved_pin.get("a") == "one");
    EXPECT(code_of([&] { reader.get("a"); }) == MST_CLOSED);
    moved_pin.unpin();
    EXPECT(code_of([&] { moved_pin.get("a"); }) == MST_CLOSED);
    EXPECT(writer.pinned_versions().value().empty());
    EXPECT(moved.get("a") == "newer");
    reader = std::move(moved);
}

// A pin that its pass does not outlive: closed, moved over, or gone. Reads are refused, and the
// version is no longer kept.
static void pins_that_end_with_their_pass() {
    auto passes = mst::open({1000, 4});
    auto closed = passes[0].pin(), moved_over = passes[1].pin(), gone = passes[2].pin();
    passes[0].close();
    passes[1] = mst::pass();
    { auto last = std::move(passes[2]); }
    EXPECT(passes[3].rows().rows == 0u);
    for (auto *pin : {&closed, &moved_over, &gone})
        EXPECT(code_of([&] { pin->get("a"); }) == MST_CLOSED);
    closed.unpin();
    EXPECT(code_of([&] { closed.root(); }) == MST_CLOSED);
    passes.clear(); // the store goes before the pins
    EXPECT(code_of([&] { gone.version(); }) == MST_CLOSED);
}

static void migrations() {
    using mst::format;
    auto passes = mst::open({1000, 2});
    auto other = std::move(mst::open({1000, 1, format::two}).front());
    for (int i = 0; i < 100; i++) {
        passes[0].put("k" + std::to_string(i), "value");
        other.put("k" + std::to_string(99 - i), "value");
    }
    auto root = passes[0].root();
    EXPECT(passes[0].format() == format::one && other.format() == format::two);
    EXPECT(root != other.root());
    {
        auto then = passes[1].pin();
        auto done = passes[0].try_migrate(format::two);
        EXPECT(done && done.was == format::one && passes[0].format() == format::two);
        EXPECT(passes[0].root() == other.root() && passes[0].version() == 101);
        EXPECT(then.format() == format::one && then.root() == root && then.version() == 100);
        EXPECT(verified(then, "k7") == 5 && verified(then, "none") == MST_ABSENT);
    }
    EXPECT(passes[1].format() == format::two && passes[1].range() == other.range());
    EXPECT(verified(passes[1], "k7") == 5 && verified(passes[1], "none") == MST_ABSENT);
    EXPECT(passes[1].migrate(format::two) == format::two && passes[0].version() == 102);
    EXPECT(passes[1].migrate(format::one) == format::two && passes[0].root() == root);
    auto full = std::move(mst::open({64, 1}).front());
    EXPECT(code_of([&] { for (int i = 0; i < 64; i++) full.put(std::string(1, char(i)), ""); })
           == MST_NO_FREE_ROWS);
    EXPECT(code_of([&] { full.migrate(format::two); }) == MST_NO_FREE_ROWS);
    EXPECT(full.format() == format::one);
}

// Each pass puts, and migrates once for each 100 puts.
static void threads(std::vector<mst::pass> &passes) {
    std::vector<std::thread> running;
    for (auto &pass : passes)
        running.emplace_back([&pass] {
            for (int i = 0; i < 2000; i++) {
                pass.put("n" + std::to_string(i % 50), std::to_string(i));
                if (i % 100 == 99)
                    pass.migrate(i % 200 == 99 ? mst::format::two : mst::format::one);
            }
        });
    for (auto &thread : running) thread.join();
}

int main() {
    auto passes = mst::open({2000, 2});
    reads_and_writes(passes[0]);
    lengths();
    long_range();
    pages();
    items();
    items_that_end();
    long_proofs();
    options();
    refusals(passes[0]);
    pins(passes[0], passes[1]);
    pins_that_end_with_their_pass();
    migrations();
    batches();
    auto before = passes[0].version();
    threads(passes);
    EXPECT(passes[0].version() == before + 4040);
    passes[0].close();
    EXPECT(code_of([&] { passes[0].get("a"); }) == MST_CLOSED);
    EXPECT(passes[1].get("a") == "newer");
    std::cout << "tests in C++: " << wrong << " wrong\n";
    return wrong != 0;
}
