// Where two maps differ, in C++: what is told, how little is asked for, and what ends it.
#include "mst_store.hpp"
#include "tests.h"

#include <map>

namespace {

using bytes = std::vector<std::uint8_t>;
using text_map = std::map<std::string, std::string>;

mst::pass filled(const text_map &pairs, mst::format format) {
    mst::options wanted;
    wanted.rows = 4000;
    wanted.passes = 1;
    wanted.format = format;
    auto passes = mst::open(wanted);
    mst::batch edits;
    for (auto &&[key, value] : pairs) edits.put(key, value);
    passes[0].apply(edits);
    return std::move(passes[0]);
}

text_map numbers() {
    text_map pairs;
    for (int number = 0; number < 1000; number++)
        pairs["key " + std::to_string(number)] = std::to_string(number);
    return pairs;
}

void differ(mst::format format) {
    auto pairs = numbers();
    auto ours = filled(pairs, format);
    pairs["key 7"] = "";
    pairs.erase("key 500");
    pairs["another"] = "one";
    auto theirs = filled(pairs, format);
    auto then = theirs.pin();
    int asked = 0;
    auto ask = [&](std::string_view key, std::uint32_t number) {
        asked++;
        return mst::proof_piece(then.prove(key), number).value();
    };
    auto found = ours.differing(then.root(), ask);
    EXPECT(found.size() == 3 && asked > 0 && asked < 30);
    EXPECT(found.at(0).key == "another" && !found.at(0).ours && found.at(0).theirs == "one");
    EXPECT(found.at(1).key == "key 500" && found.at(1).ours == "500" && !found.at(1).theirs);
    EXPECT(found.at(2).key == "key 7" && found.at(2).ours == "7" && found.at(2).theirs == "");
    mst::batch edits;
    for (auto &it : found)
        it.theirs ? edits.put(it.key, *it.theirs) : edits.remove(it.key);
    ours.apply(edits);
    asked = 0;
    EXPECT(ours.root() == then.root() && ours.differing(then.root(), ask).empty() && asked == 0);
}

// What `ask` throws ends the call, and so does a piece that is not the one asked for.
void ends() {
    auto ours = filled({}, mst::format::one), theirs = filled(numbers(), mst::format::one);
    auto root = theirs.root();
    try {
        ours.differing(root, [](std::string_view, std::uint32_t) -> bytes { throw 7; });
        EXPECT(false);
    } catch (int thrown) {
        EXPECT(thrown == 7);
    }
    try {
        ours.differing(root, [](std::string_view, std::uint32_t) { return bytes(10); });
        EXPECT(false);
    } catch (const mst::refused &refused) {
        EXPECT(refused.code() == -14); // P4
    }
    EXPECT(!mst::proof_piece(theirs.prove("key 7"), 77) && !mst::proof_piece({}, 0));
    ours.put("a", "it is not pinned");
}

} // namespace

int main() {
    differ(mst::format::one);
    differ(mst::format::two);
    ends();
    return ended("differing in C++");
}
