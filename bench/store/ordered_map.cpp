/*
 * std::map behind a lock of many readers or one writer: what a program has without a library. It
 * keeps no versions, so a version that was begun is the map while no writer is let in. A put locks,
 * and so does a batch of puts, as a whole.
 */
#include "engine.h"
#include <array>
#include <cstring>
#include <map>
#include <mutex>
#include <shared_mutex>

namespace {
using key_type = std::array<std::uint8_t, KEY_LENGTH>;
using value_type = std::array<std::uint8_t, VALUE_LENGTH>;

std::map<key_type, value_type> pairs;
std::shared_mutex lock;
std::uint8_t rooms[SEATS][RANGE_PAIRS * (KEY_LENGTH + VALUE_LENGTH)];

key_type key_of(const std::uint8_t *bytes) {
    key_type key;
    std::memcpy(key.data(), bytes, KEY_LENGTH);
    return key;
}

value_type value_of(const std::uint8_t *bytes) {
    value_type value;
    std::memcpy(value.data(), bytes, VALUE_LENGTH);
    return value;
}

void clear() { pairs.clear(); }

void put(int seat, const std::uint8_t *key, const std::uint8_t *value) {
    std::unique_lock<std::shared_mutex> held(lock);
    auto [found, is_new] = pairs.try_emplace(key_of(key), value_of(value));
    if (is_new) return;
    std::memcpy(rooms[seat], found->second.data(), VALUE_LENGTH); // the old value
    found->second = value_of(value);
}

void start() { lock.lock(); }

void add(const std::uint8_t *key, const std::uint8_t *value) {
    pairs.insert_or_assign(key_of(key), value_of(value));
}

void commit() { lock.unlock(); }

void begin(int) { lock.lock_shared(); }

void end(int) { lock.unlock_shared(); }

void get_within(int seat, const std::uint8_t *key) {
    auto found = pairs.find(key_of(key));
    if (found == pairs.end()) give_up("find", 0);
    std::memcpy(rooms[seat], found->second.data(), VALUE_LENGTH);
}

void get(int seat, const std::uint8_t *key) {
    std::shared_lock<std::shared_mutex> held(lock);
    get_within(seat, key);
}

// Copies pairs, and returns how many there were.
int copy_from(int seat, std::map<key_type, value_type>::const_iterator at, int most) {
    std::uint8_t *room = rooms[seat];
    int count = 0;
    for (; at != pairs.end() && count < most; ++at, ++count) {
        std::memcpy(room, at->first.data(), KEY_LENGTH);
        std::memcpy(room + KEY_LENGTH, at->second.data(), VALUE_LENGTH);
        room += KEY_LENGTH + VALUE_LENGTH;
    }
    return count;
}

void next(int seat, const std::uint8_t *key) {
    std::shared_lock<std::shared_mutex> held(lock);
    copy_from(seat, pairs.upper_bound(key_of(key)), 1);
}

void range(int seat, const std::uint8_t *key) {
    std::shared_lock<std::shared_mutex> held(lock);
    if (copy_from(seat, pairs.lower_bound(key_of(key)), RANGE_PAIRS) == 0) give_up("range", 0);
}
} // namespace

const struct engine map_engine = {
    "std::map", clear, clear, put, start, add, commit, get, next, range, begin, end, get_within,
    nullptr,
};
