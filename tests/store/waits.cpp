// The calls of mst_store.hpp that wait: for no longer than a time, and in eight threads, each of
// which is served.
#include "mst_store.hpp"
#include <atomic>
#include <iostream>
#include <numeric>
#include <thread>

using namespace std::chrono_literals;

static int wrong = 0;

#define EXPECT(holds) expect((holds), #holds, __LINE__)

static void expect(bool holds, const char *text, int line) {
    if (holds) return;
    wrong++;
    std::cout << "line " << line << ": " << text << "\n";
}

// Calls with too short a time until one is busy, and has made nothing. With more time it is made.
template <typename Within> static void busy_then_made(mst::pass &pass, Within is_busy_within) {
    auto deadline = std::chrono::steady_clock::now() + 1min;
    for (bool is_busy = false; !is_busy && std::chrono::steady_clock::now() < deadline;) {
        auto before = pass.made();
        is_busy = is_busy_within(1ms);
        EXPECT(is_busy == (pass.made() == before));
    }
    EXPECT(std::chrono::steady_clock::now() < deadline);
    EXPECT(!is_busy_within(1min));
}

// While another thread migrates a large map without a pause.
static void limits() {
    auto passes = mst::open({MST_ROWS_MOST, 2});
    mst::batch many;
    for (int i = 0; i < 20000; i++) many.put(std::to_string(i), "");
    EXPECT(passes[0].apply_within(many, -1us) && passes[0].put_within("a", "1", 0us));
    std::atomic<bool> ended(false);
    std::thread mover([&] {
        for (int i = 0; !ended; i++)
            passes[0].migrate(i % 2 == 0 ? mst::format::two : mst::format::one);
    });
    auto &pass = passes[1];
    busy_then_made(pass, [&](auto longest) { return !pass.put_within("a", "2", longest); });
    busy_then_made(pass, [&](auto longest) { return !pass.remove_within("a", longest); });
    busy_then_made(pass, [&](auto longest) {
        return !pass.apply_within(mst::batch().put("b", "1"), longest);
    });
    busy_then_made(pass, [&](auto longest) {
        return !pass.migrate_within(mst::format::one, longest);
    });
    ended = true;
    mover.join();
    EXPECT(pass.get("a") == std::nullopt && pass.get("b") == "1");
}

// What does not depend on the turn, or is refused for want of rows, waits for no time.
static void refusals() {
    auto full = std::move(mst::open({4, 1}).front());
    EXPECT(full.put_within("a", "1", 1h).old == std::nullopt);
    EXPECT(full.put_within("a", "1", 1h).old == "1");
    auto code_of = [](auto call) {
        try {
            call();
        } catch (const mst::refused &fault) {
            return fault.code();
        }
        return MST_OK;
    };
    EXPECT(code_of([&] { for (char i = 'b';; i++) (void)full.put_within({&i, 1}, "", 1h); })
           == MST_NO_FREE_ROWS);
    EXPECT(code_of([&] { (void)full.put_within("", "", 1h); }) == MST_BAD_KEY);
    EXPECT(code_of([&] { (void)full.apply_within(mst::batch().put("a", "").remove(""), 1h); })
           == MST_BAD_KEY);
    auto then = full.pin();
    EXPECT(code_of([&] { (void)full.remove_within("a", 1h); }) == MST_WRONG_STATE);
    EXPECT(code_of([&] { (void)full.migrate_within(mst::format::two, 1h); }) == MST_WRONG_STATE);
}

// Whether of eight threads that write for two seconds the slowest makes a quarter of the mean.
static bool all_are_served() {
    auto passes = mst::open({4096, 8});
    std::vector<std::thread> running;
    std::vector<long> puts(passes.size());
    std::atomic<bool> ended(false);
    for (std::size_t i = 0; i < passes.size(); i++)
        running.emplace_back([&, i] {
            long made = 0;
            for (; !ended; made++) passes[i].put("n" + std::to_string(i), std::to_string(made));
            puts[i] = made;
        });
    std::this_thread::sleep_for(2s);
    ended = true;
    for (auto &thread : running) thread.join();
    long all = std::accumulate(puts.begin(), puts.end(), 0L);
    long least = *std::min_element(puts.begin(), puts.end());
    std::cout << "the slowest made " << (all ? 800 * least / all : 0) << " % of the mean\n";
    return least * 4 * 8 >= all;
}

int main() {
    refusals();
    limits();
    // so many runs where other programs want all processors
    bool served = false;
    for (int run = 0; run < 10 && !served; run++) served = all_are_served();
    EXPECT(served);
    std::cout << "waits in C++: " << wrong << " wrong\n";
    return wrong != 0;
}
