// Ten million loads, least-value updates and claims on std::atomic words, on 1, 2 and 4 threads, as
// words.txt makes them on the words that are proved.
#include <algorithm>
#include <atomic>
#include <chrono>
#include <cstdint>
#include <cstdio>
#include <thread>
#include <vector>

static const uint64_t CALLS = 10'000'000;

template <class Work> static double timed(int threads, Work work) {
    auto start = std::chrono::steady_clock::now();
    std::vector<std::thread> all;
    for (int i = 0; i < threads; i++) all.emplace_back(work, CALLS / threads);
    for (auto &thread : all) thread.join();
    std::chrono::duration<double, std::milli> took = std::chrono::steady_clock::now() - start;
    return took.count();
}

int main() {
    for (int threads : {1, 2, 4}) {
        std::atomic<uint64_t> best{UINT64_MAX};
        std::atomic<uint64_t> seen{0};
        double see = timed(threads, [&](uint64_t calls) {
            uint64_t least = UINT64_MAX;
            for (uint64_t i = 0; i < calls; i++) least = std::min(least, best.load());
            seen.fetch_add(least);
        });
        // C++17 has no fetch_min: the word is exchanged until it is low enough.
        double offer = timed(threads, [&](uint64_t calls) {
            for (uint64_t i = 0; i < calls; i++) {
                uint64_t value = calls - i, found = best.load();
                while (value < found && !best.compare_exchange_weak(found, value)) {}
            }
        });
        std::atomic<uint64_t> claims{0};
        std::atomic<uint64_t> granted{0};
        double claim = timed(threads, [&](uint64_t calls) {
            uint64_t mine = 0;
            for (uint64_t i = 0; i < calls; i++) mine += claims.fetch_add(1) < CALLS;
            granted.fetch_add(mine);
        });
        std::printf("see %d %.0f ms\noffer %d %.0f ms, %llu\nclaim %d %.0f ms, %llu\n", threads, see, threads, offer,
                    (unsigned long long)best.load(), threads, claim, (unsigned long long)granted.load());
    }
}
