// A million gives and takes of nodes on 1, 2 and 4 threads that share one std::deque under a std::mutex, beside the
// pool that pool.txt times.
#include <chrono>
#include <cstdint>
#include <cstdio>
#include <deque>
#include <mutex>
#include <thread>
#include <vector>

struct Node {
    uint64_t id;
    std::vector<uint32_t> inside, outside;
    std::vector<uint64_t> cuts;
};

static const uint64_t TURNS = 1'000'000;

int main() {
    for (int threads : {1, 2, 4}) {
        std::mutex lock;
        std::deque<Node> waiting(1);
        auto start = std::chrono::steady_clock::now();
        std::vector<std::thread> all;
        for (int i = 0; i < threads; i++) {
            all.emplace_back([&] {
                for (uint64_t id = 0; id < TURNS / threads; id++) {
                    {
                        std::lock_guard<std::mutex> held(lock);
                        waiting.push_back(Node{id, {}, {}, {}});
                    }
                    std::lock_guard<std::mutex> held(lock);
                    Node taken = std::move(waiting.front());
                    waiting.pop_front();
                }
            });
        }
        for (auto &thread : all) thread.join();
        std::chrono::duration<double, std::milli> took = std::chrono::steady_clock::now() - start;
        std::printf("%d %.0f ms, %zu left\n", threads, took.count(), waiting.size());
    }
}
