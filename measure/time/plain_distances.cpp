// Distances from vertex 1 in a graph of drawn links, by a plain search with a heap, five times, and the time that each takes:
// plain_distances VERTICES LINKS. The links are those of a linear congruence modulo 2^64, of which the high bits count.
#include <chrono>
#include <cstdint>
#include <cstdio>
#include <cstdlib>
#include <ctime>
#include <functional>
#include <queue>
#include <utility>
#include <vector>
struct Half { uint32_t to; uint64_t cost; };
int main(int argc, char **argv) {
    uint32_t n = atoi(argv[1]), m = atoi(argv[2]);
    uint64_t state = 7;
    auto below = [&](uint64_t limit) { state = state * 6364136223846793005ull + 1442695040888963407ull; return (state >> 33) % limit; };
    std::vector<std::vector<Half>> halves(n + 1);
    for (uint32_t i = 0; i < m; i++) {
        uint32_t a = below(n) + 1, b = below(n) + 1; uint64_t cost = below(1000000);
        if (a != b) { halves[a].push_back({b, cost}); halves[b].push_back({a, cost}); }
    }
    for (int round = 0; round < 5; round++) {
        auto start = std::chrono::steady_clock::now(); std::clock_t used = std::clock();
        std::vector<uint64_t> best(n + 1, UINT64_MAX); std::vector<uint32_t> from(n + 1, 0);
        std::priority_queue<std::pair<uint64_t, uint32_t>, std::vector<std::pair<uint64_t, uint32_t>>, std::greater<>> queue;
        best[1] = 0; queue.push({0, 1});
        while (!queue.empty()) {
            auto [cost, vertex] = queue.top(); queue.pop();
            if (cost > best[vertex]) continue;
            for (const Half &half : halves[vertex]) {
                uint64_t reach = cost + half.cost;
                if (reach < best[half.to]) { best[half.to] = reach; from[half.to] = vertex; queue.push({reach, half.to}); }
            }
        }
        auto end = std::chrono::steady_clock::now(); used = std::clock() - used;
        uint64_t sum = 0, reached = 0;
        for (uint32_t v = 1; v <= n; v++) if (best[v] != UINT64_MAX) { sum += best[v]; reached++; }
        printf("%llu reached, sum %llu, %.0f ms, of the processor %.0f ms\n", (unsigned long long)reached, (unsigned long long)sum, std::chrono::duration<double>(end - start).count() * 1e3, used * 1e3 / CLOCKS_PER_SEC);
    }
}
