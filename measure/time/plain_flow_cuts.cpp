// The set round a vertex that the fewest arcs enter, in a graph of drawn links from vertex 1 on, for vertices 2 to 6, by plain
// augmenting paths that a search by breadth finds from the vertex back, and the time that each takes: plain_flow_cuts VERTICES LINKS.
// The links are those of a linear congruence modulo 2^64, of which the high bits count; of several between two the cheapest counts.
#include <algorithm>
#include <chrono>
#include <cstdint>
#include <cstdio>
#include <cstdlib>
#include <ctime>
#include <map>
#include <utility>
#include <vector>
struct Arc { uint32_t tail; uint32_t back; bool used_up; };
int main(int argc, char **argv) {
    uint32_t n = atoi(argv[1]), m = atoi(argv[2]);
    uint64_t state = 7;
    auto below = [&](uint64_t limit) { state = state * 6364136223846793005ull + 1442695040888963407ull; return (state >> 33) % limit; };
    std::map<std::pair<uint32_t, uint32_t>, uint64_t> links;
    for (uint32_t i = 0; i < m; i++) {
        uint32_t a = below(n) + 1, b = below(n) + 1; uint64_t cost = below(10);
        if (a == b) continue;
        auto [at, is_new] = links.insert({{std::min(a, b), std::max(a, b)}, cost});
        if (!is_new) at->second = std::min(at->second, cost);
    }
    // The arcs into a vertex one after the other, each with the place of the one the other way.
    std::vector<std::vector<Arc>> into(n + 1);
    for (auto &[ends, cost] : links) {
        auto [a, b] = ends;
        into[a].push_back({b, (uint32_t)into[b].size(), cost == 0});
        into[b].push_back({a, (uint32_t)into[a].size() - 1, cost == 0});
    }
    for (uint32_t q = 2; q < 7; q++) {
        auto start = std::chrono::steady_clock::now(); std::clock_t used = std::clock();
        std::vector<std::vector<int32_t>> net(n + 1);
        for (uint32_t v = 1; v <= n; v++) net[v].assign(into[v].size(), 0);
        std::vector<bool> met(n + 1); std::vector<uint32_t> queue, next(n + 1), place(n + 1);
        auto search = [&](bool used_up_alone) {
            std::fill(met.begin(), met.end(), false); queue.assign(1, q); met[q] = true;
            for (size_t i = 0; i < queue.size(); i++) {
                uint32_t v = queue[i];
                if (v == 1) return true;
                for (uint32_t k = 0; k < into[v].size(); k++) {
                    const Arc &arc = into[v][k];
                    if (met[arc.tail] || !(arc.used_up || (!used_up_alone && net[v][k] <= 0))) continue;
                    met[arc.tail] = true; next[arc.tail] = v; place[arc.tail] = k; queue.push_back(arc.tail);
                }
            }
            return false;
        };
        uint32_t count = 0; size_t size = 0;
        if (!search(true)) {
            while (search(false)) {
                count++;
                for (uint32_t v = 1; v != q; v = next[v]) {
                    uint32_t w = next[v], k = place[v];
                    net[w][k]++; net[v][into[w][k].back]--;
                }
            }
            size = queue.size();
        }
        auto end = std::chrono::steady_clock::now(); used = std::clock() - used;
        printf("vertex %u: %u arcs enter %zu vertices, %.0f ms, of the processor %.0f ms\n", q, count, size, std::chrono::duration<double>(end - start).count() * 1e3, used * 1e3 / CLOCKS_PER_SEC);
    }
}
