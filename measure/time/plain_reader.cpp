// Reads the same lines into the same arrays: links (u, v, c) and needs (v, prize), with the same tests of each line.
// Remarks are skipped, and keywords are the same in capitals and small letters.
#include <chrono>
#include <cstdint>
#include <cstdio>
#include <cstring>
#include <strings.h>
#include <string>
#include <string_view>
#include <vector>
struct Link { uint32_t a, b; uint64_t cost; };
static bool cut(std::string_view s, char d, std::string_view &a, std::string_view &b) {
    auto i = s.find(d); if (i == s.npos) return false; a = s.substr(0, i); b = s.substr(i + 1); return true; }
static bool number(std::string_view w, uint64_t low, uint64_t high, uint64_t &v) {
    if (w.empty() || (w.size() > 1 && w[0] == '0')) return false;
    v = 0; for (char c : w) { if (c < '0' || c > '9') return false; v = 10 * v + (c - '0'); if (v > high) return false; }
    return v >= low; }
static bool is(std::string_view w, const char *k) { return w.size() == strlen(k) && strncasecmp(w.data(), k, w.size()) == 0; }
int main(int argc, char **argv) {
    FILE *f = fopen(argv[1], "rb"); fseek(f, 0, SEEK_END); size_t n = ftell(f); rewind(f);
    std::string text(n, 0); if (fread(text.data(), 1, n, f) != n) return 1; fclose(f);
    auto start = std::chrono::steady_clock::now();
    std::string_view rest = text, line, w, x, y; uint64_t nodes = 0, m = 0, t = 0;
    auto next = [&]() { do { if (!cut(rest, '\n', line, rest)) return false; } while (!line.empty() && line[0] == '#'); return true; };
    auto count = [&](const char *k, uint64_t lo, uint64_t hi, uint64_t &v) { return next() && cut(line, ' ', w, x) && is(w, k) && number(x, lo, hi, v); };
    if (!next() || line != "33D32945 STP File, STP Format Version 1.0" || !next() || !is(line, "SECTION Graph")) return 2;
    if (!count("Nodes", 1, 1000000, nodes) || !count("Edges", 0, 4000000, m)) return 2;
    std::vector<Link> links; std::vector<std::pair<uint32_t, uint64_t>> needs; std::vector<bool> paid(nodes + 1);
    for (uint64_t i = 0; i < m; i++) {
        std::string_view k, a, b, c; uint64_t u, v, cost;
        if (!next() || !cut(line, ' ', k, x) || !cut(x, ' ', a, x) || !cut(x, ' ', b, c)) return 2;
        if (!number(a, 1, nodes, u) || !number(b, 1, nodes, v) || !number(c, 0, 1000000000000ull, cost) || !is(k, "E")) return 2;
        links.push_back({(uint32_t)u, (uint32_t)v, cost});
    }
    if (!next() || !is(line, "END") || !next() || !is(line, "SECTION Terminals")) return 2;
    if (!count("Terminals", 1, 2000000, t)) return 2;
    for (uint64_t i = 0; i < t; i++) {
        std::string_view k, a, p; uint64_t v, prize = UINT64_MAX;
        if (!next() || !cut(line, ' ', k, x)) return 2;
        if (is(k, "T")) { if (!number(x, 1, nodes, v)) return 2; }
        else if (!is(k, "TP") || !cut(x, ' ', a, p) || !number(a, 1, nodes, v) || !number(p, 0, 1000000000000ull, prize) || paid[v]) return 2;
        else paid[v] = true;
        needs.push_back({(uint32_t)v, prize});
    }
    if (!next() || !is(line, "END") || !next() || !is(line, "EOF") || !rest.empty()) return 2;
    auto end = std::chrono::steady_clock::now();
    printf("%zu links, %zu needs, %.3f s\n", links.size(), needs.size(), std::chrono::duration<double>(end - start).count());
}
