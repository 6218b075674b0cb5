// best.cpp - exact Steiner trees (with prizes), unproved, one thread, C++17.
// A model of the proved solver's search: reductions of the certified kinds at the
// root only, then a proof tree of vertex splits whose leaves are integer packings of
// directed cuts. A vertex deleted by bound is a split whose inside half closes.
//
//   g++ -O2 -std=c++17 -o best best.cpp
//   best FILE.stp [-t SECONDS] [-n NODES] [-p] [NAME=VALUE ...]
//
// SECONDS are the processor's. "nodes" counts the records of the proof (splits and closes;
// a vertex deleted by bound is two). Every closing packing is checked against the node's
// instance (WRONG PACKING, status 3), the tree against the file. NAME=VALUE switches
// ingredients (read_options); red=1 keeps to the steps that a log can show, red=3, fix=2, ncon, ndet
// and scale go beyond them (scale=4 half=2: all costs times 4, bounds rounded up).

#include <algorithm>
#include <chrono>
#include <cstdint>
#include <cstdio>
#include <cstdlib>
#include <cstring>
#include <ctime>
#include <fstream>
#include <iostream>
#include <map>
#include <memory>
#include <numeric>
#include <queue>
#include <sstream>
#include <string>
#include <tuple>
#include <vector>
using namespace std;
typedef long long ll;
const ll INF = (ll)4e18;

struct Edge { int u, v; ll c; int id; };
struct Origin { int u, v; ll c; int a, b; };     // a, b: merged from these, or -1

struct Graph {
  int n = 0;
  vector<char> need;                             // required
  vector<ll> prize;
  vector<Edge> edges;
  ll paid = 0;                                   // edges taken, prizes given up
  vector<int> taken;                             // ids of edges taken
};

static vector<Origin> pool_;                     // every edge ever made
static ll best = INF;
static vector<int> best_ids;
static bool have = false;
static ll nodes = 0, node_limit = INF, root_bound = -1, root_primal = -1;
static double time_limit = 1e18, root_time = 0;
static bool stopped = false;
static uint64_t seed_ = 88172645463325252ULL;
static chrono::steady_clock::time_point start_;

// Switches, with the values that did best.
struct Options {
  map<string, double> v;
  double get(const char *k, double d) { auto i = v.find(k); return i == v.end() ? d : i->second; }
} opt_;
static int o_red, o_starts, o_ls, o_ils, o_rounds, o_nrounds, o_fix, o_br, o_sb, o_bfs, o_join, o_imp, o_nimp, o_nls, o_elim, o_scale, o_again, o_ball, o_recdepth, o_maxneed, o_idle, o_half, o_adapt, o_fixmin, o_stall, o_ncon, o_ndet, o_polish, o_npolish;
static double o_guide, o_slack;
static void read_options() {
  o_red = opt_.get("red", 1);        // 0 none, 1 steps that a log can show, 2 also contraction and prizes, 3 also degree 3
  o_starts = opt_.get("starts", 20); // starts of the path heuristic at the root
  o_ls = opt_.get("ls", 3);          // 0 none, 1 insertion, 2 and key paths, 3 and key vertices
  o_ils = opt_.get("ils", 16);       // perturbed starts a round at the root
  o_rounds = opt_.get("rounds", 12); // ascents at the root
  o_nrounds = opt_.get("nrounds", 2);// ascents at a node
  o_fix = opt_.get("fix", 1);        // 0 none, 1 root distance, 2 through distance (not certified)
  o_br = opt_.get("br", 2);
  o_sb = opt_.get("sb", 6);          // candidates tried at a split
  o_bfs = opt_.get("bfs", 0);
  o_join = opt_.get("join", 1);      // 0 fresh, 1 both, 2 joined alone
  o_imp = opt_.get("imp", 60);       // re-ascents after freeing cuts, a round at the root
  o_nimp = opt_.get("nimp", 40);      // and at nodes
  o_nls = opt_.get("nls", 1);        // local search at nodes
  o_elim = opt_.get("elim", 5);      // count: 0 every deleted vertex, 1 those beside what is left, 2 those needed
  o_guide = opt_.get("guide", 1.0);
  o_slack = opt_.get("slack", 1.25);
  seed_ += 0x9E3779B97F4A7C15ULL * (uint64_t)opt_.get("seed", 0); // other runs of the same
  o_scale = opt_.get("scale", 1); o_ball = opt_.get("ball", 60); o_recdepth = opt_.get("recdepth", 4); o_maxneed = opt_.get("maxneed", 3); o_idle = opt_.get("idle", 4); o_half = opt_.get("half", 1); o_adapt = opt_.get("adapt", 1); o_fixmin = opt_.get("fixmin", 5); o_stall = opt_.get("stall", 1000000); o_ncon = opt_.get("ncon", 0); o_ndet = opt_.get("ndet", 0); o_polish = opt_.get("polish", 300); o_npolish = opt_.get("npolish", 20); o_again = opt_.get("again", 1);
}
static double elapsed() { return (double)clock() / CLOCKS_PER_SEC; }   // processor time
static bool late() { return stopped || elapsed() > time_limit; }
static int rnd(int n) {
  seed_ ^= seed_ << 13; seed_ ^= seed_ >> 7; seed_ ^= seed_ << 17;
  return (int)(seed_ % (uint64_t)n);
}
typedef pair<ll, int> Key;
typedef priority_queue<Key, vector<Key>, greater<Key>> Heap;

// ---------------------------------------------------------------- reductions
struct Reducer {
  Graph &g;
  vector<vector<int>> adj;                       // edge indices, some dead
  vector<char> dead, gone;                       // edges, vertices
  vector<int> queue_;
  vector<char> queued;
  int required = 0;
  bool feasible = true;

  explicit Reducer(Graph &graph) : g(graph) {
    adj.resize(g.n); gone.assign(g.n, 0); queued.assign(g.n, 0);
    dead.assign(g.edges.size(), 0);
    for (size_t i = 0; i < g.edges.size(); i++) link((int)i);
    for (int v = 0; v < g.n; v++) { required += g.need[v]; touch(v); }
  }
  void touch(int v) { if (!queued[v] && !gone[v]) { queued[v] = 1; queue_.push_back(v); } }
  void link(int i) {
    adj[g.edges[i].u].push_back(i); adj[g.edges[i].v].push_back(i);
  }
  int other(int i, int v) const { return g.edges[i].u == v ? g.edges[i].v : g.edges[i].u; }
  void kill(int i) {
    if (dead[i]) return;
    dead[i] = 1; touch(g.edges[i].u); touch(g.edges[i].v);
  }
  void clean(int v) {
    auto &a = adj[v]; size_t k = 0;
    for (int i : a) if (!dead[i] && (g.edges[i].u == v || g.edges[i].v == v)) a[k++] = i;
    a.resize(k);
  }
  void drop(int v) {                             // v stays outside
    if (gone[v]) return;
    if (g.need[v]) { feasible = false; return; }
    clean(v);
    for (int i : vector<int>(adj[v])) kill(i);
    gone[v] = 1; g.paid += g.prize[v]; g.prize[v] = 0;
  }
  void require(int v) { if (!g.need[v]) { g.need[v] = 1; g.prize[v] = 0; required++; touch(v); } }
  int find(int a, int b) { for (int i : adj[a]) if (!dead[i] && other(i, a) == b) return i; return -1; }
  void add(int u, int v, ll c, int id) {         // keeps the cheaper of two parallels
    if (u == v) return;
    int a = adj[u].size() < adj[v].size() ? u : v, b = a == u ? v : u;
    clean(a);
    int i = find(a, b);
    if (i >= 0) { if (g.edges[i].c <= c) { touch(u); touch(v); return; } kill(i); }
    g.edges.push_back({u, v, c, id}); dead.push_back(0);
    link((int)g.edges.size() - 1); touch(u); touch(v);
  }
  void take(int i, int keep) {                   // contract edge i into keep
    Edge e = g.edges[i];
    int away = e.u == keep ? e.v : e.u;
    g.paid += e.c; g.taken.push_back(e.id);
    kill(i);
    if (g.need[away] && g.need[keep]) required--;
    else if (g.need[away] || g.need[keep]) { g.need[keep] = 1; g.prize[keep] = 0; }
    g.need[away] = 0; g.prize[away] = 0;
    clean(away);
    for (int j : vector<int>(adj[away])) {
      Edge f = g.edges[j]; kill(j);
      add(keep, f.u == away ? f.v : f.u, f.c, f.id);
    }
    gone[away] = 1; touch(keep);
  }
  void degrees() {
    while (!queue_.empty() && feasible) {
      int v = queue_.back(); queue_.pop_back(); queued[v] = 0;
      if (gone[v]) continue;
      clean(v);
      int d = (int)adj[v].size();
      if (g.need[v]) {
        if (required < 2) continue;
        if (d == 0) { feasible = false; return; }
        int low = adj[v][0];
        for (int i : adj[v]) {
          const Edge &e = g.edges[i], &f = g.edges[low];
          if (e.c < f.c || (e.c == f.c && g.need[other(i, v)] && !g.need[other(low, v)])) low = i;
        }
        int w = other(low, v);
        if (d == 1 || (o_red >= 2 && g.need[w])) take(low, w);
      } else if (g.prize[v] == 0) {
        if (d <= 1) drop(v);
        else if (d == 2) {
          Edge a = g.edges[adj[v][0]], b = g.edges[adj[v][1]];
          int x = other(adj[v][0], v), y = other(adj[v][1], v);
          int id = (int)pool_.size();
          pool_.push_back({-1, -1, a.c + b.c, a.id, b.id});
          drop(v);
          add(x, y, a.c + b.c, id);
        }
      } else if (required > 0 && o_red >= 2) {
        if (d == 0) drop(v);
        else {
          bool near = false;
          for (int i : adj[v]) near |= g.need[other(i, v)] && g.edges[i].c <= g.prize[v];
          if (near) require(v);
          else if (d == 1 && g.edges[adj[v][0]].c >= g.prize[v]) drop(v);
        }
      }
    }
  }
  // A walk beside the edge, every piece between ends and required vertices no longer
  // than it: one at a time, so equality is fine. avoid: a vertex not to be used.
  vector<ll> dd; vector<int> dseen;
  bool detour(int a, int b, ll c, int scan, int skip, int avoid) {
    if (dd.empty()) dd.assign(g.n, INF);
    Heap h; bool found = false; int cnt = 0;
    dd[a] = 0; dseen.push_back(a); h.push({0, a});
    while (!h.empty() && !found && cnt < scan) {
      auto [x, v] = h.top(); h.pop();
      if (x > dd[v]) continue;
      for (int j : adj[v]) {
        if (dead[j] || j == skip) continue;
        if (++cnt > scan) break;
        int w = other(j, v); ll y = x + g.edges[j].c;
        if (w == avoid || y > c || y >= dd[w]) continue;
        if (w == b) { found = true; break; }
        if (g.need[w]) y = 0;
        if (y >= dd[w]) continue;
        if (dd[w] == INF) dseen.push_back(w);
        dd[w] = y; h.push({y, w});
      }
    }
    for (int v : dseen) dd[v] = INF;
    dseen.clear();
    return found;
  }
  void detours(int scan) {
    for (size_t i = g.edges.size(); i-- > 0;) if (!dead[i]) {
      Edge e = g.edges[i];
      if (detour(e.u, e.v, e.c, scan, (int)i, -1)) kill((int)i);
    }
  }
  // Non-terminals of degree 3: three pairs each with a detour no longer than the two
  // links (Duin and Volgenant's test on the spanning tree of special distances, weakened).
  int degree3(int scan) {
    int done = 0;
    for (int v = 0; v < g.n; v++) {
      if (gone[v] || g.need[v] || g.prize[v] > 0) continue;
      clean(v);
      if (adj[v].size() != 3) continue;
      Edge e[3]; int w[3];
      for (int k = 0; k < 3; k++) { e[k] = g.edges[adj[v][k]]; w[k] = other(adj[v][k], v); }
      ll all = e[0].c + e[1].c + e[2].c; bool good = false;
      // two pairs whose special distances add up to at most all three links: tried at their pair sums and at halves
      ll sd[3]; int pa[3] = {0, 0, 1}, pb[3] = {1, 2, 2};
      for (int k = 0; k < 3; k++) {
        ll lo = 0, hi = all; if (!detour(w[pa[k]], w[pb[k]], hi, scan, -1, v)) { sd[k] = INF; continue; }
        while (lo < hi) { ll mid = (lo + hi) / 2; if (detour(w[pa[k]], w[pb[k]], mid, scan, -1, v)) hi = mid; else lo = mid + 1; }
        sd[k] = hi;
      }
      ll m = max(sd[0], max(sd[1], sd[2]));
      if (sd[0] < INF && sd[1] < INF && sd[2] < INF) good = sd[0] + sd[1] + sd[2] - m <= all;
      else { int inf = (sd[0] >= INF) + (sd[1] >= INF) + (sd[2] >= INF); ll sum = 0; for (int k = 0; k < 3; k++) if (sd[k] < INF) sum += sd[k]; good = inf == 1 && sum <= all; }
      if (!good) continue;
      done++; drop(v);
      for (int k = 0; k < 3; k++) if (sd[k] > e[pa[k]].c + e[pb[k]].c) {
        int id = (int)pool_.size();
        pool_.push_back({-1, -1, e[pa[k]].c + e[pb[k]].c, e[pa[k]].id, e[pb[k]].id});
        add(w[pa[k]], w[pb[k]], e[pa[k]].c + e[pb[k]].c, id);
      }
    }
    return done;
  }
  // Special distance strictly below the cost: all such edges at once.
  void special() {
    if (required < 2) return;
    const int K = 4;
    struct Near { int t; ll d; };
    vector<vector<Near>> near(g.n);
    typedef pair<ll, pair<int, int>> Item;
    priority_queue<Item, vector<Item>, greater<Item>> h;
    for (int v = 0; v < g.n; v++) if (!gone[v] && g.need[v]) h.push({0, {v, v}});
    while (!h.empty()) {
      auto [x, p] = h.top(); h.pop();
      auto [v, t] = p;
      if ((int)near[v].size() >= K) continue;
      bool old = false;
      for (auto &q : near[v]) old |= q.t == t;
      if (old) continue;
      near[v].push_back({t, x});
      for (int j : adj[v]) if (!dead[j]) {
        int w = other(j, v);
        if ((int)near[w].size() < K) h.push({x + g.edges[j].c, {w, t}});
      }
    }
    vector<int> up(g.n), size(g.n, 1); vector<ll> weight(g.n, INF);
    iota(up.begin(), up.end(), 0);
    struct Link { ll c; int a, b; };
    vector<Link> links;
    for (size_t i = 0; i < g.edges.size(); i++) if (!dead[i]) {
      Edge &e = g.edges[i];
      if (near[e.u].empty() || near[e.v].empty()) continue;
      auto a = near[e.u][0], b = near[e.v][0];
      if (a.t != b.t) links.push_back({a.d + e.c + b.d, a.t, b.t});
    }
    sort(links.begin(), links.end(), [](const Link &a, const Link &b) { return a.c < b.c; });
    for (auto &l : links) {
      int a = l.a, b = l.b;
      while (up[a] != a) a = up[a];
      while (up[b] != b) b = up[b];
      if (a == b) continue;
      if (size[a] > size[b]) swap(a, b);
      up[a] = b; weight[a] = l.c; size[b] += size[a];
    }
    auto bottleneck = [&](int a, int b) {
      ll w = 0;
      while (a != b) {
        if (up[a] == a && up[b] == b) return INF;
        if (weight[a] <= weight[b]) { w = max(w, weight[a]); a = up[a]; }
        else { w = max(w, weight[b]); b = up[b]; }
      }
      return w;
    };
    for (size_t i = 0; i < g.edges.size(); i++) if (!dead[i]) {
      Edge e = g.edges[i]; ll s = INF;
      for (auto &a : near[e.u]) { if (a.d >= e.c) break;
        for (auto &b : near[e.v]) { if (b.d >= e.c) break;
          s = min(s, max(max(a.d, b.d), bottleneck(a.t, b.t))); } }
      if (s < e.c) kill((int)i);
    }
  }
  void components() {                            // all that no required vertex reaches
    int r = -1;
    for (int v = 0; v < g.n; v++) if (!gone[v] && g.need[v]) r = v;
    if (r < 0) return;
    vector<char> seen(g.n, 0); vector<int> todo{r}; seen[r] = 1;
    while (!todo.empty()) {
      int v = todo.back(); todo.pop_back();
      for (int i : adj[v]) if (!dead[i]) { int w = other(i, v); if (!seen[w]) { seen[w] = 1; todo.push_back(w); } }
    }
    for (int v = 0; v < g.n; v++) if (!seen[v] && !gone[v]) drop(v);
  }
  void reach_prizes() {                          // a prize worth the way from a required vertex
    if (required == 0 || o_red < 2) return;
    bool any = false;
    for (int v = 0; v < g.n; v++) any |= !gone[v] && g.prize[v] > 0;
    if (!any) return;
    vector<ll> d(g.n, INF); Heap h;
    for (int v = 0; v < g.n; v++) if (!gone[v] && g.need[v]) { d[v] = 0; h.push({0, v}); }
    while (!h.empty()) {
      auto [x, v] = h.top(); h.pop();
      if (x > d[v]) continue;
      if (g.prize[v] > 0 && x <= g.prize[v]) { require(v); d[v] = x = 0; h.push({0, v}); continue; }
      for (int i : adj[v]) if (!dead[i]) {
        int w = other(i, v); ll y = x + g.edges[i].c;
        if (y < d[w]) { d[w] = y; h.push({y, w}); }
      }
    }
  }
  int alive() const { return (int)count(dead.begin(), dead.end(), 0); }
  void run(bool heavy) {
    if (o_red > 0) components();
    while (feasible && o_red > 0) {
      int before = alive();
      degrees();
      if (!feasible) break;
      reach_prizes(); degrees();
      if (!feasible) break;
      if (heavy) { special(); detours(2000); degrees(); if (o_red >= 3) { degree3(2000); degrees(); } }
      components();
      if (alive() >= before - (heavy ? before / 50 : 0)) break;
    }
    if (feasible && o_red > 0) degrees();
    if (!feasible) return;
    vector<int> name(g.n, -1); Graph s; s.paid = g.paid; s.taken.swap(g.taken);
    for (int v = 0; v < g.n; v++) if (!gone[v]) {
      name[v] = s.n++; s.need.push_back(g.need[v]); s.prize.push_back(g.prize[v]);
    }
    for (size_t i = 0; i < g.edges.size(); i++) if (!dead[i]) {
      Edge e = g.edges[i]; s.edges.push_back({name[e.u], name[e.v], e.c, e.id});
    }
    stable_sort(s.edges.begin(), s.edges.end(), [](const Edge &a, const Edge &b) { return a.c < b.c; });
    g = move(s);
  }
};

static void unfold(int id, vector<int> &out) {
  vector<int> todo{id};
  while (!todo.empty()) {
    int i = todo.back(); todo.pop_back();
    if (pool_[i].a < 0) out.push_back(i);
    else { todo.push_back(pool_[i].a); todo.push_back(pool_[i].b); }
  }
}

// ------------------------------------------------------- the graph of one node
static Graph G;                                  // the reduced instance
struct Local {
  int n = 0; vector<int> orig;                   // vertices, and their numbers in G
  vector<char> need, must; vector<ll> prize, pay; // required; required or inside; prizes of undecided ones, of all
  vector<int> eu, ev, eg; vector<ll> ec;         // edges, ascending by cost; number in G
  vector<int> first, head, rev, edge;            // arcs: position p of v goes to head[p]
  int m() const { return (int)eu.size(); }
  void arcs() {
    first.assign(n + 1, 0);
    for (int i = 0; i < m(); i++) { first[eu[i] + 1]++; first[ev[i] + 1]++; }
    for (int v = 0; v < n; v++) first[v + 1] += first[v];
    head.resize(2 * m()); rev.resize(2 * m()); edge.resize(2 * m());
    vector<int> at(first.begin(), first.end() - 1);
    for (int i = 0; i < m(); i++) {
      int a = at[eu[i]]++, b = at[ev[i]]++;
      head[a] = ev[i]; head[b] = eu[i]; rev[a] = b; rev[b] = a; edge[a] = edge[b] = i;
    }
  }
  Local without(const vector<char> &out) const { // and without what a first kept must vertex doesn't reach
    vector<int> name(n, -1), todo; int r = -1;
    for (int v = 0; v < n && r < 0; v++) if (must[v]) r = v;
    vector<char> seen(n, 0);
    if (r >= 0) { seen[r] = 1; todo.push_back(r); }
    while (!todo.empty()) { int v = todo.back(); todo.pop_back();
      for (int p = first[v]; p < first[v + 1]; p++) { int w = head[p]; if (!seen[w] && !out[w]) { seen[w] = 1; todo.push_back(w); } } }
    Local s;
    for (int v = 0; v < n; v++) if (seen[v]) { name[v] = s.n++; s.orig.push_back(orig[v]); s.need.push_back(need[v]); s.must.push_back(must[v]); s.prize.push_back(prize[v]); s.pay.push_back(pay[v]); }
    for (int i = 0; i < m(); i++) if (name[eu[i]] >= 0 && name[ev[i]] >= 0) {
      s.eu.push_back(name[eu[i]]); s.ev.push_back(name[ev[i]]); s.ec.push_back(ec[i]); s.eg.push_back(eg[i]); }
    s.arcs(); return s;
  }
};

// -------------------------------------------------------------- cut packings
struct Packing {                                 // sets in numbers of G
  vector<int> pool, off{0}, q, over; vector<ll> y; ll w = 0;  // over: tree arcs that enter, beyond the one that must
  int cuts() const { return (int)y.size(); }
  void add(const vector<int> &set, const vector<int> &orig, int qq, ll yy, int o) {
    over.push_back(o);
    for (int v : set) pool.push_back(orig[v]);
    off.push_back((int)pool.size()); q.push_back(orig[qq]); y.push_back(yy); w += yy;
  }
};
static ll cert_cuts = 0, cert_verts = 0, closes = 0, asc_count = 0;

struct Guide { vector<char> arc, in; };          // the best tree: arcs away from the root, vertices
struct Levels { vector<ll> in, prize; };         // in[p], p of v: left of the arc head[p] -> v
static void fresh(const Local &L, Levels &a) {
  a.in.resize(2 * L.m()); a.prize = L.prize;
  for (int p = 0; p < 2 * L.m(); p++) a.in[p] = L.ec[L.edge[p]];
}
struct Scratch {
  vector<int> mark; int stamp = 0; vector<int> set, cut, flood; vector<char> reached;
  void fit(int n) { if ((int)mark.size() < n) { mark.assign(n, 0); stamp = 0; } }
} S_;

// Wong's ascent on what is left. guide: arcs of the best tree, away from the root (or null).
static ll ascend(const Local &L, int root, Levels &a, ll target, const Guide *guide, double noise, Packing &P) {
  asc_count++;
  Heap h; ll w = 0; S_.fit(L.n); S_.reached.assign(L.n, 0);
  vector<int> &set = S_.set, &cut = S_.cut, &flood = S_.flood; vector<char> &reached = S_.reached;
  auto spread = [&](int s) {                     // all that s leads to over used-up arcs
    if (reached[s]) return;
    reached[s] = 1; flood.assign(1, s);
    while (!flood.empty()) { int v = flood.back(); flood.pop_back();
      for (int p = L.first[v]; p < L.first[v + 1]; p++) { int u = L.head[p]; if (!reached[u] && a.in[L.rev[p]] == 0) { reached[u] = 1; flood.push_back(u); } } } };
  spread(root);
  vector<double> pert;
  if (noise > 0) { pert.resize(L.n); for (auto &x : pert) x = 1 + noise * rnd(1000) / 1000.0; }
  vector<char> active(L.n, 0); vector<vector<int>> waits;   // an end that another one leads to waits on that one
  for (int v = 0; v < L.n; v++) if (!reached[v] && (L.must[v] || a.prize[v] > 0)) { active[v] = 1; h.push({(L.first[v + 1] - L.first[v]) * 16, v}); }
  while (!h.empty() && w < target) {
    int q = h.top().second; h.pop();
    if (reached[q]) continue;
    int st = ++S_.stamp, other = -1; set.assign(1, q); S_.mark[q] = st;
    for (size_t k = 0; k < set.size() && other < 0; k++) { int v = set[k];
      for (int p = L.first[v]; p < L.first[v + 1]; p++) if (a.in[p] == 0 && S_.mark[L.head[p]] != st) { int u = L.head[p]; if (active[u]) { other = u; break; } S_.mark[u] = st; set.push_back(u); } }
    if (other >= 0) { active[q] = 0; if (!L.must[other]) { if (waits.empty()) waits.resize(L.n); waits[other].push_back(q); } continue; }
    cut.clear(); ll step = L.must[q] ? INF : a.prize[q]; int cross = 0;
    for (int v : set) for (int p = L.first[v]; p < L.first[v + 1]; p++) if (S_.mark[L.head[p]] != st) {
      cut.push_back(p); step = min(step, a.in[p]); if (guide && guide->arc[p]) cross++; }
    if (guide && guide->in[q]) cross--;
    double sc = 16.0 * cut.size();
    if (cross > 0) sc *= 1 + o_guide * cross;
    if (noise > 0) sc *= pert[q];
    ll score = (ll)sc;
    if (!h.empty() && score > h.top().first * o_slack) { h.push({score, q}); continue; }
    if (cut.empty() && L.must[q]) { P.add(set, L.orig, q, target - w, 0); return target; }
    if (o_half > 1) step = (step + o_half - 1) / o_half;
    step = min(step, target - w);
    for (int p : cut) a.in[p] -= step;
    for (int p : cut) if (a.in[p] == 0 && reached[L.head[p]]) { spread(L.head[L.rev[p]]); }
    w += step; P.add(set, L.orig, q, step, max(0, cross));
    if (!L.must[q]) { a.prize[q] -= step; if (a.prize[q] == 0) { active[q] = 0; if (!waits.empty()) { for (int u : waits[q]) if (!reached[u]) { active[u] = 1; h.push({score, u}); } waits[q].clear(); } continue; } }
    h.push({score, q});
  }
  return w;
}
// Charge (sign 1) or free (-1) cut k of P; name: numbers of G to local ones.
static void charge(const Local &L, Levels &a, const Packing &P, int k, const vector<int> &name, ll sign) {
  S_.fit(L.n); int st = ++S_.stamp;
  for (int i = P.off[k]; i < P.off[k + 1]; i++) { int v = name[P.pool[i]]; if (v >= 0) S_.mark[v] = st; }
  for (int i = P.off[k]; i < P.off[k + 1]; i++) { int v = name[P.pool[i]]; if (v < 0) continue;
    for (int p = L.first[v]; p < L.first[v + 1]; p++) if (S_.mark[L.head[p]] != st) a.in[p] -= sign * P.y[k]; }
  int q = name[P.q[k]]; if (q >= 0 && !L.must[q]) a.prize[q] -= sign * P.y[k];
}

// --------------------------------------------------------------------- trees
struct Tree { vector<char> in; vector<int> edges; ll cost = INF; };   // edges: local, ascending

static ll true_cost(const Local &L, const Tree &t) {              // in G
  ll c = G.paid; vector<char> in(G.n, 0);
  for (int v = 0; v < L.n; v++) if (t.in[v]) in[L.orig[v]] = 1;
  for (int i : t.edges) c += G.edges[L.eg[i]].c;
  for (int v = 0; v < G.n; v++) if (!in[v]) c += G.prize[v];
  return c;
}
static void keep_best(const Local &L, const Tree &t, ll total) {
  if (total >= best) return;
  best = total; have = true; best_ids.clear();
  for (int i : t.edges) unfold(G.edges[L.eg[i]].id, best_ids);
  for (int id : G.taken) unfold(id, best_ids);
}
struct Dsu { vector<int> up; void reset(int n) { up.resize(n); iota(up.begin(), up.end(), 0); }
  int top(int v) { while (up[v] != v) v = up[v] = up[up[v]]; return v; } };

struct Trees {                                   // heuristics on one local graph
  const Local &L; ll base;                       // base: paid outside of L
  Dsu dsu; vector<ll> d; vector<int> from, touched;
  ll price;                                      // sum of all prizes of L
  Trees(const Local &l, ll b) : L(l), base(b), d(l.n, INF), from(l.n, -1) { price = 0; for (ll x : l.pay) price += x; }

  // Spanning tree of the chosen vertices from root, worthless branches cut. cost: without base.
  bool settle(const vector<char> &in, int root, Tree &t) {
    dsu.reset(L.n); vector<vector<pair<int, int>>> adj(L.n);
    auto use = [&](int i) { int u = L.eu[i], v = L.ev[i], x = dsu.top(u), y = dsu.top(v);
      if (x != y) { dsu.up[x] = y; adj[u].push_back({i, v}); adj[v].push_back({i, u}); } };
    int size = 0; size_t deg = 0;
    for (int v = 0; v < L.n; v++) if (in[v]) { size++; deg += L.first[v + 1] - L.first[v]; }
    if (deg * 8 < (size_t)L.m()) {               // few: gather and sort
      vector<int> es;
      for (int v = 0; v < L.n; v++) if (in[v]) for (int p = L.first[v]; p < L.first[v + 1]; p++) if (L.head[p] > v && in[L.head[p]]) es.push_back(L.edge[p]);
      sort(es.begin(), es.end()); for (int i : es) use(i);
    } else for (int i = 0; i < L.m(); i++) if (in[L.eu[i]] && in[L.ev[i]]) use(i);
    vector<int> order{root}, up(L.n, -1), by(L.n, -1);
    for (size_t k = 0; k < order.size(); k++)
      for (auto [i, w] : adj[order[k]]) if (i != by[order[k]]) { up[w] = order[k]; by[w] = i; order.push_back(w); }
    const ll BIG = (ll)1e17;
    vector<ll> gain(L.n, 0); vector<char> live(L.n, 0), hang(L.n, 0);
    for (size_t k = order.size(); k-- > 1;) { int v = order[k];
      gain[v] = min(BIG, gain[v] + (L.need[v] ? BIG : L.pay[v]));
      ll c = L.ec[by[v]];
      if (gain[v] > c) { hang[v] = 1; gain[up[v]] = min(BIG, gain[up[v]] + (gain[v] > BIG / 2 ? BIG : gain[v] - c)); } }
    t.in.assign(L.n, 0); t.edges.clear(); t.cost = price;
    for (size_t k = 0; k < order.size(); k++) { int v = order[k];
      live[v] = k == 0 || (live[up[v]] && hang[v]);
      if (live[v]) { t.in[v] = 1; t.cost -= L.pay[v]; if (k) { t.edges.push_back(by[v]); t.cost += L.ec[by[v]]; } } }
    for (int v = 0; v < L.n; v++) if (L.need[v] && !live[v]) { t.cost = INF; return false; }
    sort(t.edges.begin(), t.edges.end()); return true;
  }
  int root_of(const vector<char> &in) {
    int r = -1; for (int v = 0; v < L.n; v++) if (in[v]) { if (L.need[v]) return v; if (r < 0 || L.pay[v] > L.pay[r]) r = v; } return r;
  }
  // Grow from start to the nearest worthwhile vertex. cost: by edge, or null; zero: arcs with nothing left only.
  bool grow(int start, const vector<ll> *cost, const vector<ll> *zero, Tree &t) {
    fill(d.begin(), d.end(), INF); vector<char> in(L.n, 0); Heap h; d[start] = 0; h.push({0, start}); in[start] = 1;
    while (!h.empty()) { auto [x, v] = h.top(); h.pop();
      if (x > d[v]) continue;
      if (!in[v] && (L.must[v] || (L.pay[v] > 0 && (cost || x < L.pay[v])))) {
        for (int w = v; !in[w]; w = from[w]) { in[w] = 1; d[w] = 0; h.push({0, w}); }
        continue; }
      for (int p = L.first[v]; p < L.first[v + 1]; p++) { int w = L.head[p];
        if (in[w] || (zero && (*zero)[L.rev[p]] > 0)) continue;
        ll y = x + (cost ? (*cost)[L.edge[p]] : L.ec[L.edge[p]]);
        if (y < d[w]) { d[w] = y; from[w] = v; h.push({y, w}); } } }
    fill(d.begin(), d.end(), INF);
    for (int v = 0; v < L.n; v++) if (L.need[v] && !in[v]) return false;
    return settle(in, root_of(in), t);
  }
  bool better(Tree &t, const vector<char> &in) {
    Tree s; if (!settle(in, root_of(in), s) || s.cost >= t.cost) return false;
    swap(t, s); return true;
  }
  bool insertion(Tree &t) {                      // a vertex more
    bool any = false; vector<int> name(L.n, -1), es; vector<pair<int, int>> mine;
    for (int round = 0; round < 3; round++) {
      bool now = false;
      int k = 0; for (int v = 0; v < L.n; v++) name[v] = t.in[v] ? k++ : -1;
      ll old = 0; for (int i : t.edges) old += L.ec[i];
      for (int v = 0; v < L.n; v++) {
        if (t.in[v]) continue;
        mine.clear(); ll low = INF;
        for (int p = L.first[v]; p < L.first[v + 1]; p++) if (t.in[L.head[p]]) { mine.push_back({L.edge[p], name[L.head[p]]}); low = min(low, L.ec[L.edge[p]]); }
        if (mine.empty() || (mine.size() < 2 && L.pay[v] <= low)) continue;
        bool good = L.pay[v] > low;
        if (!good) {
          sort(mine.begin(), mine.end()); dsu.reset(k + 1); ll now_cost = 0; size_t a = 0, b = 0; int left = k;
          while (left > 0 && (a < t.edges.size() || b < mine.size())) {
            int i, x, y;
            if (b >= mine.size() || (a < t.edges.size() && t.edges[a] < mine[b].first)) { i = t.edges[a++]; x = name[L.eu[i]]; y = name[L.ev[i]]; }
            else { i = mine[b].first; x = k; y = mine[b++].second; }
            x = dsu.top(x); y = dsu.top(y); if (x != y) { dsu.up[x] = y; now_cost += L.ec[i]; left--; }
          }
          good = now_cost - L.pay[v] < old;
        }
        if (good) { vector<char> in = t.in; in[v] = 1;
          if (better(t, in)) { now = any = true; k = 0; for (int w = 0; w < L.n; w++) name[w] = t.in[w] ? k++ : -1; old = 0; for (int i : t.edges) old += L.ec[i]; } }
      }
      if (!now) break;
    }
    return any;
  }
  // Connect the parts (part[v] >= 0) of the tree, and the rest of it (side[v] = 1), at a cost
  // below limit: the vertices to add. The search leaves the parts alone.
  struct Link { ll c; int p; int v; };
  vector<Link> links; vector<Key> hq; Dsu ju; vector<int> owner, part; vector<char> side;
  bool rejoin(int parts, const vector<int> &all, ll limit, vector<int> &more) {
    touched.clear(); hq.clear(); links.clear(); more.clear();
    auto cmp = greater<Key>();
    for (int v : all) { d[v] = 0; from[v] = -1; owner[v] = part[v]; hq.push_back({0, v}); touched.push_back(v); }
    make_heap(hq.begin(), hq.end(), cmp);
    while (!hq.empty()) { pop_heap(hq.begin(), hq.end(), cmp); auto [x, v] = hq.back(); hq.pop_back();
      if (x > d[v]) continue;
      if (x >= limit) break;
      for (int p = L.first[v]; p < L.first[v + 1]; p++) { ll y = x + L.ec[L.edge[p]];
        if (y >= limit) continue;
        int w = L.head[p];
        if (side[w]) { links.push_back({y, p, v}); if (parts == 1) limit = y; continue; }
        if (d[w] < INF && owner[w] != owner[v] && y + d[w] < limit) links.push_back({y + d[w], p, v});
        if (y < d[w]) { if (d[w] == INF) touched.push_back(w); d[w] = y; from[w] = v; owner[w] = owner[v]; hq.push_back({y, w}); push_heap(hq.begin(), hq.end(), cmp); } } }
    sort(links.begin(), links.end(), [](const Link &a, const Link &b) { return a.c < b.c; });
    ju.reset(parts + 1); int left = parts; ll sum = 0; vector<pair<int, int>> ends;
    for (auto &l : links) { int a = l.v, b = L.head[l.p]; int x = ju.top(owner[a]), y = ju.top(side[b] ? parts : owner[b]);
      if (x == y) continue;
      ju.up[x] = y; sum += l.c; left--; ends.push_back({a, b}); if (left == 0) break; }
    bool good = left == 0 && (parts == 1 || sum < limit);
    if (good) for (auto [a, b] : ends) { for (int w = a; w >= 0 && part[w] < 0; w = from[w]) more.push_back(w); if (!side[b]) for (int w = b; w >= 0 && part[w] < 0; w = from[w]) more.push_back(w); }
    for (int v : touched) d[v] = INF;
    return good;
  }
  // Key path exchange, and elimination of key vertices with their key paths.
  bool paths(Tree &t, bool vertices) {
    bool any = false; owner.assign(L.n, -1); part.assign(L.n, -1);
    vector<vector<int>> kids(L.n); vector<int> up(L.n), cost_edge(L.n); vector<int> order; int root = root_of(t.in);
    vector<vector<pair<int, int>>> adj(L.n);
    auto rebuild = [&]() {
      side = t.in;
      for (int i : t.edges) { adj[L.eu[i]].clear(); adj[L.ev[i]].clear(); }
      for (int i : t.edges) { adj[L.eu[i]].push_back({L.ev[i], i}); adj[L.ev[i]].push_back({L.eu[i], i}); }
      root = root_of(t.in); order.assign(1, root); up[root] = -1; kids[root].clear();
      for (size_t k = 0; k < order.size(); k++) { int v = order[k]; kids[v].clear();
        for (auto [w, i] : adj[v]) if (w != up[v]) { up[w] = v; cost_edge[w] = i; kids[v].push_back(w); order.push_back(w); } } };
    rebuild();
    auto key = [&](int v) { return v == root || L.need[v] || L.pay[v] > 0 || kids[v].size() != 1; };
    vector<int> all, removed, more, mine = order;
    for (int k = (int)mine.size(); k-- > 1;) swap(mine[k], mine[rnd(k + 1)]);
    int budget = 0;
    for (int v : mine) {
      if ((++budget & 63) == 0 && late()) break;
      if (!t.in[v] || v == root || !key(v)) continue;
      for (int which = 0; which < 2; which++) {  // 0: the key path above v; 1: v with all its key paths
        if (which == 1 && (!vertices || L.need[v] || (kids[v].size() < 2 && L.pay[v] == 0))) break;
        removed.clear(); all.clear(); ll gain = L.ec[cost_edge[v]]; int parts = 0;
        for (int b = up[v]; !key(b); b = up[b]) { removed.push_back(b); gain += L.ec[cost_edge[b]]; }
        auto flood = [&](int s) { size_t x = all.size(); all.push_back(s); part[s] = parts; side[s] = 0;
          for (; x < all.size(); x++) for (int w : kids[all[x]]) { part[w] = parts; side[w] = 0; all.push_back(w); }
          parts++; };
        if (which == 0) flood(v);
        else { removed.push_back(v); gain -= L.pay[v];
          for (int b : kids[v]) { gain += L.ec[cost_edge[b]]; while (!key(b)) { removed.push_back(b); b = kids[b][0]; gain += L.ec[cost_edge[b]]; } flood(b); } }
        for (int w : removed) side[w] = 0;
        bool good = gain > 0 && (parts == 0 || rejoin(parts, all, gain, more));
        for (int w : all) { part[w] = -1; side[w] = 1; }
        for (int w : removed) side[w] = 1;
        if (!good) continue;
        if (parts == 0) more.clear();
        vector<char> in = t.in; for (int w : removed) in[w] = 0;
        for (int w : more) in[w] = 1;
        if (better(t, in)) { any = true; for (int w : order) { kids[w].clear(); adj[w].clear(); } rebuild(); break; }
      }
    }
    return any;
  }
  void improve(Tree &t) {
    if (t.cost >= INF || o_ls == 0) return;
    for (int k = 0; k < 20; k++) {
      bool a = insertion(t), b = o_ls >= 2 && paths(t, o_ls >= 3);
      if ((!a && !b) || late()) break;
    }
  }
  void offer(Tree &t, ll total) { if (t.cost < INF) keep_best(L, t, total); }
};

static ll goal() { return best - (o_scale - 1); }   // a bound that shows best, costs being multiples of o_scale
// ------------------------------------------------------------ the proof tree
struct Round { vector<int> out, in; shared_ptr<Packing> pack; };   // deleted or forced by this packing (numbers of G)
struct Node { vector<signed char> state; ll low; int depth; shared_ptr<Packing> pack; int root; vector<shared_ptr<Round>> hints; };  // 1 inside, -1 outside
static vector<int> best_edges;                   // of G
static int main_root = -1;                       // of G
static vector<Tree> elite_;                      // over the root's G numbers
static double gain_rate = 1;
static ll elim_total = 0, elim_needed = 0;

static Local build(const vector<signed char> &state, ll &paid, bool &feasible) {
  Local W; W.n = G.n; W.orig.resize(G.n); iota(W.orig.begin(), W.orig.end(), 0);
  W.need = G.need; W.prize = W.pay = G.prize; W.must.assign(G.n, 0); vector<char> out(G.n, 0);
  for (int v = 0; v < G.n; v++) { W.must[v] = G.need[v] || state[v] > 0; out[v] = state[v] < 0; if (state[v] > 0) W.prize[v] = 0; }
  for (size_t i = 0; i < G.edges.size(); i++) if (!out[G.edges[i].u] && !out[G.edges[i].v]) { W.eu.push_back(G.edges[i].u); W.ev.push_back(G.edges[i].v); W.ec.push_back(G.edges[i].c); W.eg.push_back((int)i); }
  W.arcs();
  Local L = W.without(out); vector<char> got(G.n, 0);
  for (int v : L.orig) got[v] = 1;
  paid = G.paid; feasible = true;
  for (int v = 0; v < G.n; v++) if (!got[v]) { if (W.must[v]) feasible = false; paid += W.prize[v]; }
  return L;
}

// Steps inside a node (not in a log): links between required or inside
// vertices that are least at one side count as taken, links with a detour go.
static ll near_steps = 0, detour_steps = 0;
static void node_steps(Local &L, ll &paid) {
  if (o_ncon) {
    Dsu u; u.reset(L.n); vector<int> low(L.n);
    for (bool any = true; any;) { any = false; fill(low.begin(), low.end(), -1);
      for (int i = L.m(); i-- > 0;) { int x = u.top(L.eu[i]), y = u.top(L.ev[i]); if (x == y) continue;
        for (int z : {x, y}) { if (low[z] < 0 || L.ec[i] < L.ec[low[z]]) low[z] = i; else if (L.ec[i] == L.ec[low[z]] && L.must[L.eu[i]] && L.must[L.ev[i]]) low[z] = i; } }
      for (int v = 0; v < L.n; v++) if (u.top(v) == v && low[v] >= 0) { int i = low[v]; bool mine = L.must[L.eu[i]] && L.must[L.ev[i]];
        if (!mine) continue;
        int x = u.top(L.eu[i]), y = u.top(L.ev[i]); if (x == y) continue;
        u.up[x] = y; any = true; paid += L.ec[i]; L.ec[i] = 0; near_steps++; } }
    // keep edges ascending
    vector<int> ord(L.m()); iota(ord.begin(), ord.end(), 0); stable_sort(ord.begin(), ord.end(), [&](int a, int b) { return L.ec[a] < L.ec[b]; });
    Local M = L; for (int k = 0; k < L.m(); k++) { M.eu[k] = L.eu[ord[k]]; M.ev[k] = L.ev[ord[k]]; M.ec[k] = L.ec[ord[k]]; M.eg[k] = L.eg[ord[k]]; }
    M.arcs(); L = move(M);
  }
  if (o_ndet) {
    vector<char> dead(L.m(), 0); vector<ll> d(L.n, INF); vector<int> seen; size_t lost = 0;
    for (int i = L.m(); i-- > 0;) { ll c = L.ec[i]; if (c == 0) continue; int a = L.eu[i], b = L.ev[i]; Heap h; bool found = false; int cnt = 0;
      d[a] = 0; seen.assign(1, a); h.push({0, a});
      while (!h.empty() && !found && cnt < 400) { auto [x, v] = h.top(); h.pop(); if (x > d[v]) continue;
        for (int p = L.first[v]; p < L.first[v + 1] && !found; p++) { int w = L.head[p], e = L.edge[p]; if (dead[e] || e == i) continue; cnt++;
          ll y = x + L.ec[e]; if (y > c || y >= d[w]) continue;
          if (w == b) { found = true; break; }
          if (L.must[w]) y = 0;
          if (y >= d[w]) continue;
          if (d[w] == INF) seen.push_back(w);
          d[w] = y; h.push({y, w}); } }
      for (int v : seen) d[v] = INF;
      if (found) { dead[i] = 1; lost++; detour_steps++; } }
    if (lost) { size_t k = 0; for (int i = 0; i < L.m(); i++) if (!dead[i]) { L.eu[k] = L.eu[i]; L.ev[k] = L.ev[i]; L.ec[k] = L.ec[i]; L.eg[k] = L.eg[i]; k++; }
      L.eu.resize(k); L.ev.resize(k); L.ec.resize(k); L.eg.resize(k); L.arcs(); }
  }
}
static void guide_of(const Local &L, int root, const vector<int> &tree_g, Guide &guide) {
  vector<char> on(G.edges.size(), 0), seen(L.n, 0); for (int i : tree_g) on[i] = 1;
  guide.arc.assign(2 * L.m(), 0); vector<int> todo{root}; seen[root] = 1;
  while (!todo.empty()) { int v = todo.back(); todo.pop_back();
    for (int p = L.first[v]; p < L.first[v + 1]; p++) { int w = L.head[p]; if (!seen[w] && on[L.eg[L.edge[p]]]) { seen[w] = 1; guide.arc[L.rev[p]] = 1; todo.push_back(w); } } }
  guide.in = seen;
}
// The gap between a tree and a packing is made of faults: cuts that the tree enters too
// often, tree arcs with something left, prizes left outside of it. Free the cuts about a
// fault and ascend again in another order; keep what isn't worse.
static void refine(const Local &L, int root, Levels &a, Packing &P, ll target, const Guide &guide, int turns, const vector<int> &name) {
  P.over.assign(P.cuts(), 0);
  for (int k = 0; k < P.cuts(); k++) { S_.fit(L.n); int st = ++S_.stamp, q = name[P.q[k]], cross = q >= 0 && guide.in[q] ? -1 : 0;
    for (int i = P.off[k]; i < P.off[k + 1]; i++) { int v = name[P.pool[i]]; if (v >= 0) S_.mark[v] = st; }
    for (int i = P.off[k]; i < P.off[k + 1]; i++) { int v = name[P.pool[i]]; if (v >= 0) for (int p = L.first[v]; p < L.first[v + 1]; p++) if (guide.arc[p] && S_.mark[L.head[p]] != st) cross++; }
    P.over[k] = max(0, cross); }
  vector<char> hot(L.n, 0); vector<int> ball; vector<int> faults; int idle = 0;
  for (int t = 0; t < turns && P.w < target && !late(); t++) {
    faults.clear();
    for (int k = 0; k < P.cuts(); k++) if (P.over[k] > 0 && P.y[k] > 0) faults.push_back(k);
    int cuts = (int)faults.size();
    for (int v = 0; v < L.n; v++) { if (!guide.in[v]) { if (a.prize[v] > 0) faults.push_back(v); continue; }
      for (int p = L.first[v]; p < L.first[v + 1]; p++) if (guide.arc[p] && a.in[p] > 0) faults.push_back(v); }
    int center = rnd(L.n), must_free = -1;
    if (!faults.empty()) { int f = rnd((int)faults.size()); if (f < cuts) { int k = faults[f]; must_free = k; int x = name[P.pool[P.off[k] + rnd(P.off[k + 1] - P.off[k])]]; if (x >= 0) center = x; } else center = faults[f]; }
    int size = 3 + rnd(max(4, min(L.n / 3, o_ball)));
    ball.assign(1, center); hot[center] = 1;
    for (size_t k = 0; k < ball.size() && (int)ball.size() < size; k++) for (int p = L.first[ball[k]]; p < L.first[ball[k] + 1] && (int)ball.size() < size; p++) if (!hot[L.head[p]]) { hot[L.head[p]] = 1; ball.push_back(L.head[p]); }
    Levels b = a; Packing Q; int pct = 40 + rnd(60); ll freed = 0;
    for (int k = 0; k < P.cuts(); k++) { bool f = k == must_free;
      if (!f) { bool touch = false; for (int i = P.off[k]; i < P.off[k + 1] && !touch; i++) { int v = name[P.pool[i]]; touch = v >= 0 && hot[v]; } f = touch && rnd(100) < pct; }
      if (f) { charge(L, b, P, k, name, -1); freed += P.y[k]; }
      else { Q.pool.insert(Q.pool.end(), P.pool.begin() + P.off[k], P.pool.begin() + P.off[k + 1]); Q.off.push_back((int)Q.pool.size()); Q.q.push_back(P.q[k]); Q.y.push_back(P.y[k]); Q.over.push_back(P.over[k]); Q.w += P.y[k]; } }
    for (int v : ball) hot[v] = 0;
    if (!freed) continue;
    ascend(L, root, b, target - Q.w, &guide, 0.5, Q);
    if (Q.w > P.w) idle = 0; else if (++idle > o_stall) break;
    if (Q.w >= P.w) { swap(P, Q); swap(a, b); }
  }
}
// Overloaded arcs: tails that must be outside. Reports a fault if one isn't deleted.
static void needed_by(const Local &L0, const vector<int> &name0, const Packing &P, vector<char> &needed, const vector<int> &when, int before) {
  vector<ll> load(2 * L0.m(), 0); S_.fit(L0.n); vector<ll> named(L0.n, 0);
  for (int k = 0; k < P.cuts(); k++) { int st = ++S_.stamp; if (name0[P.q[k]] < 0) continue;
    for (int i = P.off[k]; i < P.off[k + 1]; i++) if (name0[P.pool[i]] >= 0) S_.mark[name0[P.pool[i]]] = st;
    for (int i = P.off[k]; i < P.off[k + 1]; i++) { int v = name0[P.pool[i]]; if (v < 0) continue;
      for (int p = L0.first[v]; p < L0.first[v + 1]; p++) if (S_.mark[L0.head[p]] != st) load[p] += P.y[k]; }
    named[name0[P.q[k]]] += P.y[k]; }
  for (int v = 0; v < L0.n; v++) for (int p = L0.first[v]; p < L0.first[v + 1]; p++) if (load[p] > L0.ec[L0.edge[p]]) {
    int u = L0.head[p];
    if (when[u] >= 0 && when[u] < before) needed[u] = 1;
    else if (when[v] >= 0 && when[v] < before) needed[v] = 1;
    else { printf("WRONG PACKING: overload\n"); exit(3); } }
  for (int v = 0; v < L0.n; v++) if (!L0.must[v] && named[v] > L0.prize[v]) {
    if (when[v] >= 0 && when[v] < before) needed[v] = 1; else { printf("WRONG PACKING: prize\n"); exit(3); } }
}

static void push_children(Node &nd, int v, vector<signed char> state, ll low, shared_ptr<Packing> P, int root, vector<Node> &stack, const vector<shared_ptr<Round>> &hints) {
  Node no{state, low, nd.depth + 1, P, root, hints}, yes{move(state), low, nd.depth + 1, P, root, hints};
  no.state[v] = -1; yes.state[v] = 1;
  stack.push_back(move(no)); stack.push_back(move(yes));
}

static void work(Node nd, vector<Node> &stack) {
  bool first = nd.depth == 0;
  nodes++;
  if (nd.low >= goal()) { closes++; if (nd.pack) { cert_cuts += nd.pack->cuts(); cert_verts += nd.pack->pool.size(); } return; }
  ll paid; bool feasible; Local L0 = build(nd.state, paid, feasible); if (feasible && L0.n > 1 && (o_ncon || o_ndet)) node_steps(L0, paid); const ll paid_start = paid;
  bool any_must = false; for (int v = 0; v < G.n; v++) any_must |= G.need[v] || nd.state[v] > 0;
  if (!any_must) {                               // no root: split at the greatest prize
    ll sum = G.paid; int v = -1; for (int u = 0; u < G.n; u++) if (nd.state[u] < 0) sum += G.prize[u]; else if (v < 0 || G.prize[u] > G.prize[v]) v = u;
    if (first) root_bound = sum;
    if (sum >= best || v < 0 || G.prize[v] == 0) { closes++; if (sum < best) { /* best one-vertex tree is known */ } return; }
    push_children(nd, v, nd.state, sum, nullptr, -1, stack, {}); return;
  }
  if (!feasible) { closes++; cert_cuts++; cert_verts += L0.n; return; }
  static bool effort_done = false; bool top = !effort_done; effort_done = true;   // the first node with a root gets the effort
  Local L = L0; vector<int> name0(G.n, -1), when(L0.n, -1); for (int v = 0; v < L0.n; v++) name0[L0.orig[v]] = v;
  vector<shared_ptr<Round>> rounds = nd.hints; shared_ptr<Packing> P = make_shared<Packing>(); ll low = max(nd.low, paid);
  auto apply = [&](const vector<char> &out, int k) { // take the marked vertices of L away, and what falls off with them
    ll was = 0, now = 0; int mm = 0, m2 = 0; for (int v = 0; v < L.n; v++) { was += L.prize[v]; mm += L.must[v]; }
    Local M = L.without(out); for (int v = 0; v < M.n; v++) { now += M.prize[v]; m2 += M.must[v]; }
    paid += was - now; low = max(low, paid);
    vector<char> got(G.n, 0); for (int v : M.orig) got[v] = 1;
    for (int v = 0; v < L.n; v++) if (!got[L.orig[v]] && when[name0[L.orig[v]]] < 0) when[name0[L.orig[v]]] = k;
    L = move(M); return m2 == mm; };
  bool closed = false;
  for (size_t k = 0; k < rounds.size() && !closed; k++) { vector<char> out(L.n, 0); vector<int> nm(G.n, -1); for (int v = 0; v < L.n; v++) nm[L.orig[v]] = v; bool any = false;
    for (int v : rounds[k]->in) if (nm[v] >= 0 && !L.must[nm[v]]) { L.must[nm[v]] = 1; L.prize[nm[v]] = 0; when[name0[v]] = (int)k; }
    for (int v : rounds[k]->out) if (nm[v] >= 0) { if (L.must[nm[v]]) { closed = true; P = rounds[k]->pack; low = best; } else { out[nm[v]] = 1; when[name0[v]] = (int)k; any = true; } }
    if (!closed && any && !apply(out, (int)k)) { closed = true; low = best; } }

  shared_ptr<Packing> top_pack, full_pack; int top_root = -1, used_root = -1, full_root = -1; const ll paid0 = paid_start; vector<shared_ptr<Packing>> packs; ll top_low = -1;
  int limit = top ? o_rounds : o_nrounds, idle = 0, stale = 0;
  vector<int> local_tree; ll local_cost = INF;   // best tree seen at this node, edges of G
  for (int round = 0; round < limit && !closed && !late(); round++) {
    vector<int> name(G.n, -1), musts; for (int v = 0; v < L.n; v++) { name[L.orig[v]] = v; if (L.must[v]) musts.push_back(v); }
    ll before_best = best, before_low = low; size_t deleted = 0;
    Trees T(L, paid); Tree t;
    auto note = [&](Tree &x) { if (x.cost >= INF) return; ll tot = paid + x.cost; if (tot >= best && tot >= local_cost) return; tot = true_cost(L, x);
      if (tot < local_cost) { local_cost = tot; local_tree.clear(); for (int i : x.edges) local_tree.push_back(L.eg[i]); }
      if (tot < best) { T.offer(x, tot); best_edges.clear(); for (int i : x.edges) best_edges.push_back(L.eg[i]); } };
    if (L.n == 1 || (int)musts.size() == L.n) {  // nothing undecided: the level packing
      vector<char> in(L.n, 1); if (T.settle(in, musts[0], t)) note(t);
      ll cost = paid; Dsu u; u.reset(L.n); for (int i = 0; i < L.m(); i++) { int x = u.top(L.eu[i]), y = u.top(L.ev[i]); if (x != y) { u.up[x] = y; cost += L.ec[i]; } }
      low = max(low, cost); closed = true; P = make_shared<Packing>(); cert_cuts += 2 * L.n; cert_verts += 4 * L.n; if (first) root_bound = max(low, root_bound); break;
    }
    if (round == 0 && top) for (int k = 0; k < o_starts && !late(); k++) {
      T.grow(k % 4 == 3 ? rnd(L.n) : musts[rnd((int)musts.size())], nullptr, nullptr, t);
      if (k < 4 && t.cost < INF) T.improve(t);
      note(t); }
    // an ascent
    int root = -1;
    if ((round % 2 == 0 || !top) && round != 1 && main_root >= 0 && name[main_root] >= 0 && L.must[name[main_root]]) root = name[main_root];
    else root = musts[rnd((int)musts.size())];
    Levels a; fresh(L, a); Guide guide; bool fit_best = true;
    { vector<char> on(G.n, 0); for (int v : L.orig) on[v] = 1; for (int i : best_edges) fit_best &= on[G.edges[i].u] && on[G.edges[i].v]; }
    guide_of(L, root, fit_best ? best_edges : local_tree, guide);
    ll target = goal() - paid; bool guided = o_guide > 0 && (round > 0 || !top);
    P = make_shared<Packing>(); bool again = o_again && round % 2 == 1 && top_pack && name[top_root] >= 0;
    if (again) {
      root = name[top_root]; guide_of(L, root, fit_best ? best_edges : local_tree, guide);
      for (int k = 0; k < top_pack->cuts(); k++) { int q = name[top_pack->q[k]];
        if (q < 0 || (!L.must[q] && a.prize[q] < top_pack->y[k])) continue;
        P->pool.insert(P->pool.end(), top_pack->pool.begin() + top_pack->off[k], top_pack->pool.begin() + top_pack->off[k + 1]);
        P->off.push_back((int)P->pool.size()); P->over.push_back(0); P->q.push_back(top_pack->q[k]); P->y.push_back(top_pack->y[k]); P->w += top_pack->y[k]; charge(L, a, *top_pack, k, name, 1); }
      if (P->w < target) ascend(L, root, a, target - P->w, &guide, 0, *P);
    } else ascend(L, root, a, target, guided ? &guide : nullptr, top && round > 3 ? 0.3 : 0, *P);
    if (o_join && nd.pack && round == 0 && P->w < target && nd.root >= 0 && name[nd.root] >= 0) {
      Levels b; fresh(L, b); auto Q = make_shared<Packing>();
      for (int k = 0; k < nd.pack->cuts(); k++) { int q = name[nd.pack->q[k]];
        if (q < 0 || (!L.must[q] && b.prize[q] < nd.pack->y[k])) continue;
        Q->pool.insert(Q->pool.end(), nd.pack->pool.begin() + nd.pack->off[k], nd.pack->pool.begin() + nd.pack->off[k + 1]);
        Q->off.push_back((int)Q->pool.size()); Q->over.push_back(0); Q->q.push_back(nd.pack->q[k]); Q->y.push_back(nd.pack->y[k]); Q->w += nd.pack->y[k]; charge(L, b, *nd.pack, k, name, 1); }
      ascend(L, name[nd.root], b, target - Q->w, guided ? &guide : nullptr, 0, *Q);
      if (Q->w > P->w || o_join == 2) { P = Q; swap(a, b); if (root != name[nd.root]) { root = name[nd.root]; guide_of(L, root, fit_best ? best_edges : local_tree, guide); } }
    }
    if (P->w < target) { ll w0 = P->w; int turns = top ? o_imp : o_adapt ? max(2, min(o_nimp, (int)(o_nimp * gain_rate * 2))) : o_nimp;
      refine(L, root, a, *P, target, guide, turns, name);
      if (!top) gain_rate = 0.97 * gain_rate + 0.03 * (P->w >= target ? 1 : P->w > w0 ? 0.5 : 0); }
    packs.push_back(P); used_root = L.orig[root];
    if (rounds.empty() && (!full_pack || P->w > full_pack->w)) { full_pack = P; full_root = L.orig[root]; }
    if (P->w + paid > top_low) { top_low = P->w + paid; top_pack = P; top_root = L.orig[root]; if (top) main_root = L.orig[root]; }
    low = max(low, P->w + paid);
    if (low >= goal()) { closed = true; break; }
    // trees along used-up arcs, and by perturbed costs
    if (T.grow(root, nullptr, &a.in, t)) { if (top || (o_nls && t.cost + paid < best + max<ll>(1, (best - low) * 2))) T.improve(t); note(t); }
    if (!top && o_nls >= 2) { vector<ll> c(L.m()); for (int i = 0; i < L.m(); i++) c[i] = 1 + 100 * L.ec[i] + rnd((int)min<ll>(50 * L.ec[i] + 1, 1000000000)); if (T.grow(musts[rnd((int)musts.size())], &c, nullptr, t)) { T.improve(t); note(t); } }
    if (top && low < goal()) {
      vector<ll> c(L.m());
      for (int k = 0; k < (stale >= 2 || round == 0 ? o_ils / 4 : o_ils) && low < goal() && !late(); k++) {
        int kind = k % 3;
        if (kind == 2 && elite_.size() < 2) kind = 0;
        if (kind == 2) { vector<char> cnt(G.edges.size(), 0); int x = rnd((int)elite_.size()), y = rnd((int)elite_.size()); for (int i : elite_[x].edges) cnt[i]++; for (int i : elite_[y].edges) cnt[i]++;
          for (int i = 0; i < L.m(); i++) { int z = cnt[L.eg[i]]; c[i] = 1 + L.ec[i] * (z == 2 ? 20 : z == 1 ? 40 + rnd(60) : 400); } }
        else if (kind == 1) { // by what is left of both arcs
          for (int v = 0; v < L.n; v++) for (int p = L.first[v]; p < L.first[v + 1]; p++) if (L.head[p] > v) c[L.edge[p]] = 1 + 10 * L.ec[L.edge[p]] + 100 * min(a.in[p], a.in[L.rev[p]]) + rnd((int)min<ll>(20 * L.ec[L.edge[p]] + 1, 1000000000)); }
        else for (int i = 0; i < L.m(); i++) c[i] = 1 + 100 * L.ec[i] + rnd((int)min<ll>(40 * L.ec[i] + 1, 1000000000));
        if (!T.grow(rnd(3) ? musts[rnd((int)musts.size())] : rnd(L.n), &c, nullptr, t)) continue;
        T.improve(t); note(t);
        Tree g; g.cost = t.cost + paid; for (int i : t.edges) g.edges.push_back(L.eg[i]);
        bool same = false; for (auto &x : elite_) same |= x.edges == g.edges;
        if (!same) { if (elite_.size() < 10) elite_.push_back(g); else { size_t w = 0; for (size_t z = 1; z < elite_.size(); z++) if (elite_[z].cost > elite_[w].cost) w = z; if (g.cost < elite_[w].cost) elite_[w] = g; } }
        if (low >= goal()) break;
      }
    }
    if (low >= goal()) { closed = true; break; }
    // deletion by bound
    if (o_fix) {
      vector<ll> down(L.n, INF), back; Heap h; down[root] = 0; h.push({0, root});
      while (!h.empty()) { auto [x, v] = h.top(); h.pop(); if (x > down[v]) continue;
        for (int p = L.first[v]; p < L.first[v + 1]; p++) { int w = L.head[p]; ll y = x + a.in[L.rev[p]]; if (y < down[w]) { down[w] = y; h.push({y, w}); } } }
      if (o_fix >= 2) { back.assign(L.n, INF); for (int v = 0; v < L.n; v++) if (v != root && (L.must[v] || L.prize[v] > 0)) { back[v] = 0; h.push({0, v}); }
        while (!h.empty()) { auto [x, v] = h.top(); h.pop(); if (x > back[v]) continue;
          for (int p = L.first[v]; p < L.first[v + 1]; p++) { int w = L.head[p]; ll y = x + a.in[p]; if (y < back[w]) { back[w] = y; h.push({y, w}); } } } }
      ll gap = goal() - paid - P->w; auto R = make_shared<Round>(); R->pack = P; vector<char> out(L.n, 0);
      for (int v = 0; v < L.n; v++) if (!L.must[v]) {
        ll x = down[v]; if (o_fix >= 2 && x < INF / 2) x = back[v] >= INF / 2 ? INF : x + back[v];
        if (x >= gap) { out[v] = 1; R->out.push_back(L.orig[v]); when[name0[L.orig[v]]] = (int)rounds.size(); deleted++; }
        else if (L.prize[v] > 0 && a.prize[v] >= gap) { L.must[v] = 1; L.prize[v] = 0; when[name0[L.orig[v]]] = (int)rounds.size(); R->in.push_back(L.orig[v]); deleted++; } }
      if (deleted && !top && (ll)deleted * 100 < (ll)o_fixmin * L.n) { deleted = 0;
        for (int v : R->out) when[name0[v]] = -1;
        for (int v : R->in) { int x = name[v]; L.must[x] = 0; L.prize[x] = L.pay[x]; when[name0[v]] = -1; } }
      if (deleted) { rounds.push_back(R); if (!R->out.empty() && !apply(out, (int)rounds.size() - 1)) { closed = true; low = best; } }
    }
    if (first) root_bound = min(best, low);
    if (best < before_best) stale = 0; else stale++;
    if (best < before_best || low > before_low || deleted * 50 > (size_t)L.n) idle = 0; else idle++;
    if (top && idle >= o_idle) break;
    if (!top && deleted * 10 > (size_t)L.n && limit < o_nrounds + 3) limit++;
    if (closed) break;
  }
  if (first) root_bound = min(best, max(low, root_bound));
  if (top) { root_primal = best; root_time = elapsed(); }
  if (late()) { stopped = true; return; }
  // records of the deletions; the closing packing that needs the fewest of them
  auto close_needs = [&](vector<char> &needed) {
    for (int k = (int)rounds.size(); k-- > 1;) { bool hit = false; for (auto *l : {&rounds[k]->out, &rounds[k]->in}) for (int v : *l) hit |= name0[v] >= 0 && needed[name0[v]];
      if (hit) needed_by(L0, name0, *rounds[k]->pack, needed, when, k); }
    for (size_t k = 0; k < rounds.size(); k++) for (auto *l : {&rounds[k]->out, &rounds[k]->in}) for (int v : *l) if (name0[v] >= 0 && when[name0[v]] == (int)k) { elim_total++;
      if (needed[name0[v]]) { elim_needed++; nodes += 2; closes++; cert_cuts += rounds[k]->pack->cuts(); cert_verts += rounds[k]->pack->pool.size(); } } };
  vector<char> needed(L0.n, 0);
  if (closed) {
    closes++;
    auto all_needed = [&](const Packing &Q) { vector<char> nn(L0.n, 0);
      needed_by(L0, name0, Q, nn, when, 1 << 30);
      for (int k = (int)rounds.size(); k-- > 1;) { bool hit = false; for (auto *l : {&rounds[k]->out, &rounds[k]->in}) for (int v : *l) hit |= name0[v] >= 0 && nn[name0[v]];
        if (hit) needed_by(L0, name0, *rounds[k]->pack, nn, when, k); }
      return nn; };
    auto size = [&](const vector<char> &x) { return (int)count(x.begin(), x.end(), 1); };
    needed = all_needed(*P); int many = size(needed);
    // prizes outside count in the bound only where the deletion is recorded
    for (auto &r : rounds) for (int v : r->out) if (name0[v] >= 0 && L0.prize[name0[v]] > 0) needed[name0[v]] = 1;
    many = size(needed);
    for (auto &Q : packs) if (many > 0 && Q->w + paid0 >= goal()) { auto nn = all_needed(*Q); int x = size(nn); if (x < many) { many = x; needed = nn; P = Q; } }
    int turns = top ? o_polish : o_npolish;
    if (many > 0 && turns > 0 && best < INF / 2) {               // the same without deletions
      Levels b; fresh(L0, b); auto Q = make_shared<Packing>(); vector<int> local; vector<int> nmust; for (int v = 0; v < L0.n; v++) if (L0.must[v]) nmust.push_back(v);
      int r = -1; if (used_root >= 0 && name0[used_root] >= 0 && L0.must[name0[used_root]]) r = name0[used_root];
      if (r < 0 && top_root >= 0 && L0.must[name0[top_root]]) r = name0[top_root];
      if (r >= 0) {
        ll target = goal() - paid0;
        for (int k = 0; k < P->cuts(); k++) { int q = name0[P->q[k]]; if (q < 0) continue;
          int st = ++S_.stamp; ll y = P->y[k]; if (!L0.must[q]) y = min(y, b.prize[q]); local.clear();
          for (int i = P->off[k]; i < P->off[k + 1]; i++) { int v = name0[P->pool[i]]; if (v >= 0) { S_.mark[v] = st; local.push_back(v); } }
          for (int v : local) for (int p = L0.first[v]; p < L0.first[v + 1]; p++) if (S_.mark[L0.head[p]] != st) y = min(y, b.in[p]);
          if (y <= 0 || S_.mark[r] == st) continue;
          for (int v : local) for (int p = L0.first[v]; p < L0.first[v + 1]; p++) if (S_.mark[L0.head[p]] != st) b.in[p] -= y;
          if (!L0.must[q]) b.prize[q] -= y;
          Q->add(local, L0.orig, q, y, 0); }
        Guide guide; guide_of(L0, r, best_edges, guide);
        if (Q->w < target) ascend(L0, r, b, target - Q->w, &guide, 0, *Q);
        if (Q->w < target) refine(L0, r, b, *Q, target, guide, turns, name0);
        if (Q->w >= target) { vector<char> nn(L0.n, 0); needed_by(L0, name0, *Q, nn, when, 0); needed = nn; P = Q; }
      } }
    many = size(needed);
    bool split = many > o_maxneed * (1 + nd.depth) && full_pack && nd.hints.empty();   // splits are cheaper than so many deletions
    if (!split) { cert_cuts += P->cuts(); cert_verts += P->pool.size(); close_needs(needed); return; }
    closes--; L = L0; paid = paid_start; rounds.clear(); top_pack = full_pack; top_root = full_root; low = max(nd.low, paid + full_pack->w);
    fill(when.begin(), when.end(), -1); fill(needed.begin(), needed.end(), 0);
  }
  // A split records the deletions where a large subtree is to come; else it forgets them,
  // and the halves find their own.
  auto split_at = [&](int v, double depth) {
    vector<signed char> state = nd.state;
    bool record = o_elim < 3 || !full_pack || (o_elim == 5 && depth > o_recdepth);
    if (record) {
      vector<char> alive(L0.n, 0); for (int x : L.orig) alive[name0[x]] = 1;
      for (auto &r : rounds) { for (int x : r->in) if (name0[x] >= 0) needed[name0[x]] = 1;
        for (int g : r->out) if (int x = name0[g]; x >= 0) { if (L0.prize[x] > 0) needed[x] = 1; for (int p = L0.first[x]; p < L0.first[x + 1]; p++) if (alive[L0.head[p]]) needed[x] = 1; } }
      close_needs(needed);
      for (int x = 0; x < L0.n; x++) if (!alive[x]) state[L0.orig[x]] = -1;
      for (int x = 0; x < L.n; x++) if (L.must[x] && !L.need[x]) state[L.orig[x]] = 1;
      rounds.clear();
    } else if (o_elim == 5 && !rounds.empty()) { rounds.clear(); top_pack = full_pack; top_root = full_root; low = max(nd.low, paid_start + full_pack->w); }
    push_children(nd, v, move(state), low, top_pack, top_root, stack, rounds); };
  // where to split
  Levels a; fresh(L, a); vector<int> name(G.n, -1); for (int v = 0; v < L.n; v++) name[L.orig[v]] = v;
  for (int k = 0; k < top_pack->cuts(); k++) if (name[top_pack->q[k]] >= 0) charge(L, a, *top_pack, k, name, 1);
  vector<int> used(L.n, 0), degree(L.n, 0), ldeg(L.n, 0);
  for (int v = 0; v < L.n; v++) for (int p = L.first[v]; p < L.first[v + 1]; p++) if (a.in[p] == 0) { used[v]++; if (o_br == 4) used[L.head[p]]++; }
  for (int i : best_edges) { int u = name[G.edges[i].u], v = name[G.edges[i].v]; if (u >= 0) degree[u]++; if (v >= 0) degree[v]++; }
  for (int i : local_tree) { int u = name[G.edges[i].u], v = name[G.edges[i].v]; if (u >= 0) ldeg[u]++; if (v >= 0) ldeg[v]++; }
  vector<pair<ll, int>> cand;
  for (int v = 0; v < L.n; v++) if (!L.must[v]) {
    ll wide = L.first[v + 1] - L.first[v], s;
    if (o_br == 0) s = (ldeg[v] >= 3 ? 1000000LL * ldeg[v] : ldeg[v] > 0 ? 1000000LL : 0) + wide;
    else if (o_br == 1 || o_br == 4) s = used[v] * 1000LL + wide;
    else if (o_br == 2) s = (degree[v] >= 3 ? 1000000LL * degree[v] : 0) + (ldeg[v] >= 3 ? 1000000LL * ldeg[v] : 0) + used[v] * 1000LL + wide;
    else s = wide;
    cand.push_back({-s, v}); }
  if (cand.empty()) { int v = -1; for (int x = 0; x < G.n && v < 0; x++) if (!G.need[x] && nd.state[x] == 0 && name0[x] >= 0) v = x; if (v < 0) { printf("WRONG: nothing to split\n"); exit(3); } split_at(v, 0); return; }
  sort(cand.begin(), cand.end()); int v = cand[0].second; double depth = 0;
  if (o_sb > 1) {
    ll top_score = -1; int root = name[top_root] >= 0 ? name[top_root] : -1;
    for (int v2 = 0; v2 < L.n && root < 0; v2++) if (L.must[v2]) root = v2;
    for (int k = 0; k < o_sb && k < (int)cand.size(); k++) { int u = cand[k].second; if (u == root) continue;
      vector<char> out(L.n, 0); out[u] = 1; int mm = 0; for (char x : L.must) mm += x;
      Local M = L.without(out); ll x, y, tgt = goal() - paid; int m2 = 0; for (char c : M.must) m2 += c;
      if (m2 < mm) x = tgt; else { int r = 0; for (int w = 0; w < M.n; w++) if (M.orig[w] == L.orig[root]) r = w; Levels b; fresh(M, b); Packing Q; x = ascend(M, r, b, tgt, nullptr, 0, Q) + L.prize[u]; }
      char old = L.must[u]; ll op = L.prize[u]; L.must[u] = 1; L.prize[u] = 0; { Levels b; fresh(L, b); Packing Q; y = ascend(L, root, b, tgt, nullptr, 0, Q); } L.must[u] = old; L.prize[u] = op;
      x = max<ll>(0, min(x, tgt) - (low - paid)) ; y = max<ll>(0, min(y, tgt) - (low - paid)); ll sc = (x + 1) * (y + 1) * 4 + min(x, y);
      if (sc > top_score) { top_score = sc; v = u; depth = (goal() - low) / max(0.5, (x + y) / 2.0); } } }
  split_at(L.orig[v], depth);
}

int main(int argc, char **argv) {
  if (argc < 2) { fprintf(stderr, "best FILE.stp [-t SECONDS] [-n NODES] [-p] [NAME=VALUE ...]\n"); return 2; }
  bool print = false;
  for (int i = 2; i < argc; i++) {
    if (!strcmp(argv[i], "-t")) time_limit = atof(argv[++i]);
    else if (!strcmp(argv[i], "-n")) node_limit = atoll(argv[++i]);
    else if (!strcmp(argv[i], "-p")) print = true;
    else if (char *e = strchr(argv[i], '=')) opt_.v[string(argv[i], e - argv[i])] = atof(e + 1);
  }
  read_options();
  start_ = chrono::steady_clock::now();
  ifstream in(argv[1]); string line, word; Graph g;
  if (!in) { fprintf(stderr, "no file\n"); return 2; }
  vector<Edge> raw; vector<pair<int, ll>> pays;
  while (getline(in, line)) {
    istringstream s(line); if (!(s >> word)) continue;
    for (auto &c : word) c = (char)toupper(c);
    if (word == "NODES") { s >> g.n; g.need.assign(g.n, 0); g.prize.assign(g.n, 0); }
    else if (word == "E") { Edge e; s >> e.u >> e.v >> e.c; e.c *= o_scale; e.u--; e.v--; e.id = (int)pool_.size(); pool_.push_back({e.u, e.v, e.c, -1, -1}); if (e.u != e.v) raw.push_back(e); }
    else if (word == "T") { int v; s >> v; g.need[v - 1] = 1; }
    else if (word == "TP") { int v; ll p; s >> v >> p; pays.push_back({v - 1, p * o_scale}); }
  }
  for (auto [v, p] : pays) if (!g.need[v]) g.prize[v] = p;
  for (auto &e : raw) if (e.u > e.v) swap(e.u, e.v);
  stable_sort(raw.begin(), raw.end(), [](const Edge &a, const Edge &b) { return tie(a.u, a.v, a.c) < tie(b.u, b.v, b.c); });
  for (auto &e : raw) if (g.edges.empty() || g.edges.back().u != e.u || g.edges.back().v != e.v) g.edges.push_back(e);
  stable_sort(g.edges.begin(), g.edges.end(), [](const Edge &a, const Edge &b) { return a.c < b.c; });
  Graph whole = g;
  if (count(g.need.begin(), g.need.end(), 1) == 0) {         // the best tree of one vertex
    best = 0; ll most = 0;
    for (ll p : g.prize) { best += p; most = max(most, p); }
    best -= most; have = true;
  }
  { Reducer r(g); r.run(true); if (!r.feasible) { printf("status infeasible\n"); return 0; } }
  double red_time = elapsed(); G = g;
  if (opt_.get("info", 0)) fprintf(stderr, "reduced n %d m %zu paid %lld time %.3f\n", g.n, g.edges.size(), g.paid, red_time);
  vector<Node> stack; stack.push_back({vector<signed char>(G.n, 0), G.paid, 0, nullptr, -1});
  ll open_low = INF;
  while (!stack.empty() && !stopped) {
    if (nodes >= node_limit || late()) { stopped = true; break; }
    size_t k = stack.size() - 1;
    if (o_bfs == 1 || (o_bfs == 2 && nodes % 2 == 0)) for (size_t i = 0; i < stack.size(); i++) if (stack[i].low < stack[k].low) k = i;
    swap(stack[k], stack.back()); Node nd = move(stack.back()); stack.pop_back(); ll l = nd.low;
    work(move(nd), stack);
    if (stopped) open_low = min(open_low, l);
  }
  for (auto &x : stack) open_low = min(open_low, x.low);

  // The answer against the file: a forest of one part, all required in it, its cost.
  if (have) {
    sort(best_ids.begin(), best_ids.end());
    vector<int> up(whole.n); iota(up.begin(), up.end(), 0);
    auto top = [&](int v) { while (up[v] != v) v = up[v] = up[up[v]]; return v; };
    vector<char> hit(whole.n, 0); ll cost = 0; bool good = true;
    for (int id : best_ids) {
      Origin &o = pool_[id]; int x = top(o.u), y = top(o.v);
      good &= x != y; up[x] = y; hit[o.u] = hit[o.v] = 1; cost += o.c;
    }
    if (best_ids.empty()) {
      int v = (int)(max_element(whole.need.begin(), whole.need.end()) - whole.need.begin());
      if (!whole.need[v]) v = (int)(max_element(whole.prize.begin(), whole.prize.end()) - whole.prize.begin());
      hit[v] = 1;
    }
    int part = -1;
    for (int v = 0; v < whole.n; v++) {
      if (hit[v]) { if (part < 0) part = top(v); good &= top(v) == part; }
      else { good &= !whole.need[v]; cost += whole.prize[v]; }
    }
    if (!good || cost != best) { printf("WRONG TREE: cost %lld, claimed %lld, tree %d\n", cost, best, (int)good); return 3; }
  }
  if (!have && !stopped) printf("status infeasible");
  else printf("status %s", stopped ? "open" : "optimal");
  double mb = 0;                                 // peak memory, as Linux counts it
  ifstream own("/proc/self/status");
  while (getline(own, line)) if (line.rfind("VmHWM:", 0) == 0) mb = atof(line.c_str() + 6) / 1024.0;
  printf(" cost %lld dual %lld rootbound %lld rootprimal %lld nodes %lld seconds %.3f mb %.1f", have ? best : -1, stopped ? min(best, open_low) : best, root_bound, root_primal, nodes, elapsed(), mb);
  printf(" roottime %.3f closes %lld cuts %lld setverts %lld elim %lld needed %lld ascents %lld\n", root_time, closes, cert_cuts, cert_verts, elim_total, elim_needed, asc_count);
  if (print) for (int id : best_ids) printf("E %d %d\n", pool_[id].u + 1, pool_[id].v + 1);
  return stopped ? 1 : 0;
}
