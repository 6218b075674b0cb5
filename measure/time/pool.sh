#!/usr/bin/env bash
# Times a million gives and takes of a pool beside those of a std::deque under a std::mutex in C++: pool.sh.
set -euo pipefail

here=$(cd "$(dirname "$0")" && pwd)
. "$here/crate.sh"
build_crate pool st_model cut_packing branching node_pool anyhow
g++ -O2 -std=c++17 -pthread -o "$scratch/plain_pool" "$here/plain_pool.cpp"
"$program" | sed 's/^/pool: /'
"$scratch/plain_pool" | sed 's/^/C++: /'
