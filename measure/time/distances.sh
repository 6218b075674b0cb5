#!/usr/bin/env bash
# Times from_many beside the plain C++ search of the same graph: distances.sh [ROUNDS]. In each round either
# program runs once, by turns, and searches five times. What the rest of the machine does changes the figures
# of both, so that their ratio counts, in the processor's time.
set -euo pipefail

rounds=${1:-5}
here=$(cd "$(dirname "$0")" && pwd)
. "$here/crate.sh"
build_crate distances st_model graph_store short_paths anyhow
g++ -O2 -std=c++17 -o "$scratch/plain_distances" "$here/plain_distances.cpp"

for ((round = 1; round <= rounds; round++)); do
    "$scratch/plain_distances" 200000 800000 | sed 's/^/plain C++: /'
    "$program" | sed 's/^/from_many: /'
done | tee "$scratch/figures"

# The middle one of a program's figures of the processor's time.
median() {
    awk -v name="$1" 'index($0, name) == 1 { print $(NF - 1) }' "$scratch/figures" | sort -n |
        awk '{ all[NR] = $1 } END { print all[int((NR + 1) / 2)] }'
}

plain=$(median 'plain C++')
ours=$(median from_many)
awk -v ours="$ours" -v plain="$plain" 'BEGIN {
    printf "medians, of the processor: from_many %d ms, plain C++ %d ms, ratio %.2f\n", ours, plain, ours / plain
}'
