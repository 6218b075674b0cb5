#!/usr/bin/env bash
# Times fewest beside the plain C++ search of the same graph: flow_cuts.sh [ROUNDS]. In each round either program
# runs once, by turns, and looks for the sets of five vertices. What the rest of the machine does changes the figures
# of both, so that their ratio counts, in the processor's time.
set -euo pipefail

rounds=${1:-5}
here=$(cd "$(dirname "$0")" && pwd)
. "$here/crate.sh"
build_crate measured_cuts st_model graph_store bidirected_form flow_cuts anyhow
g++ -O2 -std=c++17 -o "$scratch/plain_flow_cuts" "$here/plain_flow_cuts.cpp"

for ((round = 1; round <= rounds; round++)); do
    "$scratch/plain_flow_cuts" 100000 400000 | sed 's/^/plain C++: /'
    "$program" | sed 's/^/fewest: /'
done | tee "$scratch/figures"

# The middle one of a program's sums, over the five vertices, of the processor's time.
median() {
    awk -v name="$1" 'index($0, name) == 1 { sum += $(NF - 1); if (++k % 5 == 0) { print sum; sum = 0 } }' "$scratch/figures" |
        sort -n | awk '{ all[NR] = $1 } END { print all[int((NR + 1) / 2)] }'
}

plain=$(median 'plain C++')
ours=$(median fewest)
awk -v ours="$ours" -v plain="$plain" 'BEGIN {
    printf "medians, of the processor: fewest %d ms, plain C++ %d ms, ratio %.2f\n", ours, plain, ours / plain
}'
