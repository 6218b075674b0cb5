#!/usr/bin/env bash
# Times reduction steps in drawn networks of three sizes: those by which a vertex goes, leading a tree back over
# them, and the whole search for steps, in the processor's milliseconds.
set -euo pipefail

here=$(cd "$(dirname "$0")" && pwd)
. "$here/crate.sh"
build_crate measured_steps st_model graph_store instance_gen lift_back reductions tree_heuristic anyhow
"$program"
