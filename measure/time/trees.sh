#!/usr/bin/env bash
# What first trees of STP files cost once they are pruned, and once they are improved, and the processor's
# microseconds of both: trees.sh FILE ..
set -euo pipefail

here=$(cd "$(dirname "$0")" && pwd)
. "$here/crate.sh"
build_crate measured_trees st_model graph_store stp_reader tree_heuristic local_search
"$program" "$@"
