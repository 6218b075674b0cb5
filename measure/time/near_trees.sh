#!/usr/bin/env bash
# How long the distances from all required vertices of STP files in which nobody pays take, how long near trees take, each in the
# processor's nanoseconds, and what these trees cost: near_trees.sh FILE ..
set -euo pipefail

here=$(cd "$(dirname "$0")" && pwd)
. "$here/crate.sh"
build_crate near_trees st_model graph_store stp_reader short_paths tree_heuristic twice_tree
"$program" "$@"
