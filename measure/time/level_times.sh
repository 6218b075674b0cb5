#!/usr/bin/env bash
# Times close_all on branches of growing size in which every vertex has to be reached: level_times.sh.
# The time is the processor's.
set -euo pipefail

here=$(cd "$(dirname "$0")" && pwd)
. "$here/crate.sh"
build_crate level_times st_model cut_packing level_packing anyhow
"$program"
