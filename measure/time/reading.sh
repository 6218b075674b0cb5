#!/usr/bin/env bash
# How many instructions a program takes that only reads STP files, by valgrind, which other load doesn't disturb: reading.sh FILE ..
set -euo pipefail

here=$(cd "$(dirname "$0")" && pwd)
. "$here/crate.sh"
build_crate reading stp_reader
for file in "$@"; do
    valgrind --tool=callgrind --callgrind-out-file="$scratch/calls" "$program" "$file" 2>&1 | sed -n 's/.*Collected : //p'
done
