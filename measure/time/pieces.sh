#!/usr/bin/env bash
# Checks a log on an STP file, reading the log in pieces of 64 KiB: pieces.sh FILE LOG. Prints the verdict, the bytes of
# the log, the processor's milliseconds and the peak memory in KiB.
set -euo pipefail

here=$(cd "$(dirname "$0")" && pwd)
. "$here/crate.sh"
build_crate checked_pieces cert_checker log_format stp_reader anyhow
/usr/bin/time -f "  peak KiB: %M" "$program" "$1" "$2"
