#!/usr/bin/env bash
# Times ten million sees, offers and claims on the words that threads share beside std::atomic of C++: words.sh.
set -euo pipefail

here=$(cd "$(dirname "$0")" && pwd)
. "$here/crate.sh"
build_crate words incumbent open_ledger anyhow
g++ -O2 -std=c++17 -pthread -o "$scratch/plain_words" "$here/plain_words.cpp"
"$program" | sed 's/^/ours: /'
"$scratch/plain_words" | sed 's/^/C++: /'
