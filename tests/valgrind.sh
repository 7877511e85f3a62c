#!/usr/bin/env bash
# Runs every function of the archives under valgrind, on structured and damaged inputs, in memory of exactly the size that is
# lent. A read or write outside, use of what was never written, or memory lost: a status other than 0.
# Needs rust/target/release/guarded, from cargo build --release in rust/, or the program that GUARDED names. Where the processor
# is not the program's, valgrind can't follow it, and it runs by itself: its guard pages still catch a read or write outside.
set -euo pipefail
cd "$(dirname "$0")/.."
guarded=${GUARDED:-rust/target/release/guarded}
calls=40000

if [ "$(uname -m)" != x86_64 ]; then
    echo "VALGRIND WAS NOT RUN: it can't follow x86-64 code on this processor"
    "$guarded" --calls "$calls"
    exit
fi
command -v valgrind >/dev/null || { apt-get update -q && apt-get install -y -q valgrind; }
valgrind --quiet --error-exitcode=1 --leak-check=full "$guarded" --calls "$calls"
echo "valgrind: no error in $calls calls"
