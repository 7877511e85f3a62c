#!/usr/bin/env bash
# Builds the command: bash tools/build.sh [--debian]. Proves the archive, then builds rust/cli over it, and leaves the program as
# target/winterhasp. The libraries come from cargo's registry; with --debian, or where that can't be reached, out of Debian's
# packages (tests/debian-crates.sh).
set -euo pipefail
cd "$(dirname "$0")/.."
bash tools/proved.sh host
. tests/x86.sh
out_of_packages() {
    # a lock file of another registry would stop it, as one of the packages would stop that
    rm -f Cargo.lock
    # shellcheck disable=SC2046
    cargo build --release $(bash ../../tests/debian-crates.sh)
}
(
    cd rust/cli
    if grep -qs "Could not get crate checksum" Cargo.lock; then rm Cargo.lock; fi
    if [ "${1:-}" = --debian ]; then
        out_of_packages
    else
        cargo build --release || out_of_packages
    fi
)
ln -sf "../$built_command/release/winterhasp" target/winterhasp
echo "target/winterhasp is built"
