#!/usr/bin/env bash
# The libraries of the command (rust/cli) out of Debian's packages, for a machine whose cargo has no registry at hand: installs
# what is missing, and prints the words by which cargo takes them, and nothing else, on standard output:
#
#     cd rust/cli && cargo build --release $(bash ../../tests/debian-crates.sh)
#
# cargo then writes a Cargo.lock with sums that no other registry knows: remove it before a build with another one.
set -euo pipefail
packages="librust-clap-dev librust-clap-complete-dev librust-indicatif-dev librust-libc-dev librust-memmap2-dev
    librust-rayon-dev librust-serde-dev librust-serde-derive-dev librust-serde-json-dev"
# shellcheck disable=SC2086
if ! dpkg --status $packages >/dev/null 2>&1; then
    { apt-get update -q && apt-get install -y -q --no-install-recommends $packages; } >&2
fi
echo '--offline --config source.crates-io.replace-with="debian" --config source.debian.directory="/usr/share/cargo/registry"'
