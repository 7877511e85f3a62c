#!/usr/bin/env bash
# Proves what is named and leaves it where programs are built over it: tools/proved.sh NAME ..
#
#     host, probe   the archive of what crate NAME_c exports for C, as target/staticlib/libNAME.a
#     tileparts     the listing program, as target/bin/tileparts
set -euo pipefail
[ $# -gt 0 ] || { sed -n '2,5s/^# \?//p' "$0"; exit 2; }
cd "$(dirname "$0")/.."
mkdir -p target/staticlib target/bin
for name; do
    case $name in
    host | probe)
        (cd "crates/${name}_c" && rt lib)
        cp "crates/${name}_c/out/lib${name}_c.a" "target/staticlib/lib$name.a"
        ;;
    tileparts)
        # it lists nothing of an empty input, and ends well
        (cd crates/tileparts && rt run </dev/null)
        cp crates/tileparts/out/tileparts target/bin/tileparts
        ;;
    *)
        echo "$name is none of host, probe and tileparts" >&2
        exit 2
        ;;
    esac
done
