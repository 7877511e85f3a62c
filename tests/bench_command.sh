#!/usr/bin/env bash
# Times `winterhasp list` over a folder of 1,000 files beside `opj_dump` on the same, and measures time and memory on a sparse
# file of 3 GB: tests/bench_command.sh [PROGRAM]. opj_dump takes one file at a time, reads its main header and lists no
# tile-part.
set -euo pipefail
cd "$(dirname "$0")/.."
program=$(realpath "${1:-rust/cli/target/release/winterhasp}")
rounds=5
installed() {
    command -v "$1" >/dev/null || { apt-get update -q && apt-get install -y -q --no-install-recommends "$2"; } >&2
}
installed opj_dump libopenjp2-tools
installed /usr/bin/time time
folder=$(mktemp -d)
trap 'rm -rf "$folder"' EXIT

# 20 files of OpenJPEG, of 40 to 1,500 tile-parts, 50 times each
make_files() {
    mkdir "$folder/files"
    python3 -c 'import sys; sys.stdout.buffer.write(b"P5\n640 480\n255\n" + bytes((x * 3 + y * 5) & 255 for y in range(480) for x in range(640)))' \
        >"$folder/image.pgm"
    for kind in {0..19}; do
        side=$((32 << kind % 3))
        suffix=$([ $((kind % 2)) = 0 ] && echo jp2 || echo j2k)
        opj_compress -i "$folder/image.pgm" -o "$folder/one.$suffix" -t $side,$side -n $((2 + kind % 4)) -TP R >/dev/null
        for copy in {0..49}; do cp "$folder/one.$suffix" "$folder/files/$kind-$copy.$suffix"; done
    done
}

# the least of several rounds, in seconds
best() {
    for _ in $(seq $rounds); do
        local before after
        before=$(date +%s%N)
        "$@" >/dev/null 2>&1
        after=$(date +%s%N)
        echo $((after - before))
    done | sort -n | awk 'NR == 1 { printf "%.3f", $1 / 1e9 }'
}

dump_each() {
    for file in "$folder"/files/*; do opj_dump -i "$file"; done
}

list_each() {
    for file in "$folder"/files/*; do "$program" list "$file"; done
}

make_files
echo "| 1,000 files, $(du -sm "$folder/files" | cut -f 1) MB | seconds |"
echo "|---|---:|"
echo "| \`winterhasp list FOLDER\` | $(best "$program" list "$folder/files") |"
echo "| \`winterhasp list -j 1 FOLDER\` | $(best "$program" list -j 1 "$folder/files") |"
echo "| \`winterhasp list --json FOLDER\` | $(best "$program" list --json "$folder/files") |"
echo "| \`opj_dump -i FILE\`, file by file | $(rounds=1 best dump_each) |"
echo "| \`winterhasp list FILE\`, file by file | $(rounds=1 best list_each) |"

# two tile-parts of 1.5 GB behind sample A's header
python3 - "$folder/sparse.j2k" <<'PYTHON'
import struct, sys

sys.path.insert(0, "tests")
from listing import EOC, SOC, part, siz

size = 3 << 29
with open(sys.argv[1], "wb") as file:
    file.write(SOC + siz())
    for tile in 0, 1:
        file.seek(len(SOC + siz()) + tile * size)
        file.write(part(tile, 14)[:6] + struct.pack(">I", size) + bytes(2))
    file.seek(len(SOC + siz()) + 2 * size)
    file.write(EOC)
PYTHON
/usr/bin/time -f '\na sparse file of 3 GB: %e s, %M KB at most' "$program" list "$folder/sparse.j2k" 2>&1 >/dev/null
