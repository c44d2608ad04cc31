#!/bin/sh
# Times projects of 1 to 16 panels, alike and all different, as bench/run.sh times its own, with ORACLE beside the published Rust. It stands on what
# `bench/run.sh` and `tools/plan.sh` have built.
set -eu
cd "$(dirname "$0")/.."
room=$(mktemp -d)
trap 'rm -rf "$room"' EXIT
for count in 1 2 3 4 6 8 12 16; do
    name=$(printf %02d "$count")
    printf 'kerf 3\nboard 1 2440 1220 x 4\npanel 1 764 300 x %d turn\n' "$count" | crates/project_text/out/project_text >"$room/alike_$name"
    { printf 'kerf 3\nboard 1 2440 1220 x 4\n'
      for k in $(seq 0 $((count - 1))); do echo "panel $k $((764 - 37 * k)) $((300 + 13 * k)) turn"; done
    } | crates/project_text/out/project_text >"$room/different_$name"
done
target/bench/driver time "$room" "${REPS:-501}"
