#!/bin/sh
# compare.sh DIR: generated projects through the planner and the published Rust, text by text, and each plan through the marker.
# DIR holds the oracle: gen.py, mark.py and rust/target/release/oracle. KINDS: kind:count of each seed. SEEDS: which seeds.
set -eu
oracle=$1
driver=$(cd "$(dirname "$0")/.." && pwd)/target/bench/driver
room=$(mktemp -d)
trap 'rm -rf "$room"' EXIT
for seed in ${SEEDS:-1 2 3 4 5}; do
    for kind in ${KINDS:-small:6000 medium:5000 large:2000 tight:3000 edge:1600 damaged:1000 worst:400 grid:2000}; do
        count=${kind#*:} kind=${kind%%:*}
        python3 "$oracle/gen.py" "$seed" "$count" "$kind" mix >"$room/projects"
        "$oracle/rust/target/release/oracle" batch <"$room/projects" >"$room/rust"
        "$driver" batch <"$room/projects" >"$room/ours"
        cmp "$room/rust" "$room/ours"
        printf '%s %s of seed %s equal; ' "$count" "$kind" "$seed"
        python3 "$oracle/mark.py" "$room/projects" "$room/ours" | tail -n 1
    done
done
