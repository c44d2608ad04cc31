#!/bin/sh
# Builds the static library (proved) and the driver, checks the lent memory's promises on the projects beside this file, and times them.
# With ORACLE=path of the published Rust's program, each time stands beside the Rust's of the same run.
set -eu
cd "$(dirname "$0")/.."
bench/archive.sh optimizer_c optimizer
mkdir -p target/bench
rustc -O -C target-cpu=x86-64 --edition 2021 bench/driver.rs -o target/bench/driver -L native=target/staticlib -l static=optimizer
exec target/bench/driver time bench/projects "${REPS:-51}"
