#!/bin/sh
# archive.sh CRATE NAME: proves and builds the static library CRATE, and copies it to target/staticlib/libNAME.a, where callers in C and Rust find it.
set -eu
cd "$(dirname "$0")/.."
log=$(mktemp)
trap 'rm -f "$log"' EXIT
(cd "crates/$1" && rt lib) >"$log" 2>&1 || { cat "$log" >&2; exit 1; }
mkdir -p target/staticlib
cp "crates/$1/out/lib$1.a" "target/staticlib/lib$2.a"
