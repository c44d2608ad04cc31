#!/bin/bash
# part_gate.sh [--anew] NAME...: the gate of these crates and of all that they depend on, by `rt ci NAME..`, and how long it took. What a run of the gate passed
# before is kept and not proved again, but with --anew. A bad edit fails it, as it fails .ci/run.
set -u -o pipefail
cd "$(dirname "$0")/.."
log=$(mktemp)
trap 'rm -f "$log"' EXIT
began=$(date +%s)
rt ci "$@" 2>&1 | tee "$log"
status=$?
echo "$(($(date +%s) - began)) s"
if grep -q 'BAD EDIT' "$log"; then
    echo "an edit is bad: see BAD EDIT above" >&2
    exit 1
fi
exit $status
