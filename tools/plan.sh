#!/bin/sh
# plan.sh FILE: plans a project that a person has typed, prints the plan and draws its sheets. The programs are proved and built first, once.
set -eu
typed=$(readlink -f "$1")
cd "$(dirname "$0")/.."
log=$(mktemp)
trap 'rm -f "$log"' EXIT
for program in project_text cutplan; do
    (cd "crates/$program" && rt run </dev/null >/dev/null 2>"$log") || { cat "$log"; exit 1; }
done
plan=$(crates/project_text/out/project_text <"$typed" | crates/cutplan/out/cutplan)
printf '%s\n' "$plan"
printf '%s\n' "$plan" | python3 tools/draw.py | tail -n +2
