#!/usr/bin/env bash
# Times each rule of flow on a term of 10,000 nodes that has no instance of it at its root.
# Usage: bench/rules.sh
# The time of a trial is that of the row of rule_rows with 2,000,000 trials, less that with none.
set -eu
top=$(cd "$(dirname "$0")/.." && pwd)
work=$(mktemp -d)
trap 'rm -rf "$work"' EXIT
. "$top/bench/least.sh"
"$top/tools/build-program" rule_rows
program=$top/crates/rule_rows/out/rule_rows
times=2000000

printf '%10s %10s\n' rule 'ns a trial'
for rule in TYBETA BETA APPLET APPCASE CASECON CASELET CASECASE PROJ PRIMLET PRIMCASE FLAT; do
  echo "trials $rule 0" >"$work/none"
  echo "trials $rule $times" >"$work/all"
  none=$(least 5 "$program" "$work/none")
  all=$(least 5 "$program" "$work/all")
  printf '%10s %10s\n' "$rule" "$(awk "BEGIN { printf \"%.1f\", ($all - $none) * 1000 / $times }")"
done
