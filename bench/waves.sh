#!/usr/bin/env bash
# Times the reading of texts of waves, beside vcd2fst of GTKWave on the same texts where it is installed.
# Usage: bench/waves.sh
# The texts are of 1, 8 and 64 MiB: a clock, and an output of 32 bits that changes at each event.
# The time of the reader is that of the program net_speed with the step `read`, less that with the step `printed`: the text isn't a file.
set -eu
top=$(cd "$(dirname "$0")/.." && pwd)
work=$(mktemp -d)
trap 'rm -rf "$work"' EXIT
. "$top/bench/least.sh"
"$top/tools/build-program" net_speed
program=$top/crates/net_speed/out/net_speed

printf '%8s %10s %10s %8s %8s %14s\n' events bytes 'read us' 'ns byte' 'to first' 'vcd2fst us'
first=
for events in 19000 149000 1138000; do
  "$program" waves "$events" text >"$work/text.vcd"
  bytes=$(wc -c <"$work/text.vcd")
  printed=$(least 5 "$program" waves "$events" printed)
  both=$(least 5 "$program" waves "$events" read)
  mine=$((both - printed))
  each=$(awk "BEGIN { printf \"%.1f\", $mine * 1000 / $bytes }")
  first=${first:-$each}
  growth=$(awk "BEGIN { printf \"%.2f\", $each / $first }")
  other=-
  if command -v vcd2fst >/dev/null; then other=$(least 1 vcd2fst "$work/text.vcd" "$work/text.fst"); fi
  printf '%8d %10d %10d %8s %8s %14s\n' "$events" "$bytes" "$mine" "$each" "$growth" "$other"
done
