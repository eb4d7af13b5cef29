#!/usr/bin/env bash
# Times the reading of Verilog texts, beside yosys and Icarus Verilog on the same texts where they are installed.
# Usage: bench/read.sh [chain|ports]
#   chain: one module of 1,000 to 100,000 wires, each of which copies the next
#   ports: a module of 1,000 to 100,000 inputs, and one that uses it
# The time of the reader is that of the program net_speed with the step `read`, less that with the step `printed`: the text isn't a file.
set -eu
top=$(cd "$(dirname "$0")/.." && pwd)
form=${1:-chain}
work=$(mktemp -d)
trap 'rm -rf "$work"' EXIT
. "$top/bench/least.sh"
"$top/tools/build-program" net_speed
program=$top/crates/net_speed/out/net_speed

# The time of a tool, or a sign where it isn't installed.
beside() {
  if command -v "$1" >/dev/null; then least 1 "$@"; else echo -; fi
}

printf '%8s %10s %10s %8s %8s %14s %14s\n' wires bytes 'read us' 'ns byte' 'to first' 'yosys us' 'iverilog us'
first=
for wires in 1000 10000 100000; do
  "$program" "$form" "$wires" text >"$work/text.v"
  bytes=$(wc -c <"$work/text.v")
  printed=$(least 9 "$program" "$form" "$wires" printed)
  both=$(least 9 "$program" "$form" "$wires" read)
  mine=$((both - printed))
  each=$(awk "BEGIN { printf \"%.1f\", $mine * 1000 / $bytes }")
  first=${first:-$each}
  growth=$(awk "BEGIN { printf \"%.2f\", $each / $first }")
  yosys=$(beside yosys -q -p "read_verilog $work/text.v")
  other=$(beside iverilog -g2005 -tnull "$work/text.v")
  printf '%8d %10d %10d %8s %8s %14s %14s\n' "$wires" "$bytes" "$mine" "$each" "$growth" "$yosys" "$other"
done
