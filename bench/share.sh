#!/usr/bin/env bash
# Times the sharing of equal wires by the program net_speed, beside yosys' opt_merge and opt_clean on the same text where it is installed.
# Usage: bench/share.sh
# The nets are twice the same pipeline of sums and registers, of 250 to 200,000 wires. One of the two is left. Yosys has the smaller ones alone.
# The time of sharing is that of the program with the step `shared`, less that with the step `ordered`. That of yosys is the whole
# command's, less that of the command which only reads the text. Beside the cells that are left stand those that yosys leaves.
set -eu
top=$(cd "$(dirname "$0")/.." && pwd)
work=$(mktemp -d)
trap 'rm -rf "$work"' EXIT
. "$top/bench/least.sh"
"$top/tools/build-program" net_speed
program=$top/crates/net_speed/out/net_speed

printf '%8s %8s %10s %10s %8s %11s %12s %8s\n' wires left 'share us' 'ns a wire' 'to first' 'yosys left' 'yosys us' ratio
first=
for wires in 250 500 1000 20000 200000; do
  left=$("$program" twice "$wires" shared)
  before=$(least 9 "$program" twice "$wires" ordered)
  after=$(least 9 "$program" twice "$wires" shared)
  mine=$((after - before))
  each=$((mine * 1000 / wires))
  first=${first:-$each}
  theirs=- yosys=- ratio=-
  if command -v yosys >/dev/null && [ "$wires" -le 1000 ]; then
    "$program" twice "$wires" text >"$work/net.v"
    read="read_verilog $work/net.v; hierarchy -top chw_top; proc"
    theirs=$(yosys -p "$read; opt_merge; opt_clean; stat" | awk '/Number of cells:/ { print $4 }')
    none=$(least 3 yosys -q -p "$read")
    whole=$(least 3 yosys -q -p "$read; opt_merge; opt_clean")
    yosys=$((whole - none))
    ratio=$(awk "BEGIN { printf \"%.3f\", $mine / $yosys }")
  fi
  growth=$(awk "BEGIN { printf \"%.2f\", $each / $first }")
  printf '%8d %8d %10d %10d %8s %11s %12s %8s\n' "$wires" "$left" "$mine" "$each" "$growth" "$theirs" "$yosys" "$ratio"
done
