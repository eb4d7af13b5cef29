#!/usr/bin/env bash
# Times the making and the printing of single bits by the program net_speed, beside yosys on the same net where it is installed.
# Usage: bench/blif.sh
# The nets are a chain of copies, and twice a pipeline of sums and registers, each of 5,000, 50,000 and 500,000 nodes. The last is the
# limit: a net with one wire more is refused.
# The time of making is that of the program with the step `blasted`, less that with the step `flat`. That of printing is that with the
# step `bits`, less that with `blasted`. The memory is the most that the program holds with the step `bits`, with the net and the text.
# That of yosys is the whole command that reads the Verilog text and writes the gates; `ratio` is that of making and printing to it.
set -eu
top=$(cd "$(dirname "$0")/.." && pwd)
work=$(mktemp -d)
trap 'rm -rf "$work"' EXIT
. "$top/bench/least.sh"
"$top/tools/build-program" net_speed
program=$top/crates/net_speed/out/net_speed

# the most memory that a command holds, in MiB
held() {
  python3 -c 'import resource, subprocess, sys
subprocess.run(sys.argv[1:], stdout=subprocess.DEVNULL)
print(resource.getrusage(resource.RUSAGE_CHILDREN).ru_maxrss // 1024)' "$@"
}

printf '%6s %7s %8s %9s %8s %9s %8s %9s %5s %10s %6s\n' form wires nodes 'made us' 'ns each' 'put us' 'ns each' 'to first' MiB 'yosys us' ratio
for form in chain twice; do
  first=
  case $form in chain) sizes="626 6251 62501" ;; *) sizes="399 3999 39999" ;; esac
  for wires in $sizes; do
    nodes=$("$program" "$form" "$wires" blasted)
    flat=$(least 5 "$program" "$form" "$wires" flat)
    blasted=$(least 5 "$program" "$form" "$wires" blasted)
    bits=$(least 5 "$program" "$form" "$wires" bits)
    made=$((blasted - flat)) put=$((bits - blasted))
    both=$(((made + put) * 1000 / nodes))
    first=${first:-$both}
    yosys=- ratio=-
    if command -v yosys >/dev/null; then
      "$program" "$form" "$wires" text >"$work/net.v"
      yosys=$(least 1 yosys -q -p "read_verilog $work/net.v; hierarchy -top chw_top; proc; techmap; write_blif $work/net.blif")
      ratio=$(awk "BEGIN { printf \"%.3f\", ($made + $put) / $yosys }")
    fi
    printf '%6s %7d %8d %9d %8d %9d %8d %9s %5d %10s %6s\n' "$form" "$wires" "$nodes" "$made" "$((made * 1000 / nodes))" \
      "$put" "$((put * 1000 / nodes))" "$(awk "BEGIN { printf \"%.2f\", $both / $first }")" "$(held "$program" "$form" "$wires" bits)" "$yosys" "$ratio"
  done
done
