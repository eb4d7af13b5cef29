#!/usr/bin/env bash
# Times `chw emit` on descriptions of one letrec, beside yosys reading the printed text where yosys is installed.
# A description that is refused has its line in place of times.
# Usage: bench/flat.sh [sum|copy|order|tower]
#   sum: each binding adds the two before it (about 130 bytes a binding), of 8 to 64 KiB, since the rewriting isn't linear
#   copy: each binding is the one after it (about 30 bytes a binding), of 64 KiB to just under 1 MiB
#   order: in place of texts, nets of 25,000 to 200,000 wires, each of which waits for the next, by the program net_speed, beside tsort
#   tower: nets of about as many flat wires in 1,000 modules, each of which uses the one before it: the time of each step of net_speed
set -eu
top=$(cd "$(dirname "$0")/.." && pwd)
form=${1:-sum}
work=$(mktemp -d)
trap 'rm -rf "$work"' EXIT
. "$top/bench/least.sh"

# A description of about this many bytes. The copies stand in reverse order, and end in a register, so that an order has to be looked for.
make() {
  python3 - "$1" "$form" <<'PY'
import sys
size, form = int(sys.argv[1]), sys.argv[2]
head = "domain S;def main:Signal S(Unsigned 8)->Signal S(Unsigned 8)=\\(x:Signal S(Unsigned 8)).letrec{"
out, n = [], len(head) + 60
if form == "sum":
    k = 0
    before = ["x", "x"]
    while True:
        y, z = before
        line = f"b{k}:Signal S(Unsigned 8)=ap @S @(Unsigned 8) @(Unsigned 8)(fmap @S @(Unsigned 8) @(Unsigned 8->Unsigned 8)(addU @8) {y}) {z};"
        if n + len(line) > size: break
        out.append(line); n += len(line)
        before = [z, f"b{k}"]; k += 1
    last = before[1]
else:
    k = 0
    while n + 40 < size:
        line = f"b{k}:Signal S(Unsigned 8)=b{k + 1};"
        out.append(line); n += len(line); k += 1
    out.append(f"b{k}:Signal S(Unsigned 8)=register @S @(Unsigned 8) 0u8 x;")
    last = "b0"
print(head + "".join(out) + "}in " + last + ";top main(x)(o);", end="")
PY
}

# The time of one step of net_speed on a net, in nanoseconds a wire: that of the program that goes as far as it, less that of the one that
# goes as far as the step before.
step() {
  local form=$1 wires=$2 before=$3 after=$4 first last
  first=$(least 40 "$program" "$form" "$wires" "$before")
  last=$(least 40 "$program" "$form" "$wires" "$after")
  echo $(((last - first) * 1000 / wires))
}

# Orders nets, beside tsort on the same graph as a text: each wire is read by the cell that drives the one before it.
if [ "$form" = order ]; then
  "$top/tools/build-program" net_speed
  program=$top/crates/net_speed/out/net_speed
  printf '%10s %12s %12s %10s %12s %8s\n' wires 'net_speed us' 'ns a wire' 'to first' 'tsort us' ratio
  first=
  for wires in 25000 50000 100000 200000; do
    seq 1 $((wires - 1)) | awk -v n="$wires" '{ print ($1 + 1) % n, $1 }' >"$work/graph"
    [ "$("$program" chain "$wires" ordered)" = $((wires - 1)) ]
    mine=$(least 40 "$program" chain "$wires" ordered)
    other=$(least 40 tsort "$work/graph")
    each=$((mine * 1000 / wires))
    first=${first:-$each}
    printf '%10d %12d %12d %10s %12d %8s\n' "$wires" "$mine" "$each" "$(awk "BEGIN { printf \"%.2f\", $each / $first }")" "$other" "$(awk "BEGIN { printf \"%.2f\", $mine / $other }")"
  done
  exit
fi

# Judges, flattens, orders and prints nets of one module and of many.
if [ "$form" = tower ]; then
  "$top/tools/build-program" net_speed
  program=$top/crates/net_speed/out/net_speed
  printf '%10s %8s %12s %12s %12s %12s\n' net wires 'judge ns' 'flatten ns' 'order ns' 'print ns'
  for net in chain tower; do
    for wires in 25000 50000 100000 199000; do
      printf '%10s %8d %12d %12d %12d %12d\n' "$net" "$wires" "$(step "$net" "$wires" made judged)" "$(step "$net" "$wires" judged flat)" \
        "$(step "$net" "$wires" flat ordered)" "$(step "$net" "$wires" judged printed)"
    done
  done
  exit
fi

# Builds the program where it isn't built. With no words it ends with status 2.
"$top/chw" >/dev/null 2>"$work/log" || [ $? = 2 ] || { cat "$work/log" >&2; exit 1; }
program=$top/crates/chw/out/chw

printf '%10s %9s %12s %12s %12s %8s\n' bytes bindings 'chw us' 'ns a byte' 'yosys us' ratio
sizes='65536 131072 262144 524288 1048000'
[ "$form" = copy ] || sizes='8192 16384 32768 65536'
for size in $sizes; do
  make "$size" >"$work/a.chw"
  bytes=$(stat -c %s "$work/a.chw")
  "$program" emit "$work/a.chw" --budget 10000000 >"$work/a.v" 2>"$work/line" || { printf '%10d %s\n' "$bytes" "$(cat "$work/line")"; continue; }
  chw=$(least 5 "$program" emit "$work/a.chw" --budget 10000000)
  yosys=- ratio=-
  if command -v yosys >/dev/null; then
    yosys=$(least 5 yosys -q -p "read_verilog -sv $work/a.v")
    ratio=$(awk "BEGIN { printf \"%.2f\", $chw / $yosys }")
  fi
  printf '%10d %9d %12d %12d %12s %8s\n' "$bytes" "$(grep -c 'assign w\|always' "$work/a.v")" "$chw" "$((chw * 1000 / bytes))" "$yosys" "$ratio"
done
