#!/usr/bin/env bash
# Times `chw emit`, `chw simulate` and `chw make`: the whole process, from the first byte read to the last written.
# Usage: bench/circuits.sh [emit|taps|simulate|make]
#   emit: `emit` of each description in examples, with the most memory that the process held
#   taps: `emit` of filters of 8 to 64 taps, beside yosys reading the printed text
#   simulate: `simulate` of the filter of 64 taps for 256 events, beside vvp on the printed text
#   make: `make` of 8 to 64 taps
# The least of five times.
set -eu
top=$(cd "$(dirname "$0")/.." && pwd)
form=${1:-emit}
work=$(mktemp -d)
trap 'rm -rf "$work"' EXIT
# Builds the program where it isn't built. With no words it ends with status 2.
"$top/chw" >/dev/null 2>"$work/log" || [ $? = 2 ] || { cat "$work/log" >&2; exit 1; }
program=$top/crates/chw/out/chw

# The description of a filter with so many taps, which gives its output in its own domain.
filter() {
  python3 - "$1" <<'PY'
import sys
n = int(sys.argv[1])
word = "Unsigned 16"
s = f"Signal A ({word})"
bind = [f"t0 : {s} = x;"]
bind += [f"t{k} : {s} = register @A @({word}) 0u16 t{k - 1};" for k in range(1, n)]
bind += [f"s{k} : {s} = fmap @A @({word}) @({word}) (\\(v : {word}) . mulU @16 v {k + 1}u16) t{k};" for k in range(n)]
parts = ", ".join(f"s{k}" for k in range(n))
bind += [f"y : {s} = vfoldlC @{n} @({s}) @({s}) plus (pure @A @({word}) 0u16) (vec @({s}) [{parts}]);"]
print("domain A;")
print(f"def plus : {s} -> {s} -> {s} = \\(x : {s}) . \\(y : {s}) . ap @A @({word}) @({word}) (fmap @A @({word}) @({word} -> {word}) (addU @16) x) y;")
print(f"def main : {s} -> {s} = \\(x : {s}) . letrec {{ {' '.join(bind)} }} in y;")
print("top main (x) (o);")
PY
}

# The least of five times in microseconds, and the most KiB of memory.
measure() {
  python3 - "$@" <<'PY'
import os, subprocess, sys, time
times, memory = [], 0
for _ in range(5):
    begin = time.perf_counter_ns()
    child = subprocess.Popen(sys.argv[1:], stdout=subprocess.DEVNULL, stderr=subprocess.DEVNULL)
    _, _, usage = os.wait4(child.pid, 0)
    times.append(time.perf_counter_ns() - begin)
    memory = max(memory, usage.ru_maxrss)
print(min(times) // 1000, memory)
PY
}

ratio() { if [ "$1" = - ] || [ "$2" = - ]; then echo -; else awk "BEGIN { printf \"%.3f\", $1 / $2 }"; fi; }

case $form in
  emit)
    printf '%-40s %10s %10s\n' description 'chw us' KiB
    for file in "$top"/examples/worked/*.chw "$top"/examples/circuits/*/*.chw; do
      [ -e "$file" ] || continue
      read -r us kib <<<"$(measure "$program" emit "$file")"
      printf '%-40s %10s %10s\n' "${file#"$top"/examples/}" "$us" "$kib"
    done
    ;;
  taps)
    printf '%8s %10s %12s %10s %12s %10s\n' taps 'chw us' 'to the first' KiB 'yosys us' 'chw/yosys'
    first=
    for taps in 8 16 32 64; do
      filter "$taps" >"$work/a.chw"
      "$program" emit "$work/a.chw" --budget 10000000 >"$work/a.v"
      read -r us kib <<<"$(measure "$program" emit "$work/a.chw" --budget 10000000)"
      other=-
      if command -v yosys >/dev/null; then read -r other _ <<<"$(measure yosys -q -p "read_verilog $work/a.v")"; fi
      first=${first:-$us}
      printf '%8s %10s %12s %10s %12s %10s\n' "$taps" "$us" "$(ratio "$us" "$first")" "$kib" "$other" "$(ratio "$us" "$other")"
    done
    ;;
  simulate)
    filter 64 >"$work/a.chw"
    "$program" emit "$work/a.chw" --budget 10000000 >"$work/a.v"
    : >"$work/none"
    python3 -c 'for k in range(256): print(f"A: x={k * 257 % 65536:04x}")' >"$work/stim"
    "$top/tools/testbench" "$work/a.v" "$work/stim" >"$work/tb.v"
    "$top/tools/testbench" "$work/a.v" "$work/none" >"$work/tb0.v"
    other=- ; other0=-
    if command -v iverilog >/dev/null; then
      iverilog -g2005 -o "$work/a.vvp" "$work/tb.v" "$work/a.v"
      iverilog -g2005 -o "$work/a0.vvp" "$work/tb0.v" "$work/a.v"
      read -r other _ <<<"$(measure vvp -n "$work/a.vvp")"
      read -r other0 _ <<<"$(measure vvp -n "$work/a0.vvp")"
      "$program" simulate "$work/a.chw" "$work/stim" --budget 10000000 >"$work/lines"
      vvp -n "$work/a.vvp" | cmp - "$work/lines" && echo 'vvp prints the same lines'
    fi
    read -r us kib <<<"$(measure "$program" simulate "$work/a.chw" "$work/stim" --budget 10000000)"
    read -r us0 _ <<<"$(measure "$program" simulate "$work/a.chw" "$work/none" --budget 10000000)"
    printf '%-24s %10s %10s %10s\n' '64 taps' 'chw us' 'vvp us' 'chw/vvp'
    printf '%-24s %10s %10s %10s\n' 'no event' "$us0" "$other0" "$(ratio "$us0" "$other0")"
    printf '%-24s %10s %10s %10s\n' '256 events' "$us" "$other" "$(ratio "$us" "$other")"
    ;;
  make)
    printf '%8s %10s %12s %10s\n' taps 'chw us' 'to the first' KiB
    first=
    for taps in 8 16 32 64; do
      read -r us kib <<<"$(measure "$program" make "$taps")"
      first=${first:-$us}
      printf '%8s %10s %12s %10s\n' "$taps" "$us" "$(ratio "$us" "$first")" "$kib"
    done
    ;;
  *)
    sed -n '3,8s/^# \{0,1\}//p' "$0" >&2
    exit 1
    ;;
esac
