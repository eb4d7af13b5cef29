#!/usr/bin/env bash
# Runs every benchmark, and prints one table: the size, the time of chw in microseconds, that of the peer where one is installed, and the
# ratio of both. The tables of the single benchmarks say more.
# Usage: bench/all.sh
set -u
top=$(cd "$(dirname "$0")/.." && pwd)

# The rows of one benchmark: the script, its form, the peer, and the columns of the size, of chw's time and of the peer's (0: none).
rows() {
  "$top/bench/$1" "$2" 2>/dev/null | awk -v name="${1%.sh} $2" -v peer="$3" -v size="$4" -v mine="$5" -v other="$6" '
    $mine ~ /^[0-9]+$/ && $size ~ /^[0-9]+$/ {
      theirs = other && $other ~ /^[0-9]+$/ ? $other : "-"
      ratio = theirs == "-" ? "-" : sprintf("%.3f", $mine / theirs)
      printf "%-22s %10s %12s %-10s %12s %8s\n", name, $size, $mine, (theirs == "-" ? "-" : peer), theirs, ratio
    }'
}

printf '%-22s %10s %12s %-10s %12s %8s\n' benchmark size 'chw us' peer 'peer us' ratio
for form in definitions letrecs sums calls arguments brackets; do rows check.sh "$form" python 1 2 4; done
for form in sum copy; do rows flat.sh "$form" yosys 1 3 5; done
rows flat.sh order tsort 1 2 5
rows read.sh '' yosys 1 3 6
for form in taps constants functions lets uses dead operands; do rows normalise.sh "$form" - 1 4 0; done
rows circuits.sh taps yosys 1 2 5
rows circuits.sh make - 1 2 0
rows circuits.sh simulate vvp 1 3 4
rows run.sh counter vvp 2 3 6
rows run.sh sums vvp 2 3 6
rows run.sh wires vvp 1 3 6
rows run.sh stimulus - 1 2 0
