#!/usr/bin/env bash
# Times `chw normalise`: the whole process, from the first byte read to the last written.
# Usage: bench/normalise.sh [taps|constants|functions|lets|uses|dead|operands]
#   taps: filters of 8 to 64 taps, with a register and a product for each tap
#   constants: 1,000 to 4,000 calls of one definition, each with another constant as an argument, in definitions with 50 calls each
#   functions: the same, each with another function as an argument, so that each call becomes a made definition
#   lets: 50 to 190 letrecs, one in the other
#   uses: a local function that is named 1,000 and 10,000 times
#   dead: 1,000 and 10,000 bindings that nothing names
#   operands: 1,000 and 10,000 bindings, each with an operand that gets a name
set -eu
top=$(cd "$(dirname "$0")/.." && pwd)
form=${1:-taps}
work=$(mktemp -d)
trap 'rm -rf "$work"' EXIT
. "$top/bench/least.sh"
lines_to=$work/lines
# Builds the program where it isn't built. With no words it ends with status 2.
"$top/chw" >/dev/null 2>"$work/log" || [ $? = 2 ] || { cat "$work/log" >&2; exit 1; }
program=$top/crates/chw/out/chw

# A description of this size.
make() {
  python3 - "$1" "$form" <<'PY'
import sys
n, form = int(sys.argv[1]), sys.argv[2]
word = "Unsigned 16"
s = f"Signal A ({word})"
def filters():
    bind = [f"t0 : {s} = x;"]
    bind += [f"t{k} : {s} = register @A @({word}) 0u16 t{k - 1};" for k in range(1, n)]
    bind += [f"s{k} : {s} = fmap @A @({word}) @({word}) (\\(v : {word}) . mulU @16 v {k + 1}u16) t{k};" for k in range(n)]
    parts = ", ".join(f"s{k}" for k in range(n))
    bind += [f"y : {s} = vfoldlC @{n} @({s}) @({s}) plus (pure @A @({word}) 0u16) (vec @({s}) [{parts}]);",
             f"z : Signal B ({word}) = register @B @({word}) 0u16 (unsafeSynchronizer @A @B @({word}) y);"]
    return [f"domain A; domain B;",
            f"def plus : {s} -> {s} -> {s} = \\(x : {s}) . \\(y : {s}) . ap @A @({word}) @({word}) (fmap @A @({word}) @({word} -> {word}) (addU @16) x) y;",
            f"def main : {s} -> Signal B ({word}) = \\(x : {s}) . letrec {{ {' '.join(bind)} }} in z;"]
def calls():
    group = 50
    if form == "constants":
        head = f"def f : {word} -> {word} -> {word} = \\(k : {word}) . \\(v : {word}) . addU @16 v k;"
        call = lambda k: f"f {k}u16"
    else:
        head = f"def f : ({word} -> {word}) -> {word} -> {word} = \\(h : {word} -> {word}) . \\(v : {word}) . h v;"
        call = lambda k: f"f (\\(y : {word}) . addU @16 y {k}u16)"
    out = ["domain A;", head]
    for g in range(n // group):
        binds = " ".join(f"b{i} : {word} = {call(g * group + i)} {f'b{i - 1}' if i else 'x'};" for i in range(group))
        out.append(f"def g{g} : {word} -> {word} = \\(x : {word}) . letrec {{ {binds} }} in b{group - 1};")
    binds = " ".join(f"c{g} : {word} = g{g} {f'c{g - 1}' if g else 'x'};" for g in range(n // group))
    out.append(f"def main : {s} -> {s} = fmap @A @({word}) @({word}) (\\(x : {word}) . letrec {{ {binds} }} in c{n // group - 1});")
    return out
def lets():
    body = "x"
    for k in range(n, 0, -1):
        body = f"letrec {{ b{k} : {s} = register @A @({word}) 0u16 {f'b{k - 1}' if k > 1 else 'x'}; }} in {body if k < n else f'b{n}'}"
    return ["domain A;", f"def main : {s} -> {s} = \\(x : {s}) . {body};"]
def bindings():
    head = f"f : {word} -> {word} = \\(v : {word}) . addU @16 v 1u16; " if form == "uses" else ""
    right = {
        "uses": lambda k: f"f {f'b{k - 1}' if k else 'x'}",
        "dead": lambda k: f"addU @16 x {f'b{k - 1}' if k else 'x'}",
        "operands": lambda k: f"addU @16 (mulU @16 x {k % 65536}u16) {f'b{k - 1}' if k else 'x'}",
    }[form]
    binds = " ".join(f"b{k} : {word} = {right(k)};" for k in range(n))
    last = "x" if form == "dead" else f"b{n - 1}"
    return ["domain A;", f"def main : {s} -> {s} = fmap @A @({word}) @({word}) (\\(x : {word}) . letrec {{ {head}{binds} }} in {last});"]
makers = {"taps": filters, "constants": calls, "functions": calls, "lets": lets, "uses": bindings, "dead": bindings, "operands": bindings}
lines = makers[form]()
print("\n".join(lines + ["top main (x) (o);"]))
PY
}

case $form in
  taps) sizes='8 16 32 64' ;;
  lets) sizes='50 100 190' ;;
  uses | dead | operands) sizes='1000 10000' ;;
  *) sizes='1000 2000 4000' ;;
esac
printf '%8s %8s %8s %12s %12s %14s\n' "$form" steps made 'chw us' 'us a step' 'to the first'
first=
for size in $sizes; do
  make "$size" >"$work/a.chw"
  us=$(least 5 "$program" normalise "$work/a.chw" --budget 10000000)
  [ -s "$work/lines" ] || { echo "normalise refuses $size $form" >&2; exit 1; }
  made=$(grep -c '^made' "$work/lines")
  steps=$(($(wc -l <"$work/lines") - made))
  first=${first:-$us}
  printf '%8s %8s %8s %12s %12s %14s\n' "$size" "$steps" "$made" "$us" "$(awk "BEGIN { printf \"%.1f\", $us / $steps }")" "$(awk "BEGIN { printf \"%.2f\", $us / $first }")"
done
