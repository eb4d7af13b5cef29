#!/usr/bin/env bash
# Times `chw check` on descriptions of 64 KiB to just under 4 MiB, the limit, beside Python's parser on a text of as many bytes and the same shape.
# Usage: bench/check.sh [definitions|arguments|brackets|letrecs|sums|calls|hard]
#   definitions: up to 4,096 definitions, the limit, longer ones in the larger texts    arguments: applications of 150 arguments    brackets: 150 brackets, one in the other
#   letrecs: bindings of a letrec    sums: widths that are long sums    calls: polymorphic calls
#   hard: texts with great types, types that grow, and naturals of many products; the status, the time and the memory of each, with normalise and emit
#     for those of under 64 KiB and those of many leaves
set -eu
top=$(cd "$(dirname "$0")/.." && pwd)
form=${1:-definitions}
work=$(mktemp -d)
trap 'rm -rf "$work"' EXIT
. "$top/bench/least.sh"
# Builds the program where it isn't built. With no words it ends with status 2.
"$top/chw" >/dev/null 2>"$work/log" || [ $? = 2 ] || { cat "$work/log" >&2; exit 1; }
program=$top/crates/chw/out/chw

# A description of about this many bytes, and a Python text of the same shape.
make() {
  python3 - "$1" "$form" "$work" <<'PY'
import sys
size, form, work = int(sys.argv[1]), sys.argv[2], sys.argv[3]
# A definition has so many parts that a text of this size has no more definitions than there may be.
parts = 1 + 7 * ((size - 1) >> 20)
def group(part):
    return "letrec { " + "".join(f"b{i} : Bool = {part}; " for i in range(parts)) + "} in b0" if parts > 1 else part
def row(k):
    if form == "definitions":
        g = f"f{k - 1}" if k else "g"
        return (f"def f{k} : forall (n : Nat) . Unsigned 8 -> Unsigned (n + 1) -> Bool = /\\(n : Nat) . \\(x : Unsigned 8) . \\(v : Unsigned (n + 1)) . case x of {{ 0u8 -> True; _ -> letrec {{ " + "".join(f"y{i} : Bool = {g} @n x v; z{i} : Bool = y{i}; " for i in range(parts)) + f"}} in case y0 of {{ False -> z0; True -> {g} @n (addU @8 x 1u8) v; }}; }};\n",
                f"f{k} = lambda n: lambda x: lambda v: {g}(n, x, v) if x == 0 else True if x == {k} else [" + f"{g}(n, x, v), v, " * (2 * (parts - 1)) + f"n + 1, n + 2, n + 3, (n, x, v), {g}(n, x + 1, v), (n, x, v, n + 1), [n * 2, n * 3, x * 2, x * 3], {g}(n, x, v, 0), (v, x), lambda y, z: z if y else {g}(n, x, y)]\n")
    if form == "arguments":
        return (f"def f{k} : Bool = " + group("h " + "0u8 " * 150) + ";\n", f"f{k} = " + ", ".join(["f(" + "100," * 150 + ")"] * parts) + "\n")
    if form == "letrecs":
        n = 40 * parts
        return (f"def f{k} : Unsigned 8 -> Unsigned 8 = \\(x : Unsigned 8) . letrec {{ " + "".join(f"y{i} : Unsigned 8 = addU @8 y{max(i - 1, 0)} (mulU @8 x y{i // 2}); " for i in range(1, n)) + f"y0 : Unsigned 8 = x; }} in y{n - 1};\n",
                f"def f{k}(x):\n" + "".join(f"    y{i} = add8(y{max(i - 1, 0)}, mul8(x, y{i // 2}), 8, 8) # y{i}\n" for i in range(1, n)) + f"    return y{n - 1}\n")
    if form == "sums":
        chain = " + ".join(["n"] * 150)
        return (f"def f{k} : forall (n : Nat) . Unsigned ({chain}) -> Bool = /\\(n : Nat) . \\(x : Unsigned ({chain})) . " + group("True") + ";\n",
                f"f{k} = lambda n, x, y, z: ({chain}, {chain})\n")
    if form == "calls":
        call = "p @(Unsigned 8) @(Maybe Bool) 1u8 (Nothing @Bool)"
        return (f"def f{k} : Unsigned 8 = letrec {{ " + "".join(f"y{i} : Unsigned 8 = {call}; " for i in range(10 * parts)) + "} in y0;\n",
                f"f{k} = [" + "p(Unsigned(8), Maybe(Bool))(1, Nothing(Bool))[y0], " * (10 * parts) + "0]\n")
    return (f"def f{k} : Bool = " + group("(" * 150 + "True" + ")" * 150) + ";\n", f"f{k} = " + ", ".join(["(" * 150 + "x" + ")" * 150] * parts) + "\n")
begin = ("domain Sys;\ndef g : forall (n : Nat) . Unsigned 8 -> Unsigned (n + 1) -> Bool = /\\(n : Nat) . \\(x : Unsigned 8) . \\(v : Unsigned (n + 1)) . True;\n"
         "def h : " + "Unsigned 8 -> " * 150 + "Bool = " + "".join(f"\\(x{k} : Unsigned 8) . " for k in range(150)) + "True;\n"
         "def p : forall (a : Val) . forall (b : Val) . a -> b -> a = /\\(a : Val) . /\\(b : Val) . \\(x : a) . \\(y : b) . x;\n"
         "def main : Signal Sys (Unsigned 8) -> Signal Sys (Unsigned 8) = \\(x : Signal Sys (Unsigned 8)) . x;\n")
for name, which, begin, end in (("a.chw", 0, begin, "top main (x) (o);\n"), ("a.py", 1, "", "")):
    out, n, k = [begin], len(begin) + len(end), 0
    while True:
        line = row(k)[which]
        if n + len(line) > size: break
        out.append(line); n += len(line); k += 1
    open(f"{work}/{name}", "w").write("".join(out) + end)
PY
}

if [ "$form" = hard ]; then
  python3 "$top/bench/hard.py" "$program" "$work"
  exit
fi

# The least of five times of Python's parser alone, in microseconds; after a time of over two seconds no other is taken.
python() {
  python3 - "$work/a.py" <<'PY'
import ast, sys, time
text = open(sys.argv[1]).read()
def once():
    start = time.perf_counter(); ast.parse(text); return time.perf_counter() - start
times = [once()]
while len(times) < 5 and times[-1] < 2:
    times.append(once())
print(int(min(times) * 1e6))
PY
}

printf '%10s %12s %12s %12s %8s\n' bytes 'chw us' 'ns a byte' 'python us' ratio
for size in 65536 131072 262144 524288 1048576 2097152 4194304; do
  make "$size"
  bytes=$(stat -c %s "$work/a.chw")
  "$program" check "$work/a.chw" >/dev/null || { echo "check refuses the text of $size bytes" >&2; exit 1; }
  chw=$(least 5 "$program" check "$work/a.chw")
  parser=$(python)
  printf '%10s %12s %12s %12s %8s\n' "$bytes" "$chw" "$((chw * 1000 / bytes))" "$parser" "$(awk "BEGIN { printf \"%.2f\", $chw / $parser }")"
done
