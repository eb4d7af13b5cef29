#!/usr/bin/env bash
# Times `chw run` and `chw simulate --vcd`, beside Icarus Verilog's vvp on the same net and events where it is installed.
# Usage: bench/run.sh [counter|sums|wires|stimulus|waves]
#   counter: a counter of 8 bits, for 1,000 to 100,000 events
#   sums: a chain of 964 sums between two registers, for 256 to 16,384 events
#   wires: chains of 1,000 to 199,000 sums, for 256 events; vvp up to 10,000 sums alone, since it takes minutes on the others
#   stimulus: a text of 64 MiB of inputs of 4,096 bits, and a quarter of it
#   waves: the counter and the chain of sums as descriptions, whose waves are printed; vvp writes those of the same ports by `$dumpvars`
# The time an event is that of the whole program less that of the program on an empty stimulus. vvp prints the same outputs.
set -eu
top=$(cd "$(dirname "$0")/.." && pwd)
form=${1:-counter}
work=$(mktemp -d)
trap 'rm -rf "$work"' EXIT
. "$top/bench/least.sh"
"$top/tools/build-program" chw
program=$top/crates/chw/out/chw

# A Verilog text of a chain of so many sums of 16 bits from an input to a register, and a testbench for so many events.
chain() {
  python3 - "$1" "$2" "$work" <<'PY'
import sys
sums, events, work = int(sys.argv[1]), int(sys.argv[2]), sys.argv[3]
lines = ["module chw_top (input clk_Sys, input [15:0] i_Sys_x, output [15:0] o_Sys_o);", "  reg [15:0] r = 16'h0001;"]
lines += [f"  wire [15:0] w{k};" for k in range(sums)]
lines += ["  always @(posedge clk_Sys) r <= w%d;" % (sums - 1)]
before = "r"
for k in range(sums):
    lines.append(f"  assign w{k} = {before} + i_Sys_x;")
    before = f"w{k}"
lines += ["  assign o_Sys_o = r;", "endmodule"]
open(f"{work}/net.v", "w").write("\n".join(lines) + "\n")
open(f"{work}/stim", "w").write(f"{events}* Sys: x=0003\n" if events else "")
open(f"{work}/tb.v", "w").write(f"""module tb;
  reg clk = 0;
  wire [15:0] o;
  integer k;
  chw_top top (.clk_Sys(clk), .i_Sys_x(16'h0003), .o_Sys_o(o));
  initial for (k = 0; k < {events}; k = k + 1) begin
    #1 $display("%0d: o=%h", k, o);
    clk = 1;
    #1 clk = 0;
  end
endmodule
""")
PY
}

# A stimulus of about so many bytes, and the text of a net that copies its input.
wide() {
  python3 - "$1" "$work" <<'PY'
import sys
size, work = int(sys.argv[1]), sys.argv[2]
open(f"{work}/net.v", "w").write("""module chw_top (input clk_Sys, input [4095:0] i_Sys_x, output [0:0] o_Sys_o);
  wire [0:0] w;
  assign w = ^i_Sys_x;
  assign o_Sys_o = w;
endmodule
""")
line = "Sys: x=" + "0123456789abcdef" * 64 + "\n"
open(f"{work}/stim", "w").write(line * (size // len(line)))
PY
}

# A description of a counter (0 sums) or of a chain of so many sums, and a stimulus of so many events.
described() {
  python3 - "$1" "$2" "$work" <<'PY'
import sys
sums, events, work = int(sys.argv[1]), int(sys.argv[2]), sys.argv[3]
if sums == 0:
    text = """domain Sys;
def main : Signal Sys (Unsigned 8) = letrec {
  s : Signal Sys (Unsigned 8) =
    register @Sys @(Unsigned 8) 0u8 (fmap @Sys @(Unsigned 8) @(Unsigned 8) (\\(x : Unsigned 8) . addU @8 x 1u8) s);
} in s;
top main () (o);
"""
else:
    ty = "Signal Sys (Unsigned 16)"
    lines = [f"domain Sys; def main : {ty} -> {ty} = \\(x : {ty}) . letrec {{"]
    lines.append(f"  r : {ty} = register @Sys @(Unsigned 16) 1u16 w{sums - 1};")
    before = "r"
    for k in range(sums):
        lift = f"fmap @Sys @(Unsigned 16) @(Unsigned 16 -> Unsigned 16) (addU @16) {before}"
        lines.append(f"  w{k} : {ty} = ap @Sys @(Unsigned 16) @(Unsigned 16) ({lift}) x;")
        before = f"w{k}"
    text = "\n".join([*lines, "} in r;", "top main (x) (o);", ""])
open(f"{work}/net.chw", "w").write(text)
event = "Sys: x=0003\n" if sums else "Sys:\n"
open(f"{work}/stim", "w").write(f"{events}* {event}" if events else "")
PY
}

# A test bench for so many events of the text of such a description, which dumps the ports.
dumping() {
  python3 - "$1" "$2" "$work" <<'PY'
import sys
sums, events, work = int(sys.argv[1]), int(sys.argv[2]), sys.argv[3]
width, x = (16, ", .i_Sys_x(x)") if sums else (8, "")
open(f"{work}/tb.v", "w").write(f"""module tb;
  reg clk = 0;
  reg [15:0] x = 16'h0003;
  wire [{width - 1}:0] o;
  integer k;
  chw_top top (.clk_Sys(clk){x}, .o_Sys_o(o));
  initial begin
    $dumpfile("{work}/dump.vcd");
    $dumpvars(0, clk, x, o);
    for (k = 0; k < {events}; k = k + 1) begin
      #1 clk = 1;
      #1 clk = 0;
    end
  end
endmodule
""")
PY
}

# A row of waves: the whole times and bytes of both, the nanoseconds an event and a byte, and the ratio of the times of an event.
waved() {
  local sums=$1 events=$2 times=$3 empty none=- chw vvp=- bytes
  described "$sums" 0
  empty=$(least "$times" "$program" simulate "$work/net.chw" "$work/stim" --vcd)
  described "$sums" "$events"
  chw=$(least "$times" "$program" simulate "$work/net.chw" "$work/stim" --vcd)
  bytes=$("$program" simulate "$work/net.chw" "$work/stim" --vcd | wc -c)
  if command -v iverilog >/dev/null; then
    "$program" emit "$work/net.chw" >"$work/net.v"
    dumping "$sums" 0
    iverilog -g2005 -o "$work/net.vvp" "$work/tb.v" "$work/net.v"
    none=$(least "$times" vvp -n "$work/net.vvp")
    dumping "$sums" "$events"
    iverilog -g2005 -o "$work/net.vvp" "$work/tb.v" "$work/net.v"
    vvp=$(least "$times" vvp -n "$work/net.vvp")
  fi
  printf '%8d %8d %10d %10d %10s %10s %10s %10s %8s\n' "$sums" "$events" "$chw" "$bytes" "$(by "$chw" "$empty" "$events")" \
    "$(by "$chw" "$empty" "$bytes")" "$vvp" "$(by "$vvp" "$none" "$events")" \
    "$(if [ "$vvp" = - ]; then echo -; else awk "BEGIN { printf \"%.2f\", ($chw - $empty) / ($vvp - $none) }"; fi)"
}

# The time of `chw run`, and that of vvp or a sign where it isn't installed.
mine() { least "$1" "$program" run "$work/net.v" "$work/stim"; }
other() {
  if [ "$sums" -le 10000 ] && command -v iverilog >/dev/null; then
    iverilog -g2005 -o "$work/net.vvp" "$work/tb.v" "$work/net.v"
    least "$1" vvp -n "$work/net.vvp"
  else
    echo -
  fi
}

# The difference of two times, by a number, in nanoseconds.
by() {
  if [ "$1" = - ]; then echo -; else awk "BEGIN { printf \"%.1f\", ($1 - $2) * 1000 / $3 }"; fi
}

# A row of a chain of sums: the whole times, and the nanoseconds an event and a cell.
row() {
  local sums=$1 events=$2 times=$3 empty none chw vvp
  chain "$sums" 0
  empty=$(mine "$times"); none=$(other "$times")
  chain "$sums" "$events"
  chw=$(mine "$times"); vvp=$(other "$times")
  printf '%8d %8d %10d %12s %12s %12s %12s\n' "$sums" "$events" "$chw" \
    "$(by "$chw" "$empty" "$events")" "$(by "$chw" "$empty" $((events * (sums + 1))))" "$vvp" "$(by "$vvp" "$none" "$events")"
}

case "$form" in
  counter | sums | wires)
    printf '%8s %8s %10s %12s %12s %12s %12s\n' sums events 'chw us' 'ns event' 'ns cell' 'vvp us' 'ns event'
    ;;
esac
case "$form" in
  counter) for events in 1000 10000 100000; do row 1 "$events" 9; done ;;
  sums) for events in 256 4096 16384; do row 964 "$events" 5; done ;;
  wires) for sums in 1000 10000 100000 199000; do row "$sums" 256 3; done ;;
  stimulus)
    printf '%10s %10s %10s\n' bytes 'chw us' 'ns byte'
    for size in 16777216 67108864; do
      wide 0
      empty=$(mine 3)
      wide "$size"
      bytes=$(wc -c <"$work/stim")
      chw=$(mine 3)
      printf '%10d %10d %10s\n' "$bytes" "$chw" "$(by "$chw" "$empty" "$bytes")"
    done
    ;;
  waves)
    printf '%8s %8s %10s %10s %10s %10s %10s %10s %8s\n' sums events 'chw us' bytes 'ns event' 'ns byte' 'vvp us' 'ns event' ratio
    for events in 1000 10000 100000; do waved 0 "$events" 5; done
    for events in 256 4096 16384; do waved 964 "$events" 3; done
    ;;
  *)
    sed -n '3,9s/^# \{0,1\}//p' "$0" >&2
    exit 1
    ;;
esac
