"""A text of single bits, as BLIF, and its outputs at the events of a stimulus. tools/read-blif and tools/fuzz use it."""
import re


class Bits:
    """The net of a text: its inputs, its outputs, the tables by what they drive, and the latches."""

    def __init__(self, text):
        self.inputs, self.outputs, self.tables, self.latches = [], [], {}, []
        rows = None
        for line in text.splitlines():
            words = line.split()
            if not words:
                continue
            if words[0] == ".inputs":
                self.inputs = words[1:]
            elif words[0] == ".outputs":
                self.outputs = words[1:]
            elif words[0] == ".names":
                rows = []
                self.tables[words[-1]] = words[1:-1], rows
            elif words[0] == ".latch":
                self.latches.append((words[1], words[2], words[4], int(words[5])))
            elif words[0][0] != ".":
                rows.append(words[0] if len(words) == 2 else "")

    def nodes(self):
        return len(self.tables) + len(self.latches)

    def settle(self, known):
        """Adds to known bits those of all names that tables drive, each behind what it reads."""
        for name in self.tables:
            stack = [name]
            while stack:
                reads, rows = self.tables.get(stack[-1], ((), ()))
                missing = [it for it in reads if it not in known]
                if stack[-1] in known:
                    stack.pop()
                elif missing:
                    stack += missing
                else:
                    bits = [known[it] for it in reads]
                    known[stack.pop()] = int(any(all(mark in ("-", str(bit)) for mark, bit in zip(row, bits)) for row in rows))
        return known


def lines(text, verilog, stimulus, testbench):
    """Returns the lines of the outputs of a text at a stimulus, as `chw run` prints those of the Verilog text with the same ports."""
    net, shown = Bits(text), []
    ports = testbench.ports(verilog)
    inputs = [(domain, name, width) for _, kind, domain, name, width in ports if kind == "i"]
    outputs = [(domain, name, width) for _, kind, domain, name, width in ports if kind == "o"]
    held = {drives: bit for _, drives, _, bit in net.latches}
    for number, (ticking, reset, values) in enumerate(testbench.events(stimulus)):
        known = dict(held)
        known.update({it: int(it[4:] in reset) for it in net.inputs if re.fullmatch("rst_[A-Z][A-Za-z0-9]*", it)})
        for (domain, name, width), value in zip(inputs, values):
            known.update({f"i_{domain}_{name}_{j}": int(value, 16) >> j & 1 for j in range(width)})
        net.settle(known)
        words = [f"{number}:"]
        for domain, name, width in outputs:
            if domain in ticking:
                value = sum(known[f"o_{domain}_{name}_{j}"] << j for j in range(width))
                words.append(f"{name}={value:0{(width + 3) // 4}x}")
        shown.append(" ".join(words))
        held.update({drives: known[takes] for takes, drives, clock, _ in net.latches if clock[4:] in ticking})
    return "".join(f"{it}\n" for it in shown)
