#!/usr/bin/env python3
"""Runs `chw check` on descriptions that are hard on a compiler, and `chw normalise` and `chw emit` on those of under 64 KiB and those
of many leaves: with the usual stack and with one of 4 MiB.

    bench/hard.py PROGRAM FOLDER

FOLDER gets the descriptions. For each and each command the table has the bytes, the status, the least of three times in milliseconds,
and the memory in MiB.
A run ends after 60 seconds of processor time, and then its status is that of a signal.
"""
import os
import resource
import subprocess
import sys
import time

MOST_SECONDS = 60
COMMANDS = ("check", "normalise", "emit")
# A text of fewer bytes is tried with every command.
SMALL = 64 << 10
HEAD = "domain Sys;\n"
TOP = "def main : Signal Sys Bool -> Signal Sys Bool = \\(x : Signal Sys Bool) . x;\ntop main (x) (o);\n"


def pairs(n, leaf="Bool"):
    """A type with so many leaves, of about the least depth."""
    return leaf if n == 1 else f"(Pair {pairs(n // 2, leaf)} {pairs(n - n // 2, leaf)})"


def total(terms):
    """A sum of about the least depth."""
    middle = len(terms) // 2
    return terms[0] if len(terms) == 1 else f"({total(terms[:middle])} + {total(terms[middle:])})"


def bindings(count, term):
    return "letrec {\n" + "".join(f"b{i} : Bool = {term};\n" for i in range(count)) + "} in True"


def variable_named_often(leaves, count):
    t = pairs(leaves)
    return f"def f : {t} -> Bool = \\(x : {t}) . {bindings(count, 'case x of { _ -> True; }')};\n" + TOP


def definition_named_often(leaves, count):
    t = pairs(leaves)
    return (f"def f : {t} -> Bool = \\(x : {t}) . True;\ndef g : ({t} -> Bool) -> Bool = \\(h : {t} -> Bool) . True;\n"
            f"def h : Bool = {bindings(count, 'g f')};\n") + TOP


def definitions_in_turn(definitions, leaves, count):
    t = pairs(leaves)
    lets = "".join(f"b{i} : Bool = g f{i % definitions};\n" for i in range(count))
    return ("".join(f"def f{k} : {t} -> Bool = \\(x : {t}) . True;\n" for k in range(definitions))
            + f"def g : ({t} -> Bool) -> Bool = \\(h : {t} -> Bool) . True;\ndef h : Bool = letrec {{\n{lets}}} in True;\n") + TOP


def variable_given_often(leaves, count):
    t = pairs(leaves)
    return (f"def g : {t} -> Bool = \\(x : {t}) . True;\n"
            f"def h : {t} -> Bool = \\(y : {t}) . {bindings(count, 'g y')};\n") + TOP


def constructor_named_often(fields, leaves, count):
    t = pairs(leaves)
    whole = f"{t} -> " * fields + "D"
    return (f"data D = C {' '.join([t] * fields)};\ndef g : ({whole}) -> Bool = \\(h : {whole}) . True;\n"
            f"def h : Bool = {bindings(count, 'g C')};\n") + TOP


def alternatives_with_fields(count, leaves):
    t = pairs(leaves)
    return ("data D (a : Val) = " + " | ".join(f"C{i} a" for i in range(count)) + f";\ndef f : D {t} -> Bool = \\(x : D {t}) . case x of {{\n"
            + "".join(f"C{i} y -> True;\n" for i in range(count)) + "};\n") + TOP


def type_arguments(variables, leaves, count):
    t = "".join(f"forall (a{i} : Val) . " for i in range(variables)) + pairs(leaves)
    return f"def f : ({t}) -> Bool = \\(g : {t}) . {bindings(count, 'case g' + ' @Bool' * variables + ' of { _ -> True; }')};\n" + TOP


def put_for_many(places, leaves):
    t = f"forall (a : Val) . {pairs(places, 'a')}"
    return f"def f : ({t}) -> Bool = \\(g : {t}) . case g @{pairs(leaves)} of {{ _ -> True; }};\n" + TOP


def cases_down(levels, wrapped):
    """Nested cases, each of which gives the next a larger type."""
    datas = "data D0 (a : Val) = D0 a;\n" + "".join(f"data D{i} (a : Val) = D{i} (D{i - 1} {wrapped});\n" for i in range(1, levels + 1))
    term = "True"
    for i in range(levels + 1):
        term = f"case x{i} of {{ D{i} {'y' if i == 0 else f'x{i - 1}'} -> {term}; }}"
    return datas + f"def f : D{levels} Bool -> Bool = \\(x{levels} : D{levels} Bool) . {term};\n" + TOP


def port_down(levels, wrapped, first="a"):
    """A top with a port, each level of which gives the next a larger type."""
    datas = ("data W (a : Cir) = W a;\ndata T (a : Cir) (b : Cir) = T a b;\n" + f"data P0 (a : Cir) = P0 {first};\n"
             + "".join(f"data P{i} (a : Cir) = P{i} (P{i - 1} {wrapped});\n" for i in range(1, levels + 1)))
    t = f"P{levels} (Signal Sys Bool)"
    return datas + f"def main : {t} -> Signal Sys Bool = \\(x : {t}) . pure @Sys @Bool True;\ntop main (x) (o);\n"


def port_of(leaves):
    """A top with a port of these leaves."""
    fields = " ".join(f"(Signal Sys {leaf})" for leaf in leaves)
    names = ", ".join(f"i{i}" for i in range(len(leaves)))
    return f"data W = W {fields};\ndef main : W -> Signal Sys Bool = \\(x : W) . pure @Sys @Bool True;\ntop main ({names}) (o);\n"


def chain(types):
    """Data types, each with 41 fields of the one before it."""
    return "data E0 = E0;\n" + "".join(f"data E{i} = E{i} {' '.join([f'E{i - 1}'] * 41)};\n" for i in range(1, types))


def leaves_over_data_types(types, leaves):
    return chain(types) + port_of([f"E{types - 1}"] * leaves)


def leaves_of_each_type(types, leaves):
    return chain(types) + port_of([f"E{i % types}" for i in range(leaves)])


def leaves_of_each_application(types, leaves):
    """The same, where each data type has a parameter that it hands on."""
    datas = "data E0 (a : Val) = E0;\n" + "".join(f"data E{i} (a : Val) = E{i} {' '.join([f'(E{i - 1} a)'] * 41)};\n" for i in range(1, types))
    return datas + port_of([f"(E{i % types} Bool)" for i in range(leaves)])


def naturals(variables, degree, count, squares=False):
    """Naturals of many products, each compared with its terms in the other order."""
    names = [f"v{i}" for i in range(variables)]
    terms = [f"{v} * {v}" for v in names] if squares else names
    one = " * ".join([total(terms)] * degree)
    other = " * ".join([total(terms[::-1])] * degree)
    binders = "".join(f"forall (v{i} : Nat) . " for i in range(variables))
    lambdas = "".join(f"/\\(v{i} : Nat) . " for i in range(variables))
    lets = "".join(f"y{i} : Unsigned ({other}) = x;\n" for i in range(count))
    return f"def f : {binders}Unsigned ({one}) -> Bool = {lambdas}\\(x : Unsigned ({one})) . letrec {{\n{lets}}} in True;\n" + TOP


SHAPES = {
    "a variable of 40,000 parts, named 11,000 times": lambda: variable_named_often(20000, 11000),
    "a variable of 8,191 parts, named 8,000 times": lambda: variable_named_often(4096, 8000),
    "a definition of 18,000 parts, named 18,000 times": lambda: definition_named_often(9000, 18000),
    "a constructor of 170 great fields, named 18,000 times": lambda: constructor_named_often(170, 40, 18000),
    "three definitions of 8,000 parts, named in turn 18,000 times": lambda: definitions_in_turn(3, 4000, 18000),
    "a variable of 18,000 parts, given 18,000 times": lambda: variable_given_often(9000, 18000),
    "9,000 alternatives whose field is the argument": lambda: alternatives_with_fields(9000, 20000),
    "400 times 150 type arguments to a great type": lambda: type_arguments(150, 20000, 400),
    "4 million parts by one type argument": lambda: put_for_many(2000, 2000),
    "400 million parts by one type argument": lambda: put_for_many(20000, 20000),
    "fields that double, 14 levels": lambda: cases_down(14, "(Pair a a)"),
    "fields that double, 30 levels": lambda: cases_down(30, "(Pair a a)"),
    "fields that get 400 levels deep": lambda: cases_down(20, "(Maybe " * 20 + "a" + ")" * 20),
    "fields that get 32,400 levels deep": lambda: cases_down(180, "(Maybe " * 180 + "a" + ")" * 180),
    "a port that gets 400 levels deep": lambda: port_down(20, "(W " * 20 + "a" + ")" * 20),
    "a port that gets 171,000 levels deep": lambda: port_down(900, "(W " * 190 + "a" + ")" * 190),
    "a port that doubles, 20 levels": lambda: port_down(20, "(T a a)", "(Signal Sys Bool)"),
    "a port that doubles, 40 levels": lambda: port_down(40, "(T a a)", "(Signal Sys Bool)"),
    "9,000 leaves over 40 data types": lambda: leaves_over_data_types(40, 9000),
    "9,000 leaves over 1,000 data types": lambda: leaves_over_data_types(1000, 9000),
    "9,000 leaves of each of 40 data types": lambda: leaves_of_each_type(40, 9000),
    "9,000 leaves of each of 1,000 data types": lambda: leaves_of_each_type(1000, 9000),
    "9,000 leaves of each of 1,000 data types with a parameter": lambda: leaves_of_each_application(1000, 9000),
    "40 variables to the third, 100 times": lambda: naturals(40, 3, 100),
    "120 squares, 100 times": lambda: naturals(120, 1, 100, True),
    "70 variables to the third, 2 times": lambda: naturals(70, 3, 2),
    "180 variables to the fourth, once": lambda: naturals(180, 4, 1),
}


def commands(name, text):
    return COMMANDS if len(text) < SMALL or "leaves" in name else COMMANDS[:1]


def run(program, command, path, stack=None):
    """The status, the seconds and the most memory in MiB of one run."""
    def limits():
        resource.setrlimit(resource.RLIMIT_AS, (1 << 30, 1 << 30))
        resource.setrlimit(resource.RLIMIT_CPU, (MOST_SECONDS, MOST_SECONDS))
        if stack:
            resource.setrlimit(resource.RLIMIT_STACK, (stack, stack))
    start = time.perf_counter()
    it = subprocess.Popen([program, command, path], stdout=subprocess.DEVNULL, stderr=subprocess.DEVNULL, preexec_fn=limits)
    _, status, used = os.wait4(it.pid, 0)
    seconds = time.perf_counter() - start
    return os.waitstatus_to_exitcode(status), seconds, used.ru_maxrss / 1024


def main():
    if len(sys.argv) != 3:
        sys.exit(__doc__)
    program, folder = sys.argv[1:]
    print(f"{'shape':62} {'command':9} {'bytes':>9} {'status':>6} {'ms':>8} {'MiB':>6}")
    for name, make in SHAPES.items():
        path = os.path.join(folder, "hard.chw")
        text = HEAD + make()
        with open(path, "w") as it:
            it.write(text)
        for command in commands(name, text):
            runs = [run(program, command, path)]
            # A long run isn't made again.
            runs += [run(program, command, path) for _ in range(2) if runs[0][1] < 2]
            small = run(program, command, path, 4 << 20) if runs[0][1] < 2 else runs[0]
            status = str(runs[0][0]) if small[0] == runs[0][0] else f"{runs[0][0]}/{small[0]}"
            print(f"{name:62} {command:9} {len(text):9,} {status:>6} {min(r[1] for r in runs) * 1000:8,.0f} {max(r[2] for r in runs):6,.0f}", flush=True)


if __name__ == "__main__":
    main()
