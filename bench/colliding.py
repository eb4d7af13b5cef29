#!/usr/bin/env python3
"""Times `chw check` on a letrec whose names fall into one place of the table of names, beside one with other names of as many letters.

    bench/colliding.py PROGRAM FOLDER [N]

The hash of the kit's tables has a fixed seed, so whoever writes a text can choose its names so. N is the number of names, 20,000 if it isn't given.
FOLDER gets the descriptions. A name is searched for in some 3 ms. The table has the least of three times in milliseconds.
"""
import itertools
import os
import random
import string
import subprocess
import sys
import time

SEED, MULTIPLIER, MASK = 0x243F6A8885A308D3, 0x9E3779B97F4A7C15, (1 << 64) - 1
LETTERS = string.ascii_lowercase + string.digits
LENGTH, SEARCHED = 8, 3
GROUPS = 1 << 13


def folded(number, by):
    product = number * by
    return product & MASK ^ product >> 64


def state_of(text, state=None):
    """Returns the state of the hash after a text, of which the length is fed first, as eight bytes, and then each byte alone, three times."""
    if state is None:
        state = folded(SEED ^ LENGTH, MULTIPLIER ^ 16)
    for byte in text.encode():
        state = folded(state ^ byte * 0x10101, MULTIPLIER ^ 2)
    return state


def colliding():
    """Yields names whose hashes have the same lowest bits."""
    for beginning in itertools.product(LETTERS, repeat=LENGTH - SEARCHED - 1):
        first = "n" + "".join(beginning)
        state = state_of(first)
        for ending in itertools.product(LETTERS, repeat=SEARCHED - 1):
            middle = state_of("".join(ending), state)
            for letter in LETTERS:
                last = folded(middle ^ ord(letter) * 0x10101, MULTIPLIER ^ 2)
                if (last ^ last >> 32) % GROUPS == 0:
                    yield first + "".join(ending) + letter


def description(names):
    bindings = "".join(f"{name} : Bool = {other};\n" for name, other in zip(names, [*names[1:], "True"]))
    main = "def main : Signal Sys Bool = pure @Sys @Bool f;\ntop main () (o);\n"
    return f"domain Sys;\ndef f : Bool = letrec {{\n{bindings}}} in {names[0]};\n{main}"


def least(program, path):
    times = []
    for _ in range(3):
        start = time.perf_counter()
        subprocess.run([program, "check", path], stdout=subprocess.DEVNULL, check=True)
        times.append(time.perf_counter() - start)
    return min(times) * 1000


def main():
    if len(sys.argv) not in (3, 4):
        sys.exit(__doc__)
    program, folder, number = sys.argv[1], sys.argv[2], int((sys.argv[3:] or [20_000])[0])
    some = random.Random(1)
    others = {"n" + "".join(some.choices(LETTERS, k=LENGTH - 1)) for _ in range(number)}
    while len(others) < number:
        others.add("n" + "".join(some.choices(LETTERS, k=LENGTH - 1)))
    print(f"{'names':>8} {'bytes':>10} {'ms':>8} {'in one place, ms':>17} {'ratio':>6}")
    in_one = list(itertools.islice(colliding(), number))
    times = []
    for names in (sorted(others), in_one):
        path = os.path.join(folder, "names.chw")
        with open(path, "w", encoding="utf-8") as file:
            file.write(description(names))
        times.append(least(program, path))
    print(f"{number:8,} {os.path.getsize(path):10,} {times[0]:8,.0f} {times[1]:17,.0f} {times[1] / times[0]:6.1f}")


if __name__ == "__main__":
    main()
