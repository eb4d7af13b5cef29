"""What tools/try-refused, tools/try-streams and tools/fuzz share: runs of the program, the lines that it may write, and texts to run it on."""
import os
import re
import resource
import shutil
import subprocess
import sys
from typing import NamedTuple

import common

SECONDS = 60
# The status of a run that was ended since it took too long.
TOO_LONG = -1000
LIBRARY = os.path.join(common.TOP, "tools", "faults.c")
COUNTED = ("memory", "open", "read", "write", "close", "before_write")

# Each line that the program may write, by its status.
NAME = r"[^ \n]+"
DESCRIPTION_LINES = rf"""
E01 lex at \d+
E02 syntax at \d+
E03 limit (text|depth|definitions|data|domains|vector|number) \d+
E04 duplicate {NAME} at \d+
E05 unknown {NAME} at \d+
E06 kind in {NAME}
E07 data cycle {NAME}( {NAME})*
E08 type in {NAME}
E09 (missing {NAME}|default) in {NAME}
E10 cycle {NAME}( {NAME})*
E11 top [^\n]+
"""
REWRITING_LINES = r"""
E12 depth 2000
E13 recursion made \d+ bindings \d+( \d+)*
E13 recursion uses \d+( \d+)*
E14 representation made \d+ [^\n]+
E15 wide made \d+ (scalar|data|length) \d+
E17 size made 4096
"""
NET_LINES = r"""
E16 loop \d+( \d+)*
E17 size wires 200000
"""
BIT_LINES = """
E21 bits 500000
"""


def any_of(lines):
    return "chw: (" + "|".join(filter(None, lines.split("\n"))) + r")\n"


LINES = {
    0: r"",
    1: any_of(DESCRIPTION_LINES + REWRITING_LINES + NET_LINES + BIT_LINES),
    2: r"chw: words\n",
    3: r"chw: read .*\n",
    4: r"chw: write\n",
    5: r"chw: E18 spent \d+\n",
    6: r"(chw: memory\n)?",
    7: r"chw: S0[1-5] line \d+\n",
    8: r"chw: V0[1-6] at \d+\n",
}
OF_A_DESCRIPTION = {"check": "", "normalise": REWRITING_LINES, "emit": REWRITING_LINES + NET_LINES, "simulate": REWRITING_LINES + NET_LINES}
# The lines of status 1, and the other statuses, that each command may end with.
REFUSALS = {it: any_of(DESCRIPTION_LINES + more) for it, more in OF_A_DESCRIPTION.items()}
REFUSALS |= {"run": any_of(NET_LINES), "make": REFUSALS["emit"], "emit --blif": LINES[1]}
STATUSES = {"check": "01346", "normalise": "013456", "emit": "013456", "simulate": "0134567", "run": "0134678", "make": "01456"}


class Ended(NamedTuple):
    """How a run ended: its status, or the number of a signal below 0, and what it wrote."""

    status: int
    out: bytes
    err: bytes


class Faulty(NamedTuple):
    """A program, and the library by which calls of it fail."""

    program: str
    library: str


def program_of(given):
    """Returns the program that is given, else the one that is built; ends where there is none."""
    path = os.path.abspath(given) if given else common.program()
    if not path or not os.access(path, os.X_OK):
        sys.exit(f"there is no {given}" if given else common.NO_PROGRAM)
    return path


def within(program, limits):
    """Returns the words that run a program within limits of the shell, pairs of a letter of `ulimit` and its number."""
    if not limits:
        return [program]
    return ["/bin/sh", "-c", "".join(f"ulimit -{letter} {number} && " for letter, number in limits) + 'exec "$0" "$@"', program]


def run(program, words, folder, *, env=None, ulimits=(), limits=(), seconds=SECONDS, before=None, **streams):
    """Runs the program on words in a folder.

    `ulimits` are limits of the shell, since a process of Python may not live within them. `limits` are pairs of a resource and its number,
    `before` is called in the new process, and `streams` are words of subprocess.Popen.
    """

    def begin():
        for which, number in limits:
            resource.setrlimit(which, (number, number))
        if before:
            before()

    given = {"stdin": subprocess.DEVNULL, "stdout": subprocess.PIPE, "stderr": subprocess.PIPE, **streams}
    first = begin if limits or before else None
    with subprocess.Popen([*within(program, ulimits), *words], cwd=folder, env=env or {}, preexec_fn=first, **given) as child:
        try:
            out, err = child.communicate(timeout=seconds)
            status = child.returncode
        except subprocess.TimeoutExpired:
            child.kill()
            out, err = child.communicate()
            status = TOO_LONG
    return Ended(status, out or b"", err or b"")


def fault_of(words, ended):
    """Returns what is wrong with the end of a run, whatever it was run on: its status, its line, or its output; or None."""
    status, out, err = ended
    if status == TOO_LONG:
        return "no end within the time"
    if status < 0:
        return f"signal {-status}"
    if status not in LINES:
        return f"status {status}, which isn't stated"
    line = err.decode("utf-8", "replace")
    if not re.fullmatch(LINES[status], line, re.S):
        return f"status {status} with the line {line[:200]!r}"
    command = os.fsdecode(words[0]) if words else ""
    if status != 2 and str(status) not in STATUSES.get(command, ""):
        return f"status {status}, which `{command}` never has"
    form = f"{command} --blif" if "--blif" in words[1:] else command
    if status == 1 and not re.fullmatch(REFUSALS[form], line):
        return f"the line {line[:200]!r}, which `{form}` never has"
    if out and status not in (0, 4, 6):
        return f"status {status} and {len(out)} bytes of output"
    return None


def shown(ended):
    """Returns a short text of how a run ended."""
    status, out, err = ended
    how = {TOO_LONG: "no end"}.get(status, f"signal {-status}" if status < 0 else f"status {status}")
    return f"{how}, {len(out)} bytes, {err[:200].decode('utf-8', 'replace')!r}"


def build_library(room, program):
    """Compiles the library that lets calls fail, and tries that the program takes memory through it."""
    if not shutil.which("cc"):
        sys.exit("there is no C compiler `cc`")
    path = os.path.join(room, "faults.so")
    subprocess.run(["cc", "-shared", "-fPIC", "-O1", "-U_FORTIFY_SOURCE", "-o", path, LIBRARY, "-ldl"], check=True)
    if not counts(Faulty(program, path), ["make", "1"], room)["memory"]:
        sys.exit(f"{program} takes no memory by the C library, or isn't linked with it")
    return Faulty(program, path)


def faults(faulty, **how):
    """Returns the environment in which calls of the program fail, by the words of tools/faults.c in small letters."""
    return {"LD_PRELOAD": faulty.library, **{f"FAULT_{name.upper()}": str(value) for name, value in how.items()}}


def counts(faulty, words, folder):
    """Returns how many calls of each kind a run makes."""
    path = os.path.join(os.path.dirname(faulty.library), f"counts.{os.getpid()}")
    run(faulty.program, words, folder, env=faults(faulty, counts=path))
    if not os.path.exists(path):
        sys.exit(f"{faulty.program} doesn't end as a program of the C library does: its calls aren't counted")
    with open(path, encoding="utf-8") as file:
        numbers = [int(it) for it in file.read().split()]
    os.remove(path)
    return dict(zip(COUNTED, numbers))


def plain(text):
    """Returns the bytes of a text of a row: `{{0a}}` is a byte, and `{{3 f#=f^;}}` a piece so many times."""

    def marked(it):
        times, space, piece = it.group(1).partition(" ")
        if not space:
            return chr(int(times, 16))
        if "#" not in piece and "^" not in piece:
            return piece * int(times)
        return "".join(piece.replace("#", str(k)).replace("^", str(k + 1)) for k in range(int(times)))

    return re.sub(r"\{\{(.*?)\}\}", marked, text).encode("latin-1")


def runs_of_row(row):
    """Yields the words and the files of each command that a row of chw_rows runs where no call fails."""
    call, _, rest = row.partition(" ")
    words = [plain(it) for it in re.findall(r'"([^"]*)"', rest)]
    text, _, stimulus = (rest if call in ("run", "simulate") else rest.rpartition('"')[2].strip(" ")).partition(" %%")
    two = {"v": text, "s": stimulus.lstrip()}
    if call in ("check", "emit", "normalise"):
        yield [call, "v"], {"v": rest}
    elif call in ("accepts", "both"):
        yield ["check", "v"], {"v": rest}
    elif call in ("run", "simulate"):
        yield [call, "v", "s"], two
    elif call == "files":
        yield words, two
    elif call == "words":
        yield words, {"a.chw": text}


def rows():
    """Yields a name, words, and files by their names, for each row of chw_rows whose call runs the program as it is."""
    folder = os.path.join(common.TOP, "crates", "chw_rows")
    for name in common.read(folder, "args").split():
        for number, row in enumerate(common.read(folder, "data", name).splitlines(), 1):
            if row and not row.startswith("#"):
                for words, files in runs_of_row(row):
                    yield f"{name}, line {number}", words, {file: plain(text) for file, text in files.items()}


def write_files(folder, files):
    for name, text in files.items():
        with open(os.path.join(folder, name), "wb") as file:
            file.write(text)
