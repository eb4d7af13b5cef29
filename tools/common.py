"""What several tools share: the program that is built, checksums, and one tool's functions for another."""
import hashlib
import importlib.machinery
import importlib.util
import os
import shutil
import subprocess

TOP = os.path.dirname(os.path.dirname(os.path.realpath(__file__)))
PICTURES = os.path.join(TOP, "docs", "pictures")
PROVED = os.path.join(TOP, "crates", "chw", "out", "chw")
UNPROVED = os.path.join(TOP, "out", "first-look", "chw-unproved")
NO_PROGRAM = "there is no program yet: `./chw` proves and builds it, and `tools/first-look FILE` builds one without proofs"


def newest_source():
    """Returns when a source of the program was changed last."""
    times = [os.path.getmtime(os.path.join(TOP, "crates.txt"))]
    for at, folders, names in os.walk(os.path.join(TOP, "crates")):
        folders[:] = [it for it in folders if it not in ("out", "data", "specs", "proofs", "must-fail", "wrong")]
        times += [os.path.getmtime(os.path.join(at, it)) for it in names if it.endswith(".rt")]
    return max(times)


def program():
    """Returns the proved program, else the one without proofs, each only where no source is newer; or None.

    A tool that an editor runs, or tools/lint, must not begin to prove crates.
    """
    newest = newest_source()
    for path in (PROVED, UNPROVED):
        if os.access(path, os.X_OK) and os.path.getmtime(path) >= newest:
            return path
    return None


def is_installed(tool):
    """Whether a tool is there; of Vim one that has colours."""
    if not shutil.which(tool):
        return False
    return tool != "vim" or "+syntax" in subprocess.run(["vim", "--version"], capture_output=True, text=True, check=False).stdout


def checksum(text):
    return hashlib.sha256(text.encode()).hexdigest()[:16]


def read(*parts):
    """Returns the text of a file of the repository."""
    with open(os.path.join(TOP, *parts), encoding="utf-8") as file:
        return file.read()


def write(text, *parts):
    path = os.path.join(TOP, *parts)
    os.makedirs(os.path.dirname(path), exist_ok=True)
    with open(path, "w", encoding="utf-8") as file:
        file.write(text)


def loaded(*parts):
    """Returns a tool of the repository as a module."""
    path = os.path.join(TOP, *parts)
    loader = importlib.machinery.SourceFileLoader(parts[-1].replace("-", "_"), path)
    module = importlib.util.module_from_spec(importlib.util.spec_from_loader(loader.name, loader))
    loader.exec_module(module)
    return module
