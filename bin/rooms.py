"""Copies of a crate in a folder of their own, for checks that leave the repository's work alone."""
import contextlib
import os
import shutil
import subprocess
import tempfile

TOP = os.path.dirname(os.path.dirname(os.path.realpath(__file__)))
PARTS = ("src", "specs", "proofs")
# What a program is run on, and the wrong bodies that the gate tries.
BESIDE = ("must-fail", "data", "args", "stdin", "stdout", "status")


def crate_lines():
    """The line of each crate in crates.txt, by its name, in the order of the file."""
    found = {}
    with open(f"{TOP}/crates.txt", encoding="utf-8") as lines:
        for line in lines:
            head, colon, _ = line.partition("#")[0].partition(":")
            if colon:
                found[head.split()[0]] = line
    return found


def below(name, lines):
    """The crates of the repository that a crate stands on, lowest first."""
    found = []
    for used in lines[name].partition("#")[0].partition(":")[2].split():
        if used in lines:
            found += [it for it in [*below(used, lines), used] if it not in found]
    return found


@contextlib.contextmanager
def room_of(name, lines, prefix, with_kept):
    """A copy of the crate over the libraries below it as they are built, which are linked and not copied; with what is kept of its own check, or without. Gives
    the copy's folder."""
    with tempfile.TemporaryDirectory(prefix=prefix, dir=TOP) as room:
        used = below(name, lines)
        for it in used:
            os.makedirs(f"{room}/crates/{it}/out")
            for part in (*PARTS, "out/rlib"):
                if os.path.isdir(f"{TOP}/crates/{it}/{part}"):
                    subprocess.run(["cp", "-al", f"{TOP}/crates/{it}/{part}", f"{room}/crates/{it}/{part}"], check=True)
        own, copy = f"{TOP}/crates/{name}", f"{room}/crates/{name}"
        os.makedirs(copy)
        for part in (*PARTS, *BESIDE):
            if os.path.isdir(f"{own}/{part}"):
                shutil.copytree(f"{own}/{part}", f"{copy}/{part}")
            elif os.path.isfile(f"{own}/{part}"):
                shutil.copy(f"{own}/{part}", copy)
        if with_kept and os.path.isdir(f"{own}/out"):
            subprocess.run(["cp", "-a", "--reflink=auto", f"{own}/out", f"{copy}/out"], check=True)
        with open(f"{room}/crates.txt", "w", encoding="utf-8") as it:
            it.writelines(lines[each] for each in [*used, name])
        if os.path.isfile(f"{TOP}/HANDLES"):
            shutil.copy(f"{TOP}/HANDLES", room)
        yield copy
