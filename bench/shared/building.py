"""Programs over the crates, each built in a folder of its own, over the libraries that are kept of the crates here."""

import os
import shutil
import subprocess
import sys

TOP = os.path.dirname(os.path.dirname(os.path.dirname(os.path.realpath(__file__))))


def listed(top):
    """The lines of crates.txt by the names of their crates, and what each crate stands on."""
    lines, libraries = {}, {}
    with open(os.path.join(top, "crates.txt"), encoding="utf-8") as file:
        for line in file:
            name, colon, rest = line.partition(":")
            if colon and not line.startswith("#"):
                lines[name], libraries[name] = line, rest.split()
    return lines, libraries


def below(names, libraries):
    """The crates of the repository that these need, themselves included."""
    found, left = set(), list(names)
    while left:
        name = left.pop()
        if name in libraries and name not in found:
            found.add(name)
            left += libraries[name]
    return found


def linked(source, to):
    """One file in two places, or a copy of it where that can't be."""
    try:
        os.link(source, to)
    except OSError:
        shutil.copy2(source, to)


def built(folder, name, uses, files, top=TOP):
    """The program of this name, made of these files of its crate over these libraries of a clone, as an executable in the
    folder. It is proved where it is built, and so is each crate below it of which nothing is kept; that takes long. It
    runs once with no word."""
    lines, libraries = listed(top)
    crates = os.path.join(folder, "crates")
    needed = below(uses, libraries)
    for crate in needed:
        for part in ("src", "specs", "proofs", "out/rlib"):
            there = os.path.join(top, "crates", crate, part)
            if os.path.isdir(there):
                shutil.copytree(there, os.path.join(crates, crate, part), copy_function=linked)
    at = os.path.join(crates, name)
    for file, text in files.items():
        os.makedirs(os.path.dirname(os.path.join(at, file)), exist_ok=True)
        with open(os.path.join(at, file), "w", encoding="utf-8") as out:
            out.write(text)
    with open(os.path.join(folder, "crates.txt"), "w", encoding="utf-8") as out:
        out.write("".join(lines[crate] for crate in lines if crate in needed) + f"{name}: {' '.join(uses)}\n")
    words = {"cwd": at, "stdin": subprocess.DEVNULL, "stdout": subprocess.PIPE, "stderr": subprocess.STDOUT}
    run = subprocess.run(["rt", "run"], check=False, **words)
    program = os.path.join(at, "out", name)
    if not os.path.exists(program):
        sys.exit(run.stdout.decode(errors="replace"))
    return program
