"""The programs that play: that of bin/try, which has run-time checks, or the proved one; and the player, which plays calls and
runs over memory. It is compiled as bin/try compiles, and kept until a source of it changes."""

import functools
import hashlib
import os
import shutil
import subprocess
import tempfile
import time

from reading import Wrong

HERE = os.path.dirname(os.path.realpath(__file__))
# What the player plays while it is kept: a load over memory takes it a second.
PLAYED = b"run 8 0 1 0 0 0 0 0 0\nload\n20\n1"
# A file of the format ELF says behind its first 16 bytes what it is: these are executables.
ELF, KINDS = b"\x7fELF", (b"\x02\x00", b"\x03\x00")


@functools.cache
def program(top, is_proved):
    """The program that plays scripts."""
    if "PEC" in os.environ:
        return os.environ["PEC"]
    words = [os.path.join(top, "bin", "build")] if is_proved else [os.path.join(top, "bin", "try"), "ldif"]
    made = os.path.join(top, "crates", "pec", "out", "pec") if is_proved else os.path.join(top, "out", "pec-unproved")
    subprocess.run(words, stdin=subprocess.DEVNULL, stdout=subprocess.DEVNULL, check=False)
    if not os.path.exists(made):
        raise Wrong(f"{' '.join(words)} made no program")
    return made


def crates(top):
    """The crates below the player, and their lines of crates.txt and libraries.txt with that of the player."""
    lines, below = {}, {}
    for file in (os.path.join(top, "crates.txt"), os.path.join(HERE, "program", "libraries.txt")):
        with open(file, encoding="utf-8") as text:
            for line in text:
                name, colon, rest = line.partition(":")
                if colon and not line.startswith("#"):
                    lines[name.split()[0]], below[name.split()[0]] = line, rest.split()
    found, left = set(), ["player"]
    while left:
        name = left.pop()
        if name in below and name not in found:
            found.add(name)
            left += below[name]
    return sorted(found - {"player"}), "".join(lines[name] for name in lines if name in found)


def sources(top):
    """The files of which the player is made."""
    found = []
    for name in crates(top)[0]:
        for folder, _, names in os.walk(os.path.join(top, "crates", name, "src")):
            found += [os.path.join(folder, one) for one in names]
    program = os.path.join(HERE, "program")
    return sorted(found) + [os.path.join(program, name) for name in sorted(os.listdir(program))]


def stamp(top):
    """A digest of these files."""
    digest = hashlib.sha256()
    for name in sources(top):
        with open(name, "rb") as file:
            digest.update(os.path.relpath(name, top).encode() + b"\0" + file.read() + b"\0")
    return digest.hexdigest()


@functools.cache
def player(top):
    """The program that plays calls, and runs over memory."""
    kept = os.path.join(top, "out", "player-" + stamp(top)[:16])
    if os.path.exists(kept):
        return kept
    if shutil.which("rt") is None:
        raise Wrong("the toolchain's `rt` isn't on the path, so the player can't be compiled")
    os.makedirs(os.path.dirname(kept), exist_ok=True)
    for name in os.listdir(os.path.dirname(kept)):
        if name.startswith("player-"):
            os.remove(os.path.join(os.path.dirname(kept), name))
    with tempfile.TemporaryDirectory(prefix="compile-", dir=os.path.dirname(kept)) as folder:
        compile_in(laid(top, folder), folder, kept)
    return kept


def laid(top, folder):
    """A crate of the player in a folder with the crates below it, as rt takes them."""
    needed, listed = crates(top)
    for name in needed:
        for part in ("src", "specs", "proofs"):
            there = os.path.join(top, "crates", name, part)
            if os.path.isdir(there):
                shutil.copytree(there, os.path.join(folder, "crates", name, part))
    crate = os.path.join(folder, "crates", "player")
    os.makedirs(os.path.join(crate, "src"))
    for name in os.listdir(os.path.join(HERE, "program")):
        if name.endswith(".rattle"):
            shutil.copy2(os.path.join(HERE, "program", name), os.path.join(crate, "src", name.removesuffix(".rattle") + ".rt"))
    with open(os.path.join(folder, "crates.txt"), "w", encoding="utf-8") as out:
        out.write(listed)
    os.mkdir(os.path.join(folder, ".git"))
    return crate


def compile_in(crate, folder, kept):
    """Compiles the crate by `rt try`, and gives the executable that it runs a second name, which is kept."""
    temporary = os.path.join(folder, "temporary")
    os.mkdir(temporary)
    with open(os.path.join(folder, "asked"), "w+b") as asked, open(os.path.join(folder, "said"), "w+b") as said:
        asked.write(PLAYED)
        asked.seek(0)
        how = {"cwd": crate, "stdin": asked, "stdout": said, "stderr": subprocess.STDOUT}
        job = subprocess.Popen(["rt", "try"], env={**os.environ, "TMPDIR": temporary}, **how)
        try:
            while job.poll() is None:
                keep(temporary, kept)
                time.sleep(0.02)
        finally:
            job.terminate()
            job.wait()
        said.seek(0)
        if job.returncode or not os.path.exists(kept):
            if os.path.exists(kept):
                os.remove(kept)
            raise Wrong("the player doesn't compile:\n" + said.read().decode(errors="replace"))


def keep(folder, kept):
    """Gives each executable below the folder the name, so that the last one has it."""
    for place, _, names in os.walk(folder):
        for file in (os.path.join(place, name) for name in names):
            try:
                if not (os.path.exists(kept) and os.path.samefile(file, kept)) and is_executable(file):
                    os.link(file, kept + "-new")
                    os.replace(kept + "-new", kept)
                    os.chmod(kept, 0o755)
            except OSError:
                # (removed meanwhile, or not to be linked)
                pass


def is_executable(file):
    with open(file, "rb") as data:
        head = data.read(18)
    return head.startswith(ELF) and head[16:] in KINDS and os.path.getsize(file) > 1_000_000
