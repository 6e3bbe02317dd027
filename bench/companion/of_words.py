"""Help, version, a word that is asked for, and links on the path; all on lines of 80 columns."""

import os
import re
import tempfile

from place import BIN, WIDTH, companion, ran

COMPANIONS = ["letter", "lint", "verify", "log", "fate", "json", "install", "manual", "registry", "service", "webmail"]


def fits(seen):
    for line in seen.text().split("\n"):
        if len(line) > WIDTH:
            seen.fail(f"a line has {len(line)} columns: {line}")
    return seen


def of_help():
    for name in COMPANIONS:
        said = fits(companion(name, "--help").must(0, "status"))
        if companion(name, "-h").out != said.out or said.err:
            said.fail("`-h` says something else, or something is told")
        if name not in ("json", "manual"):
            companion(name).must(2, err=["words are none of its forms" if name != "install" else "one word is wanted"])
    whole = fits(ran([os.path.join(BIN, "pec"), "--help"]).must(0, "bin/pec run < INPUT", "The statuses with which it ends"))
    with open(os.path.join(BIN, "help"), encoding="ascii") as file:
        missing = set(re.findall(r"\S+", file.read())) - set(re.findall(r"\S+", whole.text()))
    if missing:
        whole.fail(f"these words of bin/help aren't in it: {missing}")


def of_a_word():
    pec = os.path.join(BIN, "pec")
    for word, said in [
        ("run", "makes the providers' journals"),
        ("swap", "loses a frame on a link; also repeat, swap"),
        ("noticed-late", "no outcome for more than 24 hours"),
        ("bcc", "bcc (it has a blind copy)"),
        ("7", "or another program that has it"),
        ("not-fit", "its journal is of a directory with another digest"),
        ("letter", "letter --help says more"),
    ]:
        fits(ran([pec, "help", word]).must(0, said))
    ran([pec, "help", "nothing-like-it"]).must(1, err=["nothing is said of"])
    ran([pec, "help", "a", "b"]).must(2)


def of_links():
    """A link on the path, also one to a link, called from another folder."""
    with tempfile.TemporaryDirectory() as folder:
        for name in ["pec", *COMPANIONS]:
            os.symlink(os.path.join(BIN, name), os.path.join(folder, "first-" + name))
            os.symlink("first-" + name, os.path.join(folder, name))
        path = {**os.environ, "PATH": folder + ":" + os.environ["PATH"]}
        for name in ["pec", *COMPANIONS]:
            ran([name, "--help"], folder="/", env=path).must(0)
        ran(["pec", "--version"], folder="/", env=path).must(0, "pec ", "program: ", "Toolchain: ")


def play():
    of_help()
    of_a_word()
    of_links()
    ran([os.path.join(BIN, "manual"), "--man"]).must(0, ".TH PEC 1", ".SH NAME")
    print("words: help, version and each word that is asked for, through links too, on 80 columns")
