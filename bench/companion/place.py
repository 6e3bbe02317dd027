"""Where the companions are tried: the program, folders, and what is to be seen."""

import os
import subprocess
import sys

TOP = os.path.dirname(os.path.dirname(os.path.dirname(os.path.realpath(__file__))))
BIN, EXAMPLES = os.path.join(TOP, "bin"), os.path.join(TOP, "examples")
PROGRAM = os.path.realpath(os.environ.get("PEC") or os.path.join(TOP, "crates", "pec", "out", "pec"))
if not os.access(PROGRAM, os.X_OK):
    sys.exit("bin/build first, or name a program by PEC")
os.environ["PEC"] = PROGRAM
REASONS = [sys.executable, "-I", "-S", os.path.join(BIN, "reasons"), PROGRAM]
WIDTH = 80


def example(name):
    with open(os.path.join(EXAMPLES, name), "rb") as file:
        return file.read()


DELIVERY = example("delivery.pec")
DIRECTORY = DELIVERY[: DELIVERY.index(b"%%\n")]


class Seen:
    """What a command wrote, and its status."""

    def __init__(self, words, run):
        self.words = words
        self.out, self.err, self.status = run.stdout, run.stderr.decode(), run.returncode

    def text(self):
        return self.out.decode()

    def must(self, status, *said, err=(), exact=None):
        """It has to have ended so, and to have said this: lines may be folded anywhere."""
        for text, wanted in [(self.out.decode("utf-8", "replace"), said), (self.err, err)]:
            for one in wanted:
                if " ".join(one.split()) not in " ".join(text.split()):
                    self.fail(f"it doesn't say `{one}`")
        if self.status != status:
            self.fail(f"status {status} is wanted")
        if exact is not None and self.out != exact:
            self.fail(f"it has to write {exact!r}")
        return self

    def fits(self):
        """No line of what is told is longer than a terminal, but where one word is."""
        for line in self.err.split("\n"):
            if len(line) > WIDTH and " " in line.strip():
                self.fail(f"a line has {len(line)} columns: {line}")
        return self

    def fail(self, why):
        words = " ".join(map(str, self.words))
        sys.exit(f"{words}: {why}\nstatus {self.status}\n--- written\n{self.out.decode('utf-8', 'replace')}--- told\n{self.err}")


def ran(words, given=b"", folder=None, **how):
    """A command and what is seen of it."""
    how = {"capture_output": True, "cwd": folder, "check": False, "input": given} | how
    return Seen(words, subprocess.run(words, **how))


def companion(name, *words, given=b"", folder=None, **how):
    """A companion, by its name; what it tells has to fit a terminal."""
    return ran([os.path.join(BIN, name), *words], given, folder, **how).fits()


def put(folder, name, data):
    path = os.path.join(folder, name)
    with open(path, "wb") as file:
        file.write(data)
    return path


def files(folder, of=""):
    """The bytes of the files of a folder whose names end so, by their names."""
    found = {}
    for name in sorted(os.listdir(folder)):
        path = os.path.join(folder, name)
        if name.endswith(of) and os.path.isfile(path) and not os.path.islink(path):
            with open(path, "rb") as file:
                found[name] = file.read()
    return found


def played(folder, lines, directory=DIRECTORY, form="run"):
    """A script that is played in a folder."""
    given = directory + b"%%\n" + "".join(f"{one}\n" for one in lines).encode()
    return ran([PROGRAM, form], given, folder).must(0)
