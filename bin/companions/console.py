"""How a companion begins and ends, and how it runs the program.

A companion is given the name that it tells its words under, what `--help` says, and a function that takes the words behind
its name and gives back a status. Its results go to standard output, all else to standard error."""

import os
import subprocess
import sys
import textwrap

TOP = os.path.dirname(os.path.dirname(os.path.dirname(os.path.realpath(__file__))))
WIDTH = 80
USAGE = 2


class Trouble(Exception):
    """What keeps a companion from going on, in words, and its status."""

    def __init__(self, words, status=1):
        super().__init__(words)
        self.status = status


def folded(text, first="", rest=None):
    """A text on lines that fit a terminal; words that are longer stay whole."""
    rest = first if rest is None else rest
    fold = textwrap.TextWrapper(WIDTH, first, rest, break_long_words=False, break_on_hyphens=False)
    return fold.fill(" ".join(text.split()))


def say(text, first="", rest=None):
    print(folded(text, first, rest))


class Companion:
    def __init__(self, name, guide):
        self.name, self.guide = name, guide

    def tell(self, text, more=""):
        """Says it on standard error, where that is open, behind what was written before."""
        if sys.stdout is not None:
            sys.stdout.flush()
        if sys.stderr is not None:
            print(folded(f"{self.name}: {text}", "", "  ") + more, file=sys.stderr, flush=True)

    def usage(self):
        """The words that it takes: the second paragraph of its guide."""
        return Trouble("the words are none of its forms:\n" + self.guide.split("\n\n")[1], USAGE)

    def end(self, play):
        """Plays it, and ends the process."""
        words = sys.argv[1:]
        if words[:1] in (["--help"], ["-h"]):
            print(self.guide.strip())
            sys.exit(0)
        try:
            if sys.stdout is None:
                raise Trouble("standard output is closed")
            status = play(words)
            sys.stdout.flush()
        except Trouble as why:
            head, line, forms = str(why).partition("\n")
            self.tell(head, line + forms)
            status = why.status
        except KeyboardInterrupt:
            status = 130
        except BrokenPipeError:
            # nobody reads on; the interpreter's own flush at its end mustn't fail too
            os.dup2(os.open(os.devnull, os.O_WRONLY), 1)
            status = 1
        except OSError as why:
            self.tell(f"{why.filename}: {why.strerror}" if why.filename else str(why))
            status = 1
        sys.exit(status)


def read_file(name):
    """The bytes of a file; `-` is standard input."""
    try:
        if name == "-":
            return sys.stdin.buffer.read()
        with open(name, "rb") as file:
            return file.read()
    except (OSError, AttributeError) as why:
        raise Trouble(f"{name} can't be read: {getattr(why, 'strerror', None) or 'it is closed'}") from None


def write_out(data):
    """Bytes to standard output."""
    sys.stdout.flush()
    sys.stdout.buffer.write(data)
    sys.stdout.buffer.flush()


def built():
    """A program that is there, the proved one where there is one, or None."""
    places = [os.environ.get("PEC"), os.path.join(TOP, "crates", "pec", "out", "pec"), os.path.join(TOP, "out", "pec-unproved")]
    named = places[:1] if places[0] else places[1:]
    return next((one for one in named if os.access(one, os.X_OK)), None)


def program():
    """The program: bin/pec, or the one that PEC names."""
    return os.path.realpath(os.environ.get("PEC") or os.path.join(TOP, "bin", "pec"))


def exported(text):
    """What the program makes of a directory in the form `ldif`, and its status, or None where no program is there."""
    one = built()
    run = one and subprocess.run([one, "ldif"], input=text, capture_output=True, check=False)
    return (run.stdout, run.returncode) if one else None


def ask(words, given, folder=None):
    """What the program writes to standard output, and its status."""
    try:
        run = subprocess.run([program(), *words], input=given, stdout=subprocess.PIPE, cwd=folder, check=False)
    except OSError as why:
        raise Trouble(f"the program can't be run: {program()}: {why.strerror}") from None
    return run.stdout, run.returncode
