"""What the program takes on files, whose bodies stand there alone: its memory beside that of its directory, its time beside that
of other clones, and what it costs to show a long item beside reading and copying it. Each figure has a bound."""

import base64
import itertools
import os
import subprocess
import sys
import tempfile
import threading
import time

import delivering
from building import TOP

# How many messages, of how many bytes, how many are on their way at once, and how many MB they may take above the directory.
SIZES = ((20_000, 3_814, 50, 25), (1_000, 1 << 20, 1, 60))
# How much of the rate on files of another clone has to be left, of how many messages, in how many turns.
RATE, MESSAGES, TURNS = 0.9, 5_000, 5
# How many bytes the long item's message has, and how many times as long as reading and copying the item showing it may take.
LONG, TIMES, SHOWS = 31_400_000, 2, 6
BEGIN, ROUNDS = 1_704_186_000, 7
ITEM = b"show bob@beta.example 0\n"


def program_of(clone):
    return os.path.join(clone, "crates", "pec", "out", "pec")


def directory():
    """Two providers, each with an account."""
    return (delivering.provider("alfa", "alice", "00" * 16) + delivering.provider("beta", "bob", "11" * 16) + "%%\n").encode()


def message(size):
    """A message of so many bytes, in base64."""
    head = b"From: alice@alfa.example\r\nTo: bob@beta.example\r\nSubject: Ciao\r\n\r\n"
    lines, rest = divmod(size - len(head), 75)
    return base64.b64encode(head + (b"x" * 73 + b"\r\n") * lines + b"x" * rest)


def played(messages, size, at_once):
    """The lines by which so many messages come to their ends."""
    text, moment = message(size), BEGIN
    for _ in range(messages // at_once):
        for _ in range(at_once):
            yield b"submit alfa %d alice@alfa.example bob@beta.example %s\n" % (moment, text)
        yield b"".join(b"round %d\n" % (moment + more) for more in range(1, ROUNDS + 1))
        moment += ROUNDS + 1


def ran(form, folder, lines, ends=b"", program=program_of(TOP)):
    """The seconds and the peak memory in MB of a run that is given these lines behind the directory, and ends what it writes so."""
    with tempfile.TemporaryFile() as written:
        begin = time.monotonic()
        child = subprocess.Popen([program, form], cwd=folder, stdin=subprocess.PIPE, stdout=written)
        feeding = threading.Thread(target=feed, args=(child.stdin, lines))
        feeding.start()
        _, status, usage = os.wait4(child.pid, 0)
        seconds = time.monotonic() - begin
        feeding.join()
        written.seek(max(0, os.fstat(written.fileno()).st_size - len(ends)))
        if status != 0 or written.read() != ends:
            sys.exit(f"{form}: status {status}, and it doesn't end in {ends!r}")
    return seconds, usage.ru_maxrss / 1024


def feed(pipe, lines):
    with pipe:
        pipe.write(directory())
        for line in lines:
            pipe.write(line)


def within(what, value, bound, unit, least=False):
    """Says a figure beside its bound; whether it keeps it."""
    keeps = value >= bound if least else value <= bound
    side = "at least" if least else "at most"
    print(f"{what}: {value:,.2f} {unit}, and it may be {side} {bound}{'' if keeps else ': PAST ITS BOUND'}", flush=True)
    return keeps


def memory():
    """What messages take above the directory, as they are played and as their journals are opened again."""
    keep = True
    for messages, size, at_once, bound in SIZES:
        with tempfile.TemporaryDirectory() as folder, tempfile.TemporaryDirectory() as empty:
            _, base = ran("run", empty, [])
            last, look = b"mailbox %d\n" % messages, b"mailbox bob@beta.example\n"
            _, peak = ran("run", folder, itertools.chain(played(messages, size, at_once), [look]), last)
            keep &= within(f"{messages:,} messages of {size:,} bytes, above the directory", peak - base, bound, "MB")
            seconds, peak = ran("resume", folder, [look], last)
            keep &= within(f"opened again in {seconds:.2f} s, above the directory", peak - base, bound, "MB")
    return keep


def rate(clones):
    """How fast a run on files is beside the same of other clones, which take turns."""
    keep, took = True, {clone: [] for clone in [TOP, *clones]}
    for _ in range(TURNS if clones else 0):
        for clone, runs in took.items():
            with tempfile.TemporaryDirectory() as folder:
                runs.append(delivering.played(program_of(clone), folder, MESSAGES)[0])
    for clone in clones:
        keep &= within(f"{MESSAGES:,} messages on files beside {clone}", min(took[clone]) / min(took[TOP]), RATE, "times its rate", True)
    return keep


def shown():
    """What it costs to show a long item, beside reading its bytes from the journal, copying them, and writing them in base64."""
    with tempfile.TemporaryDirectory() as folder:
        ran("run", folder, played(1, LONG, 1))
        one, more = (min(ran("resume", folder, [ITEM] * count, b"\n")[0] for _ in range(3)) for count in (1, SHOWS))
        each = (more - one) / (SHOWS - 1)
        plain = min(read_and_copied(os.path.join(folder, "pec-1.journal")) for _ in range(5))
    return within(f"an item of {LONG:,} bytes, shown in {each:.3f} s, plainly in {plain:.3f} s", each / plain, TIMES, "times")


def read_and_copied(path):
    """The seconds in which the bytes of an item, of an entry behind the first, are read, copied, and written in base64."""
    with open(path, "rb") as journal, tempfile.TemporaryFile() as written:
        first = int.from_bytes(os.pread(journal.fileno(), 4, 9), "big")
        begin = time.monotonic()
        text = bytearray(os.pread(journal.fileno(), LONG, 13 + first + 5 + 25))
        os.write(written.fileno(), base64.b64encode(bytes(text)))
        return time.monotonic() - begin


def all_kept(clones):
    """Whether all bounds are kept."""
    return all([memory(), rate(clones), shown()])
