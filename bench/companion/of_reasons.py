"""bin/pec says why: the program's lines and status stay as they are, and words come behind them."""

import os
import resource
import shutil
import signal
import socket
import subprocess
import tempfile
import time

from place import DELIVERY, DIRECTORY, PROGRAM, REASONS, Seen, put, ran

OTHER = DIRECTORY.replace(b"quota = 1\n", b"quota = 2\n")
SUBMIT = next(line for line in DELIVERY.split(b"\n") if line.startswith(b"submit"))
FORMS = {"run": b"%%\nrond 1\n", "played": b"%%\n" + SUBMIT + b"\nrond 1\n"}


def both(words, status, *err, make=None, file=None, **how):
    """The program alone and as bin/pec runs it, each in a new folder that is made so: both write the same and end so."""
    seen = []
    for front in ([PROGRAM], REASONS):
        with tempfile.TemporaryDirectory() as folder:
            if make:
                make(folder)
            if file is None:
                seen.append(ran([*front, *words], folder=folder, **how))
                continue
            with open(put(folder, "input", file), "rb") as given:
                seen.append(ran([*front, *words], None, folder, stdin=given, **how))
    alone, told = seen
    alone.must(status)
    told.must(status, err=err, exact=alone.out).fits()
    if not err and told.err:
        told.fail("nothing is to be told")
    return told


def of_words():
    both(["run"], 0, given=DELIVERY)
    both(["foo"], 2, "`foo` is no form: run, resume")
    both([], 2, "no form was named")
    both(["serve", "0"], 2, "`serve N`: N is the number of connections, from 1 to 1000000")
    both(["extract", "2", "1"], 2, "two moments", "bin/log takes a day")


def of_inputs():
    both(["run"], 3, "bin/lint FILE", "new journals were left", "Nothing was played", given=DIRECTORY + FORMS["run"])
    both(["run"], 3, "They have what was played", "`resume` goes on", given=DIRECTORY + FORMS["played"])
    both(["ldif"], 12, "bin/lint FILE", given=b"#" * 1_048_577)
    both(["ldif"], 4, "standard input is closed", given=None, preexec_fn=lambda: os.close(0))
    both(["foo"], 2, preexec_fn=lambda: os.close(2))
    told = both(["run"], 3, "bin/lint FILE", given=b"x")
    if "journals" in told.err:
        told.fail("no journal is there")


def of_outputs():
    def full():
        os.dup2(os.open("/dev/full", os.O_WRONLY), 1)

    def unread():
        end, into = os.pipe()
        os.close(end)
        os.dup2(into, 1)
        signal.signal(signal.SIGPIPE, signal.SIG_IGN)

    both(["ldif"], 5, "standard output is closed", given=DIRECTORY, preexec_fn=lambda: os.close(1))
    both(["ldif"], 5, "standard output couldn't be written", given=DIRECTORY, preexec_fn=full)
    words = ["ldif"]
    run = subprocess.run([*REASONS[:-1], "--ignore-pipe", PROGRAM, *words], input=DIRECTORY, capture_output=True, check=False,
                         preexec_fn=unread, restore_signals=False)
    Seen(words, run).must(5, err=["nobody reads the pipe any more"])


def of_journals():
    def has(*names):
        return lambda folder: [ran([PROGRAM, "run"], DELIVERY, folder), *(os.unlink(os.path.join(folder, one)) for one in names)]

    def cut(folder):
        has()(folder)
        os.truncate(os.path.join(folder, "pec-1.journal"), 100)

    def grown(folder):
        """A journal of version 2 with the entries of another provider behind its first one."""
        has()(folder)
        shutil.copy(os.path.join(folder, "pec-0.journal"), os.path.join(folder, "pec-1.journal"))

    both(["run"], 8, "there are journals in", "`resume` goes on with them", given=DELIVERY, make=has())
    both(["serve", "1"], 8, "would be a journal", given=DIRECTORY, make=lambda folder: put(folder, "pec-0.journal", b"x" * 90))
    changed = "its quota or its key has changed"
    both(["extract", "0", "1"], 9, "the directory is another", "and this one has", changed, file=OTHER, make=has())
    both(["extract", "0", "1"], 9, "where the line says `directory`", given=OTHER, make=has())
    both(["extract", "0", "1"], 9, "an entry doesn't follow", "something else wrote", file=DIRECTORY, make=grown)
    both(["extract", "0", "1"], 9, "pec-1.journal is no whole journal", given=DIRECTORY, make=cut)
    both(["extract", "0", "1"], 9, "pec-1.journal is empty", "wasn't there", given=DIRECTORY, make=has("pec-1.journal"))
    both(["run"], 7, "pec-0.journal is a link to", given=DELIVERY,
         make=lambda folder: os.symlink("/nowhere", os.path.join(folder, "pec-0.journal")))
    both(["run"], 7, "pec-1.journal is no file", "new journals were left", given=DELIVERY,
         make=lambda folder: os.mkdir(os.path.join(folder, "pec-1.journal")))
    of_held_journals()


def of_held_journals():
    with tempfile.TemporaryDirectory() as folder:
        holds = subprocess.Popen([PROGRAM, "run"], cwd=folder, stdin=subprocess.PIPE, stdout=subprocess.PIPE)
        holds.stdin.write(DIRECTORY + b"%%\nbook alice@alfa.example\n")
        holds.stdin.flush()
        holds.stdout.readline()
        told = ran([*REASONS, "resume"], DELIVERY, folder)
        told.must(7, err=["pec-0.journal is held by another program", f"process {holds.pid} ("], exact=b"").fits()
        holds.communicate()


def of_disks():
    """File systems of their own, for root alone."""
    if os.geteuid() or not shutil.which("unshare"):
        print("file systems that are full or can't be written: left out, since that needs root and unshare")
        return
    words = " ".join(REASONS)
    for how, status, said in [
        ("ro", 7, "no file can be made in the folder"),
        ("size=4k", 7, "nothing can be written in the folder"),
        ("size=8k", 0, "is full: a command that wrote `fault disk`"),
    ]:
        with tempfile.TemporaryDirectory() as folder:
            shell = f"mount -t tmpfs -o {how} none {folder} && cd {folder} && {words} run"
            ran(["unshare", "-m", "sh", "-c", shell], DELIVERY).must(status, err=[said]).fits()

    def limited():
        signal.signal(signal.SIGXFSZ, signal.SIG_IGN)
        resource.setrlimit(resource.RLIMIT_FSIZE, (1024, 1024))

    with tempfile.TemporaryDirectory() as folder:
        told = ran([*REASONS, "run"], DELIVERY, folder, restore_signals=False, preexec_fn=limited)
        told.must(0, "down", err=["files may have 1,024 bytes here and no more"])


def listening(child):
    """The first line that is told."""
    line = child.stderr.readline().decode()
    if not line.startswith("pec: listening at http://127.0.0.1:8125/ for 1 connections"):
        raise SystemExit(f"the address isn't told: {line}")


def of_signals():
    """A service is told of, keeps others from its port, and ends by the signal that bin/pec gets."""
    for sent in (signal.SIGTERM, signal.SIGINT, signal.SIGKILL):
        with tempfile.TemporaryDirectory() as folder, tempfile.TemporaryDirectory() as other:
            child = subprocess.Popen([*REASONS, "serve", "1"], cwd=folder, stdin=subprocess.PIPE, stdout=subprocess.DEVNULL,
                                     stderr=subprocess.PIPE)
            child.stdin.write(DIRECTORY)
            child.stdin.close()
            listening(child)
            if sent == signal.SIGTERM:
                told = ran([*REASONS, "serve", "1"], DIRECTORY, other).fits()
                told.must(11, err=["another program listens there", "new journals were left"], exact=b"")
            child.send_signal(sent)
            if child.wait() != -sent:
                raise SystemExit(f"{sent.name} gives the status {child.returncode}")
            is_free(sent)
            child.stderr.close()


def is_free(sent):
    """Waits until nobody listens any more."""
    for _ in range(200):
        with socket.socket() as link:
            if link.connect_ex(("127.0.0.1", 8125)):
                return
        time.sleep(0.05)
    raise SystemExit(f"behind {sent.name} the program serves on")


def play():
    of_words()
    of_inputs()
    of_outputs()
    of_journals()
    of_disks()
    of_signals()
    print("reasons: the program's lines and statuses are its own, and each end is told in words")
