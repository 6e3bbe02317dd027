"""The program as a child of this process: it ends with this process, and is stopped between two connections."""

import ctypes
import itertools
import os
import signal
import subprocess
import time

PORT = 8125
LISTENING = "0A"
SYSTEM = ctypes.CDLL(None, use_errno=True)
END_WITH_PARENT = 1  # PR_SET_PDEATHSIG of prctl


def bound():
    """In the child: it is killed where its parent ends, so it holds journals and port no longer than that is there."""
    SYSTEM.prctl(END_WITH_PARENT, signal.SIGKILL)


def started(program, words, folder, **how):
    """The program in a folder. SIGPIPE and SIGXFSZ stay ignored: a closed pipe and a file that may not grow are faults that
    it tells by its status or its lines."""
    return subprocess.Popen(
        [program, *words], cwd=folder, stdin=subprocess.PIPE, preexec_fn=bound, restore_signals=False, **how
    )


def played(program, words, folder, text):
    """The status of a run, and what it wrote."""
    child = started(program, words, folder, stdout=subprocess.PIPE)
    written, _ = child.communicate(text)
    return child.returncode, written.decode("latin-1")


def with_script(directory, script=""):
    """The input of a run."""
    return directory + (b"" if directory.endswith(b"\n") else b"\n") + b"%%\n" + script.encode()


def listening():
    """The sockets at which connections come in, by their inodes."""
    found = set()
    with open("/proc/net/tcp", encoding="ascii") as rows:
        next(rows)
        # (those that listen stand before all others)
        for words in itertools.takewhile(lambda words: words[3] == LISTENING, map(str.split, rows)):
            if int(words[1].split(":")[1], 16) == PORT:
                found.add(f"socket:[{words[9]}]")
    return found


class Child:
    """A run of `serve`, whose lines come over a pipe."""

    def __init__(self, program, requests, folder, directory):
        self.process = started(program, ["serve", str(requests)], folder, stdout=subprocess.PIPE)
        self.lines, self.rest = self.process.stdout, b""
        os.set_blocking(self.lines.fileno(), False)
        try:
            self.process.stdin.write(directory)
            self.process.stdin.close()
        except BrokenPipeError:
            pass  # its status says why

    def read(self):
        """The lines that have come, and whether more may."""
        try:
            piece = os.read(self.lines.fileno(), 1 << 16)
        except BlockingIOError:
            return [], True
        *lines, self.rest = (self.rest + piece).split(b"\n")
        return [line.decode("latin-1") for line in lines], bool(piece)

    def signal(self, number):
        if self.process.poll() is None:
            os.kill(self.process.pid, number)

    def serves(self):
        """Whether it has a connection in its hands: a socket besides the one at which they come in."""
        folder, held = f"/proc/{self.process.pid}/fd", set()
        try:
            for name in set(os.listdir(folder)) - {"0", "1", "2"}:
                held.add(os.readlink(os.path.join(folder, name)))
        except FileNotFoundError:
            pass
        return bool({one for one in held if one.startswith("socket:")} - listening())

    def stop(self, patience):
        """Ends it while it has no connection in its hands, so that nothing which was handed in stays without its answer, or
        at once where it has one for longer than this; whether it was so."""
        calm = self.stand_still(patience)
        self.signal(signal.SIGKILL)
        self.process.wait()
        return calm

    def stand_still(self, patience):
        """Has it stand still while it has no connection in its hands; whether it did so in this time. Where it has one it
        isn't touched: a process that goes on is told so within its calls, which it takes for a fault of the connection."""
        until = time.monotonic() + patience
        while self.process.poll() is None and time.monotonic() < until:
            if not self.serves():
                self.signal(signal.SIGSTOP)
                if not self.serves():
                    return True
                self.signal(signal.SIGCONT)
            time.sleep(0.001)
        return self.process.poll() is not None
