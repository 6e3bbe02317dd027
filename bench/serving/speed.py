"""Measures requests a second of one client that opens a connection for each, over loopback: books of ten rows, and
submissions of 1 KiB, from the program on real files, beside raw appends of as many entries, each by a write, a sync, a
write of one byte and a sync; and a static answer of the book's size from Python's `http.server`. They take turns, three
times, and the least time of each counts. A word is the folder in which the files stand."""

import http.server
import multiprocessing
import os
import socket
import tempfile
import time

from service import PEOPLE, Service, look, submission, to_the_end

REQUESTS = 500
BEFORE = 5  # messages of two recipients each
ALICE, BOB = PEOPLE[0], PEOPLE[2]


class Differs(Exception):
    """An answer that isn't the one that is measured."""


def entries(folder):
    """How many entries the journals have, and how many bytes: each has a gate, a length and its bytes."""
    count = size = 0
    for name in ("pec-0.journal", "pec-1.journal"):
        with open(os.path.join(folder, name), "rb") as file:
            text, at = file.read(), 8
        while text[at] == 1:
            at += 5 + int.from_bytes(text[at + 1 : at + 5], "big")
            count += 1
        size += at
    return count, size


def raw(folder, count, size):
    """Seconds of as many appends of so many bytes each."""
    path = os.path.join(folder, "raw")
    at = os.open(path, os.O_CREAT | os.O_RDWR)
    begin = time.monotonic()
    for number in range(count):
        os.pwrite(at, b"x" * (size - 1), number * size + 1)
        os.fsync(at)
        os.pwrite(at, b"\1", number * size)
        os.fsync(at)
    seconds = time.monotonic() - begin
    os.close(at)
    os.remove(path)
    return seconds


def processor(service):
    """Seconds of processor time of the program so far."""
    with open(f"/proc/{service.child.pid}/stat", encoding="ascii") as file:
        words = file.read().rsplit(")", 1)[1].split()
    return (int(words[11]) + int(words[12])) / os.sysconf("SC_CLK_TCK")


def asked(service, request, status):
    """Seconds, seconds of processor time and entries of so many requests, and the mean size of an entry."""
    folder = os.path.dirname(service.path)
    count, size = entries(folder)
    used, begin = processor(service), time.monotonic()
    for _ in range(REQUESTS):
        said = service.asked(request)
        if said is None or said[0] != status:
            raise Differs(f"a request was answered {said}")
    seconds, used = time.monotonic() - begin, processor(service) - used
    more, longer = entries(folder)
    return seconds, used, more - count, (longer - size) // (more - count)


def ten_rows(service):
    """The book of alice, once all of its ten rows have their end."""
    head = f"From: {ALICE}\r\nTo: {BOB}\r\nCc: {PEOPLE[3]}\r\nSubject: Ciao\r\n\r\nSalve\r\n".encode()
    for _ in range(BEFORE):
        service.asked(submission(ALICE, [BOB, PEOPLE[3]], head))
    for _ in range(20):
        said = service.asked(look(ALICE, "book"))
    if said is None or said[0] != 200 or said[1].count(b" delivered ") != 10:
        raise Differs(f"the book is answered {said}")
    return said[1]


def short_submission():
    head = f"From: {PEOPLE[1]}\r\nTo: {BOB}\r\nSubject: Ciao\r\n\r\n".encode()
    return submission(PEOPLE[1], [BOB], head + b"x" * (1_024 - len(head)))


def turn(place):
    """The figures of books and of submissions, each with those of raw appends beside it, and the book."""
    with tempfile.TemporaryDirectory(dir=place) as folder:
        service, figures = Service(folder, BEFORE + 20 + 2 * REQUESTS), []
        text = ten_rows(service)
        for request, status in ((look(ALICE, "book"), 200), (short_submission(), 201)):
            ran = asked(service, request, status)
            figures.append((*ran, raw(folder, *ran[2:])))
        if service.ended() != 0:
            raise Differs(f"the program ended with status {service.child.returncode}")
    return figures, text


def static(text, opened):
    """Answers this to everybody."""

    class Static(http.server.BaseHTTPRequestHandler):
        def do_GET(self):
            self.send_response(200)
            self.send_header("content-type", "text/plain")
            self.send_header("content-length", str(len(text)))
            self.send_header("connection", "close")
            self.end_headers()
            self.wfile.write(text)

        def log_message(self, *_):
            pass

    with http.server.HTTPServer(("127.0.0.1", 0), Static) as server:
        opened.send(server.server_address[1])
        server.serve_forever()


def by_python(text):
    """Seconds of as many static answers by `http.server`, in a process of its own."""
    here, there = multiprocessing.Pipe()
    child = multiprocessing.Process(target=static, args=(text, there), daemon=True)
    child.start()
    port = here.recv()
    begin = time.monotonic()
    for _ in range(REQUESTS):
        with socket.create_connection(("127.0.0.1", port)) as link:
            link.sendall(look(ALICE, "book"))
            if not to_the_end(link).endswith(text):
                raise Differs("http.server answered otherwise")
    seconds = time.monotonic() - begin
    child.kill()
    return seconds


def play(place=None):
    turns, beside = [], []
    for _ in range(3):
        turns.append(turn(place))
        beside.append(by_python(turns[-1][1]))
    for number, what in ((0, f"books of ten rows ({len(turns[0][1])} bytes)"), (1, "submissions of 1 KiB")):
        seconds, used, count, size, _ = min(one[0][number] for one in turns)
        appends = min(one[0][number][4] for one in turns)
        print(
            f"{REQUESTS} {what}: {seconds:.2f} s, {REQUESTS / seconds:,.0f} a second, {used / REQUESTS * 1000:.2f} ms of "
            f"processor time each; {count} entries of {size} bytes, whose raw appends take {appends:.2f} s, "
            f"{appends / seconds:.2f} of that time"
        )
    print(f"{REQUESTS} static answers of http.server: {min(beside):.2f} s, {REQUESTS / min(beside):,.0f} a second")
