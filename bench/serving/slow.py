"""Clients that hold their connection, each in its own way, while others wait: the others are served once its limit of
time is over."""

import socket
import tempfile
import threading
import time

from service import LIMIT, PEOPLE, PORT, Service, answer, look, message, submission, to_the_end

ALICE = PEOPLE[0]
WAITING = 4
LONG = 8_000_000
SPARE = 2.0  # seconds that the others may wait beyond the limit


class Differs(Exception):
    """Others that waited for too long, or weren't answered."""


def trickle(link, text):
    """Sends a byte a second, as long as the connection takes them."""
    try:
        for at in range(len(text)):
            link.sendall(text[at : at + 1])
            time.sleep(1)
    except OSError:
        pass


def silent(link):
    to_the_end(link)


def slow_head(link):
    trickle(link, look(ALICE, "book"))


def slow_body(link):
    text = submission(*message(0, 1_000))
    link.sendall(text[:300])
    trickle(link, text[300:])


def slow_reader(link):
    """Asks for a long letter, and takes a byte a second."""
    link.sendall(look(ALICE, "items/1"))
    try:
        while link.recv(1):
            time.sleep(1)
    except OSError:
        pass


def goes_on(link):
    """Is answered, and sends more and more then."""
    link.sendall(look(ALICE, "book"))
    trickle(link, b"x" * 60)


KINDS = [silent, slow_head, slow_body, slow_reader, goes_on]


def held(kind):
    """A connection that is held by a client of this kind, in a thread of its own."""
    link = socket.socket()
    link.setsockopt(socket.SOL_SOCKET, socket.SO_RCVBUF, 4_096)
    link.connect(("127.0.0.1", PORT))

    def hold():
        try:
            kind(link)
        except OSError:
            pass

    thread = threading.Thread(target=hold, daemon=True)
    thread.start()
    return link


def waited(service, begin):
    """After how many seconds some that came behind were answered, the last of them."""
    links = [service.connected(60) for _ in range(WAITING)]
    for link in links:
        link.sendall(look(ALICE, "book"))
    for link in links:
        said = answer(to_the_end(link))
        if said is None or said[0] != 200:
            raise Differs(f"one that waited was answered {said}")
        link.close()
    return time.monotonic() - begin


def prepared(service):
    """A long message comes to its end, and alice has the delivery receipt with it as her item 1."""
    head = f"From: {ALICE}\r\nTo: {PEOPLE[2]}\r\nSubject: lunga\r\n\r\n".encode()
    said = service.asked(submission(ALICE, [PEOPLE[2]], head + (b"x" * 74 + b"\r\n") * (LONG // 76 + 1)))
    if said is None or said[0] != 201:
        raise Differs(f"the long message was answered {said}")
    for _ in range(9):
        said = service.asked(look(ALICE, "items/1"))
    if said is None or said[0] != 200 or len(said[1]) < LONG:
        raise Differs("the long letter isn't answered")
    return 10


def play():
    with tempfile.TemporaryDirectory() as folder:
        service = Service(folder, 10 + len(KINDS) * (1 + WAITING))
        before = prepared(service)
        for number, kind in enumerate(KINDS):
            begin = time.monotonic()
            link = held(kind)
            seconds = waited(service, begin)
            link.close()
            outcome = service.outcomes()[before + number * (1 + WAITING)]
            print(f"{kind.__name__}: the others waited {seconds:.2f} s, and its line is http {outcome}")
            if seconds > LIMIT + SPARE:
                raise Differs(f"the others waited {seconds:.2f} s")
        if service.ended() != 0:
            raise Differs(f"the program ended with status {service.child.returncode}")
