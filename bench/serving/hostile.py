"""Sends byte strings over the port that are no requests, or hardly, and ends their connections in all ways. Each gets a
whole answer or is closed, and the program goes on until it has served its number."""

import collections
import random
import socket
import struct
import tempfile
import time

from service import PEOPLE, Service, answer, key, look, message, submission, to_the_end

ALICE = PEOPLE[0]


class Differs(Exception):
    """An answer that isn't whole, or a program that stopped."""


def random_bytes(chance):
    return chance.randbytes(chance.choice([1, 10, 100, 1_000, 5_000]))


def random_words(chance):
    words = ["GET", "POST", "/", f"/mail/{ALICE}/book", "HTTP/1.1", "HTTP/9.9", "x-key", "content-length", "é", "9" * 30]
    words += [":", " ", "\0", "\r", "\n", "\r\n", "\r\n\r\n"]
    return "".join(chance.choice(words) for _ in range(chance.randrange(1, 60))).encode()


def whole(chance):
    looks = [look(ALICE, what) for what in ("book", "items", "items/0")]
    return chance.choice(looks + [submission(*message(chance.randrange(1_000)))])


def cut(chance):
    text = submission(*message(0, 3_000))
    return text[: chance.randrange(len(text))]


def changed(chance):
    text = bytearray(whole(chance))
    for _ in range(chance.randrange(1, 5)):
        text[chance.randrange(len(text))] = chance.randrange(256)
    return bytes(text)


def endless(chance):
    """A head without an end: one line, many, many empty ones, or many with the same name."""
    size = chance.choice([10_000, 70_000, 300_000])
    front = chance.choice([b"", b"GET / HTTP/1.1\r\n", look(ALICE, "book")[:-2]])
    piece = chance.choice([b"x", b"x-a: b\r\n", b"\r\n", b" ", b"x-key: k-alice\r\n"])
    return front + piece * (size // len(piece))


def wrong_length(chance):
    sender, path, text = message(0, chance.choice([100, 5_000]))
    length = str(len(text)).encode()
    field = b"content-length: " + length
    other = chance.choice(
        [
            field[:-1] + b"9999",
            b"content-length: 0",
            b"content-length: 1",
            b"content-length: 00000" + length,
            b"content-length: 9999999999",
            b"content-length: 99999999999999999999",
            b"content-length: -1",
            b"content-length: " + length + b", " + length,
            b"content-length:",
            field + b"\r\n" + field,
            field + b"\r\ntransfer-encoding: chunked",
            b"transfer-encoding: chunked",
            b"x-length: " + length,
        ]
    )
    return submission(sender, path, text).replace(field, other)


def wrong_fields(chance):
    text = submission(*message(0))
    old, new = chance.choice(
        [
            (b"x-path: ", b"x-path: ,,"),
            (b"x-path: ", b"x-path: " + b"a@b.example," * 1_001),
            (b"x-path: ", b"x-way: "),
            (b"x-key: " + key(ALICE).encode(), b"x-key: "),
            (b"x-key: " + key(ALICE).encode(), b"x-key: " + b"k" * 60_000),
            (b"/mail/", b"/mail/../"),
            (b"/submit", b"/items/99999999999999999999"),
            (b"@", b"%40%00"),
            (b"POST", b"PUT"),
            (b"From: ", b"Form: "),
        ]
    )
    return text.replace(old, new, 1)


def pipelined(chance):
    return b"".join(whole(chance) for _ in range(chance.randrange(2, 6)))


def nothing(_):
    return b""


KINDS = [random_bytes, random_words, whole, cut, changed, endless, wrong_length, wrong_fields, pipelined, nothing]
# What a client does behind its bytes: it ends what it writes and reads on, or closes with a reset, or without reading.
ENDINGS = ["reads", "reads", "reads", "closes", "resets"]


def send(link, text, chance):
    """All at once, or in pieces. The program may be done with it before the end."""
    size = chance.choice([len(text), len(text), max(1, len(text) // 3)])
    try:
        for at in range(0, len(text), max(1, size)):
            link.sendall(text[at : at + size])
            if size < len(text):
                time.sleep(0.001)
    except OSError:
        pass


def end(link, ending):
    """What comes back, or None where the client doesn't look."""
    if ending == "resets":
        link.setsockopt(socket.SOL_SOCKET, socket.SO_LINGER, struct.pack("ii", 1, 0))
    if ending != "reads":
        return None
    try:
        link.shutdown(socket.SHUT_WR)
        return to_the_end(link)
    except OSError:
        return b""


def one(service, kind, chance):
    """One string over a connection of its own: its ending and the status that came back, 0 for none."""
    ending = chance.choice(ENDINGS)
    link = service.connected()
    if link is None:
        raise Differs(f"the program ended with status {service.child.returncode}")
    with link:
        send(link, kind(chance), chance)
        text = end(link, ending)
    if text is None:
        return ending, None
    if text and answer(text) is None:
        raise Differs(f"{kind.__name__} was answered {text[:200]}")
    return ending, answer(text)[0] if text else 0


def rows_of(folder):
    """How many messages the books have, by a run of their own."""
    service, ids = Service(folder, len(PEOPLE)), set()
    for address in PEOPLE:
        status, text = service.asked(look(address, "book"))
        if status != 200:
            raise Differs(f"the book of {address} is answered {status}")
        ids |= {line.split(" ")[0] for line in text.decode().split("\n")[:-2]}
    if service.ended() != 0:
        raise Differs("the second run doesn't end")
    return len(ids)


def play(wanted=1000, seed=1):
    chance = random.Random(seed)
    begin = time.monotonic()
    with tempfile.TemporaryDirectory() as folder:
        service, seen = Service(folder, wanted), []
        for number in range(wanted):
            seen.append(one(service, KINDS[number % len(KINDS)], chance))
        if service.ended() != 0:
            raise Differs(f"the program ended with status {service.child.returncode}")
        outcomes = service.outcomes()
        rows = rows_of(folder)
    if len(outcomes) != wanted:
        raise Differs(f"{len(outcomes)} connections were served, of {wanted}")
    for number, ((ending, status), outcome) in enumerate(zip(seen, outcomes)):
        if ending == "reads" and (status or "read-fault") != (int(outcome) if outcome.isdigit() else outcome):
            raise Differs(f"connection {number}: the client saw {status}, and the program wrote http {outcome}")
    stored, lost = outcomes.count("201"), outcomes.count("write-fault")
    if not stored <= rows <= stored + lost:
        raise Differs(f"{rows} messages stand, and {stored} were answered 201")
    none, away = sum(status == 0 for _, status in seen), sum(status is None for _, status in seen)
    print(
        f"{wanted} byte strings in {time.monotonic() - begin:.1f} s: {wanted - none - away} clients read to the end and "
        f"got a whole answer, {none} none, {away} went away; {rows} messages stand, of which {stored} were answered 201"
    )
    for outcome, count in sorted(collections.Counter(outcomes).items()):
        print(f"  http {outcome}: {count}")
