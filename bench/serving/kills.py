"""Kills the service at random moments, between its requests and within them, while it opens its journals and while it
ends, serves again on the same files, and looks whether what was answered stands, whether anything stands twice, and whether
books and mailboxes come out whole."""

import base64
import hmac
import os
import random
import tempfile
import threading
import time

import service as services
from service import PEOPLE, Service, look, submission

SESSIONS = 12  # runs over one folder, each of which is killed
MOST = 100_000  # connections: more than any run gets
AT_ONCE = 40  # messages handed in and not carried on: a link has 64 places, and many more of them hold each other up


class Differs(Exception):
    """What doesn't stand as it was answered."""


def message(number):
    """Every fifth message is a long one, so that some are cut off on their way."""
    return services.message(number, 100_000 if number % 5 == 0 else 400)


class Past:
    """What was handed in so far: what was answered, and what wasn't."""

    def __init__(self):
        self.next, self.answered, self.cut = 0, {}, set()

    def hand_in(self, service):
        number, self.next = self.next, self.next + 1
        sender, path, text = message(number)
        said = service.asked(submission(sender, path, text))
        if said is None:
            self.cut.add(number)
        elif said[0] != 201:
            raise Differs(f"message {number} was answered {said}")
        else:
            self.answered[number] = said[1].decode().split()[1]


def shown(service, address, what, missing=False):
    """The body of what an account looks at; None where the program ended, or nothing is there and may be missing."""
    said = service.asked(look(address, what))
    if said is None or missing and said[0] == 404:
        return None
    if said[0] != 200:
        raise Differs(f"{what} of {address} was answered {said}")
    return said[1]


def rows(text, last):
    """The rows of a book or a mailbox as words, which the last line counts."""
    *lines, end = text.decode().split("\n")[:-1]
    if end != f"{last} {len(lines)}":
        raise Differs(f"{len(lines)} rows, and then {end}")
    return [line.split(" ") for line in lines]


def book_stands(service, past):
    """Whether each answered message has its two rows in its sender's book, and no message more. Rows by sender."""
    books = {}
    for address in PEOPLE:
        text = shown(service, address, "book")
        if text is None:
            return None
        books[address] = rows(text, "book")
    ids = [row[0] for book in books.values() for row in book]
    for number, identity in past.answered.items():
        mine = [row for row in books[message(number)[0]] if row[0] == identity]
        if [row[1] for row in mine] != message(number)[1] or ids.count(identity) != 2:
            raise Differs(f"message {number}, {identity}, has the rows {mine}")
    if len(set(past.answered.values())) != len(past.answered):
        raise Differs("an id was answered twice")
    if len(set(ids)) > len(past.answered) + len(past.cut):
        raise Differs("books have more messages than were handed in")
    return books


def session(folder, past, chance, length):
    """One run that is killed; whether it got so far that all books were seen."""
    service = Service(folder, MOST)
    if chance.random() < 0.2:
        time.sleep(chance.uniform(0, 0.05))
        service.kill()
        return False
    link = service.connected()
    if link is None:
        none_made(folder, past, service.child.wait())
        return False
    link.close()
    seen = book_stands(service, past) is not None
    timer = threading.Timer(chance.uniform(0, length), service.child.kill)
    timer.start()
    while service.runs():
        if chance.random() < 0.7:
            past.hand_in(service)
        else:
            shown(service, chance.choice(PEOPLE), chance.choice(["book", "items", "items/0"]), missing=True)
    timer.join()
    if service.child.wait() != -9:
        raise Differs(f"the program ended with status {service.child.returncode}")
    return seen


def edge(folder, past, ends, chance):
    """One run that is killed while it opens its journals, or while it ends behind the last connection that it serves."""
    service = Service(folder, 1 if ends else MOST)
    if ends:
        past.hand_in(service)
        time.sleep(chance.uniform(0, 0.005))
    else:
        time.sleep(chance.uniform(0, 0.02))
    return service.kill() == -9


def edges(wanted, chance):
    """How many of so many runs were killed before they had ended: as they opened, and as they ended."""
    counts = []
    for ends in (False, True):
        early = 0
        for begun in range(0, wanted, AT_ONCE):
            with tempfile.TemporaryDirectory() as folder:
                past = Past()
                service = Service(folder, 1)
                past.hand_in(service)
                service.ended()
                for _ in range(min(AT_ONCE, wanted - begun)):
                    early += edge(folder, past, ends, chance)
                whole(folder, past)
        counts.append(early)
    return counts


def none_made(folder, past, status):
    """The program opens no journals: an early run was killed before it had made them all. They are removed then."""
    if past.answered or past.cut:
        raise Differs(f"the program ended with status {status}")
    for name in os.listdir(folder):
        os.remove(os.path.join(folder, name))


def sealed(text):
    """Whether the seal of a letter is its provider's."""
    line, _, rest = text.partition(b"\r\n")
    name, tag = line.removeprefix(b"X-Sigillo: ").split(b"; ")
    return base64.b64decode(tag) == hmac.digest(name * 8, rest, "sha256")


def mailbox_of(service, address):
    """The kinds of the items of an account with the number in their subject, each of which is fetched."""
    found = []
    for row in rows(shown(service, address, "items"), "mailbox"):
        text = shown(service, address, f"items/{row[0]}")
        subject = [line for line in text.split(b"\r\n") if line.startswith(b"Subject: ")][0]
        if not sealed(text) or row[0] != str(len(found)):
            raise Differs(f"item {row} of {address} isn't whole")
        found.append((row[1], int(subject.split(b" ")[-1])))
    return found


def settled(service, past):
    """Asks until no row is open; the books then."""
    for _ in range(400):
        books = book_stands(service, past)
        if books is None:
            raise Differs("the program ended by itself")
        if not any("open" in row for book in books.values() for row in book):
            return books
    raise Differs("rows stay open")


def whole(folder, past):
    """Looks at all books and mailboxes at the end; how many messages stand that weren't answered."""
    service = Service(folder, MOST)
    books = settled(service, past)
    if {row[7] for book in books.values() for row in book} - {"delivered"}:
        raise Differs("a message wasn't delivered")
    items = {address: mailbox_of(service, address) for address in PEOPLE}
    service.kill()
    unanswered = 0
    for number in range(past.next):
        sender, path, _ = message(number)
        copies = [items[one].count(("envelope", number)) for one in path]
        receipts = items[sender].count(("acceptance", number)), items[sender].count(("delivery", number))
        if (copies, receipts) == ([0, 0], (0, 0)) and number in past.cut:
            continue
        if (copies, receipts) != ([1, 1], (1, 2)):
            raise Differs(f"message {number} was delivered {copies} times and has {receipts} receipts")
        unanswered += number in past.cut
    count = sum(len(book) for book in books.values())
    if count != 2 * (len(past.answered) + unanswered) or sum(map(len, items.values())) != 5 * count // 2:
        raise Differs("there are rows or items of no message")
    return unanswered


def typical(chance):
    """Seconds of some requests."""
    with tempfile.TemporaryDirectory() as folder:
        service, past = Service(folder, MOST), Past()
        past.hand_in(service)
        begin = time.monotonic()
        for _ in range(8):
            past.hand_in(service)
            shown(service, chance.choice(PEOPLE), "book")
        seconds = time.monotonic() - begin
        service.kill()
    return seconds


def play(wanted=200, seed=1):
    chance = random.Random(seed)
    length = typical(chance)
    kills = folders = answered = cut = unanswered = looked = 0
    begin = time.monotonic()
    while kills < wanted:
        with tempfile.TemporaryDirectory() as folder:
            past = Past()
            for _ in range(SESSIONS):
                looked += session(folder, past, chance, length)
            unanswered += whole(folder, past)
            kills, folders = kills + SESSIONS, folders + 1
            answered, cut = answered + len(past.answered), cut + len(past.cut)
    print(
        f"{kills} runs over {folders} folders were killed, {time.monotonic() - begin:.0f} s: {answered} submissions were "
        f"answered 201, and each stands once, with its rows, letters and receipts; of {cut} that weren't answered "
        f"{unanswered} stand once and the others not at all; all books were also looked at in {looked} of the runs"
    )
    opened, ended = edges(wanted, chance)
    print(
        f"{wanted} runs were killed as they opened their journals, {opened} of them before they had ended, and {wanted} as "
        f"they ended, {ended} before they had: what was answered stands"
    )
