"""Journals as docs/formats.md has them: the entries that stand in a file, and what the bytes of an entry say."""

import struct

HEADER = b"PECJRN1\n"
CAUSES = ["head", "from", "to", "reverse-path", "forward-path", "bcc", "size", "virus"]
DECISIONS = ["delivered", "no-mailbox", "mailbox-full", "virus"]
# By its tag: the entry, and its fields in their order.
ENTRIES = [
    ("Start", "provider digest"),
    ("Accepted", "moment sender message"),
    ("NotAccepted", "moment sender cause path message"),
    ("Took", "moment id message"),
    ("Decided", "moment id recipient decision"),
    ("Charged", "moment id by"),
    ("Learned", "moment id recipient decision decided message"),
    ("Acked", "moment id recipient"),
    ("Ticked", "moment"),
    ("Anomaly", "moment accounts message"),
    ("StartTwo", "provider digest"),
    ("Upgraded", "moment"),
    ("Archived", "moment account place"),
]


class Reader:
    """Takes fields off the front of an entry."""

    def __init__(self, text):
        self.text, self.at = text, 0

    def take(self, count):
        piece = self.text[self.at : self.at + count]
        if len(piece) != count:
            raise ValueError(f"an entry ends within a field, at {len(self.text)}")
        self.at += count
        return piece

    def number(self, size):
        return int.from_bytes(self.take(size), "big")

    def short(self):
        return self.take(self.number(2))

    def long(self):
        return self.take(self.number(4))

    def addresses(self):
        return [self.short() for _ in range(self.number(4))]

    def identity(self):
        return struct.unpack(">IQ", self.take(12))


FIELDS = {
    "moment": lambda reader: reader.number(8),
    "decided": lambda reader: reader.number(8),
    "provider": lambda reader: reader.number(4),
    "by": lambda reader: reader.number(4),
    "place": lambda reader: reader.number(4),
    "digest": lambda reader: reader.take(32),
    "sender": Reader.short,
    "recipient": Reader.short,
    "account": Reader.short,
    "message": Reader.long,
    "path": Reader.addresses,
    "accounts": Reader.addresses,
    "id": Reader.identity,
    "cause": lambda reader: CAUSES[reader.number(1) - 1],
    "decision": lambda reader: DECISIONS[reader.number(1)],
}


def entry(text):
    """The name of an entry, and its fields by their names."""
    reader = Reader(text)
    name, fields = ENTRIES[reader.number(1)]
    said = {field: FIELDS[field](reader) for field in fields.split()}
    if reader.at != len(text):
        raise ValueError(f"something stands behind the entry {name}")
    return name, said


def entries(file):
    """The bytes of the entries that stand in a file, up to the closed gate."""
    if not file.startswith(HEADER):
        raise ValueError("no journal")
    at, found = len(HEADER), []
    while file[at] == 1:
        end = at + 5 + int.from_bytes(file[at + 1 : at + 5], "big")
        found.append(file[at + 5 : end])
        at = end
    return found
