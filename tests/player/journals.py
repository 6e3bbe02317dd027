"""Journals as docs/formats.md has them, written entry by entry: `start`, `start-two` and `start-of-another` with a provider,
`ticked` and `upgraded` with a moment, `accepted` with a moment, a sender and a message, `archived` with a moment, an account
and a place, and `no-entry`. Entries stand apart by `;`."""

import hashlib
import struct
import tomllib

from reading import Wrong

TAGS = {"start": 0, "start-two": 10, "start-of-another": 0, "accepted": 1, "ticked": 8, "upgraded": 11, "archived": 12}
LIMIT = 31_457_280


def digest(directory):
    """The digest of a directory's canonical text."""
    lines = []
    for house in tomllib.loads(directory.decode())["provider"]:
        lines += [f"provider {house['name']}", f"receipts {house['mailReceipt'].lower()}"]
        lines += [f"domain {domain.lower()}" for domain in house["managedDomains"]]
        lines += [f"key {house['key']}", f"zone {house['zone']}", f"limit {house.get('limit', LIMIT)}"]
        lines += [f"account {one['address'].lower()} {one['quota']} {one['key']}" for one in house.get("account", [])]
    return hashlib.sha256("".join(line + "\n" for line in lines).encode()).digest()


def address(word):
    return struct.pack(">H", len(word)) + word.encode()


def entry(said, directory, texts):
    """The bytes of an entry."""
    word, *rest = said.split()
    if word == "no-entry":
        return b"\x0d"
    if word not in TAGS:
        raise Wrong(f"`{said}` is no entry")
    front = bytes([TAGS[word]])
    if word.startswith("start"):
        return front + struct.pack(">I", int(rest[0])) + (b"\7" * 32 if word == "start-of-another" else digest(directory))
    front += struct.pack(">Q", int(rest[0]))
    if word == "accepted":
        message = texts.text(rest[2].strip("{}"))
        return front + address(rest[1]) + struct.pack(">I", len(message)) + message
    if word == "archived":
        return front + address(rest[1]) + struct.pack(">I", int(rest[2]))
    return front


def journal(said, directory, texts):
    """The bytes of a journal of entries."""
    entries = [entry(one.strip(), directory, texts) for one in said.split(";")]
    return b"PECJRN1\n" + b"".join(b"\1" + struct.pack(">I", len(one)) + one for one in entries) + b"\0"
