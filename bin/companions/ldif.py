"""A directory in LDIF as a table of its records: docs/formats.md, `LDIF`."""

import base64
import binascii
import re

FIRST = re.compile(rb"version: *1")
ATTRIBUTE = re.compile(rb"([A-Za-z0-9][A-Za-z0-9\-;.]*):(?:: *+(.*)| *+((?![:<])[\x01-\x7f]*))", re.DOTALL)
PROVIDER = {"name": "pecname", "mailReceipt": "mailreceipt", "managedDomains": "manageddomains", "key": "peckey",
            "zone": "peczone", "limit": "peclimit"}
ACCOUNT = {"address": "pecaddress", "quota": "pecquota", "key": "peckey"}
# Both have more attributes than are looked at; these are near to a name that is.
KNOWN = {*PROVIDER.values(), *ACCOUNT.values()}
NUMBERS = ("limit", "quota")


class Wrong(Exception):
    """A fault, as the program words it, the number of its line, and what it means."""

    def __init__(self, fault, line, words):
        super().__init__(words)
        self.fault, self.line = fault, line


def is_ldif(text):
    """Whether the program takes the text for LDIF: by its first line that isn't empty and is no comment."""
    pieces = text.split(b"\n")
    for number, piece in enumerate(pieces):
        line = piece.removesuffix(b"\r") if number < len(pieces) - 1 else piece
        if line and not line.startswith(b"#"):
            return line == b"version: 1"
    return False


class Line:
    """A line with those that go on with it: its place in bytes, its number from 1, and its text."""

    def __init__(self, place, number, text):
        self.place, self.number, self.text = place, number, text


def lines(text):
    """The lines that aren't comments."""
    found, place = [], 0
    pieces = text.split(b"\n")
    for number, piece in enumerate(pieces, 1):
        is_last = number == len(pieces)
        line = piece if is_last else piece.removesuffix(b"\r")
        if is_last and not piece:
            break
        if not line.startswith(b" "):
            found.append(Line(place, number, line))
        elif found and found[-1].text:
            found[-1].text += line[1:]
        else:
            raise Wrong(f"ldif syntax {place}", number, "it begins with a space, and there is nothing that it goes on with")
        place += len(piece) + 1
    return [one for one in found if not one.text.startswith(b"#")]


def attribute(line):
    """The name in lower case, and the value of a line."""
    found = ATTRIBUTE.fullmatch(line.text)
    if found is None or found.group(3) is not None and b"\r" in found.group(3):
        raise Wrong(f"ldif syntax {line.place}", line.number, "it is no `name: value` and no `name:: BASE64`")
    name = found.group(1).decode().lower()
    if found.group(2) is None:
        return name, found.group(3).decode()
    try:
        return name, base64_of(found.group(2)).decode()
    except (ValueError, binascii.Error):
        raise Wrong(f"ldif base64 {line.place}", line.number, "what stands behind `::` isn't base64 of UTF-8") from None


def base64_of(word):
    """What a word of strict base64 says. ValueError where it is none."""
    word = word.encode() if isinstance(word, str) else word
    data = base64.b64decode(word, validate=True)
    if base64.b64encode(data) != word:
        raise ValueError("bits are left over")
    return data


class Record:
    """The attributes of a record, each with its line."""

    def __init__(self, first):
        self.first, self.pairs = first, []

    def values(self, name):
        return [(value, line) for one, value, line in self.pairs if one == name]

    def classes(self):
        return [value for value, _ in self.values("objectclass")]

    def is_provider(self):
        return "pecProvider" in self.classes()

    def is_account(self):
        return "pecAccount" in self.classes() and not self.is_provider()

    def tests(self, orphan):
        """The tests at the end of a record."""
        if self.pairs[0][0] != "dn":
            raise Wrong(f"ldif no-dn {self.first.place}", self.first.number, "the record doesn't begin with `dn:`")
        if self.values("changetype"):
            words = "the record says a change, and a directory is what stands there"
            raise Wrong(f"ldif change {self.first.place}", self.first.number, words)
        if self.is_account() and orphan:
            words = "the record is an account, and no provider stands before it"
            raise Wrong(f"ldif orphan {self.first.place}", self.first.number, words)


def records(text):
    """The records, which are tested one after another."""
    found, record, begun = [], None, False
    end = Line(len(text), text.count(b"\n") + 1, b"")
    for line in [*lines(text), end]:
        if not begun and line.text:
            if not FIRST.fullmatch(line.text):
                raise Wrong(f"ldif syntax {line.place}", line.number, "the first line isn't `version: 1`")
            begun = True
        elif line.text:
            record = record or Record(line)
            record.pairs.append((*attribute(line), line.number))
        elif record:
            record.tests(not any(one.is_provider() for one in found))
            found.append(record)
            record = None
    if not begun:
        raise Wrong(f"ldif syntax {end.place}", end.number, "there is no line `version: 1`")
    return found


def table(text):
    """The providers as a directory in TOML would have them, with the lines of their fields; and pairs of a line and the name
    of an attribute that nobody looks at and that is near to none."""
    providers, named = [], []
    for record in records(text):
        if record.is_provider():
            providers.append(fields(record, PROVIDER) | {"account": []})
        elif record.is_account():
            providers[-1]["account"].append(fields(record, ACCOUNT))
        if record.is_provider() or record.is_account():
            named += [(line, name) for name, _, line in record.pairs if name not in KNOWN]
    return providers, named


def fields(record, names):
    """The fields of a record, and under an empty name its line and theirs."""
    found, places = {}, {"": (record.first.number, None)}
    for field, name in names.items():
        said = record.values(name)
        if said:
            value, places[field] = said[0][0], (said[0][1], None)
            if field == "managedDomains":
                value = [one for one, _ in said]
            elif field in NUMBERS and re.fullmatch("[0-9]{1,9}", value):
                value = int(value)
            found[field] = value
    return found | {"": places}
