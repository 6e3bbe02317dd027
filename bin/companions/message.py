"""What the head of a message says, as the program reads it: docs/formats.md, `Heads of messages` and those behind it."""

import re

BLANKS = b" \t"
ATOM = rb"[A-Za-z0-9!#$%&'*+\-/=?^_`{|}~]+"
LABEL = rb"[A-Za-z0-9](?:[A-Za-z0-9\-]{0,61}[A-Za-z0-9])?"
DOMAIN = LABEL + rb"(?:\." + LABEL + rb")*"
ADDRESS = re.compile(ATOM + rb"(?:\." + ATOM + rb")*@" + DOMAIN)
NAMED = re.compile(rb'(?:[^"<>,@;:()\\]|"(?:[^"\\]|\\.)*")*<[ \t]*([^ \t<>]+)[ \t]*>[ \t]*', re.DOTALL)
PIECE = re.compile(rb'(?:[^",]|"(?:[^"\\]|\\.)*(?:"|\\?\Z))*', re.DOTALL)
NAME = re.compile(rb"[\x21-\x39\x3b-\x7e]+")
CONTROL = re.compile(rb"[\x00-\x08\x0a-\x1f\x7f]")
LONGEST_ADDRESS, LONGEST_LINE = 254, 998


class Unreadable(Exception):
    """What is wrong with a message: the cause for which a provider doesn't accept it, and words."""

    def __init__(self, cause, words):
        super().__init__(words)
        self.cause = cause


def address(text):
    """The address in lower case, or None."""
    text = text.encode() if isinstance(text, str) else text
    return text.lower().decode() if len(text) <= LONGEST_ADDRESS and ADDRESS.fullmatch(text) else None


def domain(of):
    return of.partition("@")[2]


def head(message):
    """The fields of the head in order, as pairs of a name and a value."""
    fields = []
    for number, piece in enumerate(message.split(b"\n")[:-1], 1):
        line = piece.removesuffix(b"\r")
        if len(line) > LONGEST_LINE:
            raise Unreadable("head", f"line {number} of its head has more than {LONGEST_LINE} bytes")
        if CONTROL.search(line):
            raise Unreadable("head", f"line {number} of its head has a control byte")
        if not line:
            return [(name.decode("latin-1").lower(), value.strip(BLANKS)) for name, value in fields]
        if line[:1] in (b" ", b"\t") and fields:
            fields[-1][1] += line
            continue
        name, colon, value = line.partition(b":")
        if not colon or not NAME.fullmatch(name):
            raise Unreadable("head", f"line {number} of its head is no field")
        fields.append([name, value])
    raise Unreadable("head", "no empty line ends its head")


def values(fields, name):
    return [value for one, value in fields if one == name.lower()]


def first(fields, name):
    """The first value of a name as a text, or nothing."""
    return (values(fields, name) or [b""])[0].decode("utf-8", "replace")


def listed(fields, name):
    """The addresses of all fields of that name, each once, or None where they are no list."""
    found, text, at = {}, b",".join(values(fields, name)), 0
    while at <= len(text):
        entry = PIECE.match(text, at).group()
        at += len(entry) + 1
        if entry.strip(BLANKS):
            named = NAMED.fullmatch(entry)
            one = address(named.group(1) if named else entry.strip(BLANKS))
            if one is None:
                return None
            found[one] = True
    return list(found) or None


def sender(fields):
    """The one address of the one `From`."""
    found = listed(fields, "from")
    if len(values(fields, "from")) != 1 or found is None or len(found) != 1:
        raise Unreadable("from", "it hasn't exactly one From with one address")
    return found[0]


def path(fields):
    """The recipients: those of `To`, then those of `Cc`, each once."""
    to = listed(fields, "to")
    if to is None:
        raise Unreadable("to", "its To is no list of addresses")
    copies = listed(fields, "cc") if values(fields, "cc") else []
    if copies is None:
        raise Unreadable("forward-path", "its Cc is no list of addresses")
    return list(dict.fromkeys(to + copies))
