"""Addresses, heads, lists of addresses, what a message says of itself, and multiparts, as docs/formats.md has them."""

import hashlib
import re
from typing import NamedTuple

BLANKS = b" \t"
ATOM = rb"[A-Za-z0-9!#$%&'*+\-/=?^_`{|}~]+"
LABEL = rb"[A-Za-z0-9](?:[A-Za-z0-9\-]{0,61}[A-Za-z0-9])?"
ADDRESS = re.compile(ATOM + rb"(?:\." + ATOM + rb")*@" + LABEL + rb"(?:\." + LABEL + rb")*")
QUOTED = rb'"(?:[^"\\]|\\.)*"'
NAMED = re.compile(rb'(?:[^"<>,@;:()\\]|' + QUOTED + rb")*<[ \t]*([^ \t<>]+)[ \t]*>[ \t]*", re.DOTALL)
NAME = re.compile(rb"[\x21-\x39\x3b-\x7e]+")
CONTROL = re.compile(rb"[\x00-\x08\x0a-\x1f\x7f]")


def address(text):
    """The address in lower case, or None."""
    return text.lower() if len(text) <= 254 and ADDRESS.fullmatch(text) else None


def domain(of):
    return of.split(b"@")[1]


def without_repeats(items):
    return list(dict.fromkeys(items))


def without_end(line):
    return line[:-1] if line.endswith(b"\r") else line


def head(message):
    """The fields in order as (name, value), and the place behind the empty line; None where there is no head."""
    fields, at = [], 0
    pieces = message.split(b"\n")
    for piece in pieces[:-1]:
        at += len(piece) + 1
        line = without_end(piece)
        if len(line) > 998 or CONTROL.search(line):
            return None
        if not line:
            return [(name, value.strip(BLANKS)) for name, value in fields], at
        if line[:1] in (b" ", b"\t"):
            if not fields:
                return None
            fields[-1][1] += line
            continue
        name, colon, value = line.partition(b":")
        if not colon or not NAME.fullmatch(name):
            return None
        fields.append([name, value])
    return None


def values(fields, name):
    return [value for one, value in fields if one.lower() == name.lower()]


def first(fields, name):
    found = values(fields, name)
    return found[0] if found else None


def cut_outside_quotes(text, mark, escapes):
    """The pieces between the marks that stand outside double quotes."""
    pieces, quoted, piece, at = [], False, b"", 0
    while at < len(text):
        byte = text[at : at + 1]
        if quoted and escapes and byte == b"\\":
            piece += text[at : at + 2]
            at += 2
            continue
        if byte == b'"':
            quoted = not quoted
        if byte == mark and not quoted:
            pieces.append(piece)
            piece = b""
        else:
            piece += byte
        at += 1
    return pieces + [piece]


def addresses(fields, name):
    """The list of all fields of that name, or None where they are no list."""
    found = []
    for entry in cut_outside_quotes(b",".join(values(fields, name)), b",", True):
        if not entry.strip(BLANKS):
            continue
        named = NAMED.fullmatch(entry)
        one = address(named.group(1) if named else entry.strip(BLANKS))
        if one is None:
            return None
        found.append(one)
    return found or None


def printable(value):
    return re.sub(rb"[^\x20-\x7e]", b"?", value.replace(b"\t", b" "))


def shown(value):
    """A subject or reference, or None where it is absent."""
    return printable(value)[:900].strip(BLANKS) or None if value is not None else None


class Facts(NamedTuple):
    sender: bytes
    to: list
    copies: list
    wish: bytes
    subject: bytes
    reference: bytes
    reply: bytes

    @property
    def recipients(self):
        return self.to + self.copies


def wish(fields):
    word = (first(fields, b"X-TipoRicevuta") or b"").lower()
    return word if word in (b"breve", b"sintetica") else b"completa"


def facts(fields):
    """What the head says, or None where sender or recipients can't be told."""
    sender, to = addresses(fields, b"From"), addresses(fields, b"To")
    copies = addresses(fields, b"Cc") if values(fields, b"Cc") else []
    if len(values(fields, b"From")) != 1 or sender is None or len(sender) != 1 or to is None or copies is None:
        return None
    reply = first(fields, b"Reply-To")
    reply = printable(reply) if reply and len(reply) <= 900 else sender[0]
    to = without_repeats(to)
    copies = [one for one in without_repeats(copies) if one not in to]
    subject, reference = shown(first(fields, b"Subject")), shown(first(fields, b"Message-ID"))
    return Facts(sender[0], to, copies, wish(fields), subject, reference, reply)


CAUSES = ["head", "from", "to", "reverse-path", "forward-path", "bcc", "size", "virus"]


def refused(message, account, path, limit, found):
    """The cause for which a message isn't accepted, or None. A screen found a rule in it, or didn't."""
    read = head(message)
    if read is None:
        return "head"
    fields = read[0]
    sender = addresses(fields, b"From")
    if len(values(fields, b"From")) != 1 or sender is None or len(sender) != 1:
        return "from"
    to = addresses(fields, b"To")
    if to is None:
        return "to"
    if sender[0] != account:
        return "reverse-path"
    copies = addresses(fields, b"Cc") if values(fields, b"Cc") else []
    if copies is None or set(path) != set(to + copies):
        return "forward-path"
    if any(values(fields, b"Bcc")):
        return "bcc"
    if len(message) * len(set(to + copies)) > limit:
        return "size"
    return "virus" if found else None


def parameter(value, name):
    for piece in cut_outside_quotes(value, b";", False)[1:]:
        one, equals, text = piece.strip(BLANKS).partition(b"=")
        if equals and one.lower() == name:
            return text[1:-1] if len(text) >= 2 and text[:1] == text[-1:] == b'"' else text
    return None


def boundary(fields):
    kind = first(fields, b"Content-Type")
    if kind is None or not kind.lower().startswith(b"multipart/"):
        return None
    mark = parameter(kind, b"boundary")
    return mark if mark and len(mark) <= 70 else None


def parts(fields, body):
    """The places (begin, end) of the parts in the body, or None where they are refused."""
    mark = boundary(fields)
    if mark is None:
        return None
    places, begin, at = [], None, 0
    pieces = body.split(b"\n")
    for number, piece in enumerate(pieces):
        last = number == len(pieces) - 1
        line = (piece if last else without_end(piece)).rstrip(BLANKS)
        closing = line == b"--" + mark + b"--"
        if closing and begin is not None or line == b"--" + mark and not last:
            if begin is not None:
                end = at - 1
                end -= body[end - 1 : end] == b"\r"
                places.append((begin, max(end, begin)))
            if closing:
                return places if all(head(body[a:b]) for a, b in places) else None
            begin = at + len(piece) + 1
        at += len(piece) + 1
    return None


def attachment(part):
    """What stands in place of a part, which is the part itself where it is no attachment."""
    fields, at = head(part)
    disposition = first(fields, b"Content-Disposition")
    if disposition is None or not disposition.lower().startswith(b"attachment"):
        return part
    kind = first(fields, b"Content-Type")
    name = parameter(disposition, b"filename") or kind and parameter(kind, b"name") or b"allegato"
    name = re.sub(rb'[^\x20-\x7e]|["\\]', b"_", name)
    digest = hashlib.sha256(part[at:]).hexdigest().encode()
    return (
        b'Content-Type: text/plain; name="' + name + b'.hash"\r\n'
        b'Content-Disposition: attachment; filename="' + name + b'.hash"\r\n\r\n' + digest
    )


def brief(original):
    read = head(original)
    places = read and parts(read[0], original[read[1] :])
    if not places:
        return original
    body, text, at = original[read[1] :], original[: read[1]], 0
    for begin, end in places:
        text += body[at:begin] + attachment(body[begin:end])
        at = end
    return text + body[at:]
