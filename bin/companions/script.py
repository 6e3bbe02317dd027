"""The lines of a script: which commands there are, and the fault of a line that is none. docs/formats.md, `The script`."""

import re

import dates
import ldif
import message

LONGEST_LINE, MOST_LINES = 67_108_864, 1_000_000
MOST_PATH, MOST_PLACE = 1_000, 4_294_967_295
COMMANDS = {
    "submit": "provider moment address path base64",
    "tick": "provider moment",
    "round": "moment",
    "lose": "provider provider place",
    "repeat": "provider provider place",
    "swap": "provider provider place",
    "inject": "provider provider base64",
    "crash": "provider",
    "restart": "provider",
    "book": "address",
    "mailbox": "address",
    "show": "address place",
    "archive": "address moment place",
    "vault": "address",
    "vault-show": "address place",
    "upgrade": "provider moment",
    "screen": "provider place",
}
BASE64 = re.compile("[A-Za-z0-9+/]+={0,2}")
WRAPPED = (64, 76)


def is_base64(word):
    try:
        ldif.base64_of(word)
    except ValueError:
        return False
    return True


def is_number(word, most):
    return bool(re.fullmatch("0|[1-9][0-9]{0,19}", word)) and int(word) <= most


class Line:
    """A line that is a command, or its fault as the program words it, with words of ours."""

    def __init__(self, text, names):
        self.words, self.fault, self.why = text.split(" "), None, None
        kinds = COMMANDS.get(self.words[0])
        if kinds is None:
            self.fault, self.why = "unknown-word", f"`{self.words[0][:40]}` is no command"
            return
        kinds = kinds.split(" ")
        if len(self.words) - 1 != len(kinds):
            form = " ".join([self.words[0], *(kind.upper() for kind in kinds)])
            self.fault, self.why = "arity", f"it has {len(self.words)} words, and `{form}` has {len(kinds) + 1}"
            return
        for place, (kind, word) in enumerate(zip(kinds, self.words[1:]), 1):
            told = self.fault_of(kind, word, names)
            if told and self.fault is None:
                self.fault, self.why = f"{told[0]} {place}", f"word {place + 1}, `{word[:40]}`, {told[1]}"

    def fault_of(self, kind, word, names):
        if kind == "moment" and not is_number(word, dates.END - 1):
            return "bad-number", "is no moment: seconds since 1970"
        if kind == "place" and not is_number(word, MOST_PLACE):
            return "bad-number", "is no place"
        if kind == "address" and message.address(word) is None:
            return "bad-address", "is no address"
        if kind == "path":
            path = word.split(",")
            if len(path) > MOST_PATH or None in map(message.address, path):
                return "bad-address", f"is no path: 1 to {MOST_PATH} addresses with commas and no blanks between them"
        if kind == "base64" and not is_base64(word):
            return "bad-base64", "is no base64 of whole groups of four"
        if kind == "provider" and word not in names:
            return "unknown-provider", f"is no provider of the directory: {', '.join(names)}"
        return None

    def moment(self):
        kinds = COMMANDS[self.words[0]].split(" ")
        return int(self.words[1 + kinds.index("moment")]) if "moment" in kinds else None

    def whose(self, read):
        """The provider whose clock the line is about; `round` is about all."""
        if self.words[0] == "archive":
            return read.home(self.words[1].lower())
        return read.named(self.words[1]) if self.words[0] in ("submit", "tick", "upgrade") else None


def lines(text):
    """The lines behind `%%`."""
    pieces = text.split(b"\n")
    for number, piece in enumerate(pieces):
        is_last = number == len(pieces) - 1
        if piece or not is_last:
            yield (piece if is_last else piece.removesuffix(b"\r"))
