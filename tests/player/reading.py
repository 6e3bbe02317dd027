"""Files of rows, read. A line that isn't understood is a fault of its file, and so is a key that nobody knows."""

import base64
import os
import re

NAME = re.compile(r"[A-Z][A-Z0-9-]*")
WORD = re.compile(r"(?<![A-Za-z0-9.,/+=-])[A-Z][A-Z0-9-]*(?![A-Za-z0-9.,/+=-])")
ESCAPE = re.compile(r"\\(?:x([0-9a-f]{2})|\{(\d+)\*(.*?)\}|(.))", re.S)
PLAIN = {"n": b"\n", "r": b"\r", "t": b"\t", "\\": b"\\", "|": b"|"}
# What is set up before a row is played, and how many values each takes at least.
KEYS = {
    "directory": 1, "replace": 1, "add": 1, "input": 0, "ends": 1, "journal": 1, "screens": 1, "spares": 1, "piece": 1,
    "fails-disk": 2, "keeps": 1, "each-disk": 2, "fails-read": 1, "each-read": 1, "fails-write": 1, "each-write": 1,
    "fails-clock": 1, "fails-door": 1, "fails-connection": 2,
}  # fmt: skip


class Wrong(Exception):
    """A row or a file that isn't as it has to be."""


def bytes_of(text, ends=False):
    """The bytes of a text with escapes: `\\n`, `\\r`, `\\t`, `\\\\`, `\\|`, `\\x7f`, and `\\{64*b}` for b 64 times. With
    `ends` a `|` is the end of a line."""

    def plain(piece):
        return piece.encode().replace(b"|", b"\r\n" if ends else b"|")

    whole, at = b"", 0
    for found in ESCAPE.finditer(text):
        whole += plain(text[at : found.start()])
        code, times, many, one = found.groups()
        if code is not None:
            whole += bytes([int(code, 16)])
        elif times is not None:
            whole += bytes_of(many, ends) * int(times)
        elif one in PLAIN:
            whole += PLAIN[one]
        else:
            raise Wrong(f"`\\{one}` is no escape")
        at = found.end()
    return whole + plain(text[at:])


def cut(value, at):
    """The value of one operation on a text: `with OLD -> NEW` (the first OLD), `each OLD -> NEW`, `part NAME`, `half`, `front SIZE`, `flip PLACE`, `at PLACE
    COUNT TEXT` (so many bytes from there on become the text)."""
    word, _, rest = at.partition(" ")
    if word in ("with", "each"):
        old, arrow, new = rest.partition(" -> ")
        old, new = bytes_of(old, True), bytes_of(new, True)
        if not arrow or old not in value:
            raise Wrong(f"`{at}`: no such text")
        return value.replace(old, new, 1 if word == "with" else -1)
    if word == "part":
        begin = value.find(f'filename="{rest}"\r\n\r\n'.encode())
        end = value.find(b"\r\n--=_pec_", begin)
        if begin < 0 or end < 0:
            raise Wrong(f"`{at}`: no such part")
        return value[value.find(b"\r\n\r\n", begin) + 4 : end]
    if word == "half" and not rest:
        return value[: len(value) // 2]
    if word == "front" and rest.isdigit():
        return value[: int(rest)]
    if word == "flip" and re.fullmatch(r"-?\d+", rest):
        changed = bytearray(value)
        changed[int(rest)] ^= 1
        return bytes(changed)
    found = re.fullmatch(r"at (\d+) (\d+) ?(.*)", at)
    if found:
        return value[: int(found[1])] + bytes_of(found[3]) + value[int(found[1]) + int(found[2]) :]
    raise Wrong(f"`{at}` is no operation")


class Texts:
    """Texts by their names."""

    def __init__(self, others=None):
        self.known = dict(others.known) if others else {}

    def text(self, inside):
        """What stands for `{inside}`: a text by its name, with an operation where one is named; or the text itself."""
        name, _, rest = inside.partition(" ")
        if name in self.known:
            return cut(self.known[name], rest) if rest else self.known[name]
        return self.filled(inside)

    def filled(self, text):
        """A text with its ends of lines, in which `{NAME}` is the text of that name."""
        whole, at = b"", 0
        for found in re.finditer(r"(?<!\\)\{([A-Z][^{}]*)\}", text):
            if found[1].partition(" ")[0] in self.known:
                whole += bytes_of(text[at : found.start()], True) + self.text(found[1])
                at = found.end()
        return whole + bytes_of(text[at:], True)

    def let(self, line, folder=None):
        name, mark, file = line.partition(" < ")
        if mark and folder is not None:
            try:
                with open(os.path.join(folder, file), "rb") as text:
                    self.known[name] = text.read().replace(b"\n", b"\n" if file.endswith(".toml") else b"\r\n")
            except OSError as why:
                raise Wrong(str(why)) from None
            return
        name, mark, text = (line + " " if line.endswith(" =") else line).partition(" = ")
        if not mark or not NAME.fullmatch(name):
            raise Wrong(f"`let {line}` has no name")
        self.known[name] = self.filled(text)

    def words(self, line):
        """A line in which names stand for their texts."""

        def one(found):
            return self.known[found[0]].decode("latin-1") if found[0] in self.known else found[0]

        pieces = re.split(r"(\{[^{}]*\})", line)
        return "".join(piece if piece.startswith("{") else WORD.sub(one, piece) for piece in pieces)

    def script(self, line):
        """A line of a script, in which `{..}` is the base64 of a text, and which may have escapes."""

        def one(found):
            return base64.b64encode(self.text(found[1])).decode()

        return bytes_of(re.sub(r"(?<!\\)\{([^{}]*)\}", one, self.words(line)))


class Step:
    """A run: whether its disks are new, its words and its directory, where that isn't the row's, the lines of its input, what it has to write, its
    status, and its connections, each with the lines of the request and of the reply. Behind a line that is kept stand the
    lines that its letter has."""

    def __init__(self, words):
        self.is_new, words = words.endswith(" on new disks"), words.removesuffix(" on new disks")
        self.words, _, self.directory = words.partition(" < ")
        self.lines, self.wanted, self.status, self.meetings = [], [], "done", []


class Row:
    def __init__(self, file, number, why):
        self.file, self.number, self.why, self.keys, self.steps = file, number, why, [], []

    def first(self):
        """The first run."""
        return next(step for step in self.steps if isinstance(step, Step))

    def key(self, name):
        return [value for key, value in self.keys if key == name]


def repeated(line):
    """How many times a line stands: `*64 injected` is 64 lines."""
    found = re.match(r"\*(\d+) (.*)", line, re.S)
    return [found[2]] * int(found[1]) if found else [line]


def read_line(row, line):
    """Takes one line of a row in."""
    step = row.steps[-1] if row.steps else None
    if line.startswith("@"):
        key, _, value = line[1:].partition(" ")
        if key not in KEYS or step is not None or len(value.split()) < KEYS[key]:
            raise Wrong(f"`@{key}` is no key with these values, or stands behind a run")
        row.keys.append((key, value))
    elif line.startswith("let "):
        row.steps.append(line[4:])
    elif line == "$" or line.startswith("$ "):
        row.steps.append(Step(line[2:]))
    elif not isinstance(step, Step):
        raise Wrong(f"`{line}` stands behind no run")
    elif line.startswith("<") and line[1:2] in ("", " ", "!"):
        if not step.meetings or line[1:2] == "!" and line not in ("<! unmet", "<! nothing", "<! front"):
            raise Wrong(f"`{line}` answers no request")
        step.meetings[-1][1].append(line if line[1:2] == "!" else line[2:])
    elif line.startswith(">") and line[1:2] in ("", " ", "*"):
        lines = repeated(line[1:] if line[1:2] == "*" else line[2:])
        if step.words.startswith("serve"):
            if not step.meetings or step.meetings[-1][1]:
                step.meetings.append(([], []))
            step.meetings[-1][0].extend(lines)
        else:
            step.lines.extend(lines)
    elif re.fullmatch(r"\[[a-z-]+\]", line):
        step.status = line[1:-1]
    else:
        step.wanted.extend(repeated(line))


def read_file(path):
    """The rows of a file, and the texts that it names."""
    rows, texts = [], Texts()
    with open(path, encoding="utf-8", newline="\n") as lines:
        for number, line in enumerate(lines.read().split("\n"), 1):
            line = line.removesuffix("\n")
            try:
                if line == "" or line == "#" or line.startswith("# "):
                    continue
                if line.startswith("== ") and line[3:].strip():
                    rows.append(Row(os.path.basename(path), number, line[3:]))
                elif rows:
                    read_line(rows[-1], line)
                elif line.startswith("let "):
                    texts.let(line[4:])
                else:
                    raise Wrong(f"`{line}` stands in no row")
            except Wrong as why:
                raise Wrong(f"{os.path.basename(path)}:{number}: {why}") from None
    if not rows:
        raise Wrong(f"{os.path.basename(path)}: no row")
    for row in rows:
        if not any(isinstance(step, Step) for step in row.steps):
            raise Wrong(f"{row.file}:{row.number}: the row runs nothing")
    return rows, texts
