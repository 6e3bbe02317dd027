"""Files of vectors: behind a line `== call, its first texts` stand lines `TEXT -> ANSWER`. A line of a section that has a
letter, `== call .. edits NAME`, is `OLD => NEW -> ANSWER`: in the letter each OLD becomes NEW. It is tried alone, and
together with each later line of the section, and the answer is the same: the first fault is told. In a section `== call ..
fronts FAULT` a line is a text without an answer: each front of it, of so many bytes, has that fault at its end."""

import os
import re
import shlex

import asking
from reading import Texts, Wrong, bytes_of


class Vector:
    def __init__(self, file, number, why):
        self.file, self.number, self.why, self.tries = file, number, why, []

    def add(self, name, texts, wanted):
        self.tries.append((name, texts, wanted))


RUNS = os.path.join(os.path.dirname(os.path.dirname(os.path.realpath(__file__))), "runs")
INNER = re.compile(r"(?<!\\)\{([A-Z][A-Z0-9-]*(?: (?:[^{}\\]|\\\{[^}]*\}|\\.)*)?)\}", re.S)


def text_of(written, texts):
    """The bytes of a text of a vector, in which `{NAME}` is another text."""
    whole, at = b"", 0
    for found in INNER.finditer(written):
        if found[1].partition(" ")[0] in texts.known:
            whole += bytes_of(written[at : found.start()]) + texts.text(found[1])
            at = found.end()
    return whole + bytes_of(written[at:])


def read_file(path):
    """The vectors of a file."""
    file, texts, found, section = os.path.basename(path), Texts(), [], None
    with open(path, encoding="utf-8", newline="\n") as lines:
        for number, line in enumerate(lines.read().split("\n"), 1):
            try:
                if line == "" or line == "#" or line.startswith("# "):
                    continue
                if line.startswith("let "):
                    texts.let(line[4:], os.path.dirname(path))
                elif line.startswith("== "):
                    section = Section(file, line[3:], texts)
                elif section is None:
                    raise Wrong(f"`{line}` stands in no section")
                else:
                    found.append(section.vector(number, line, texts))
            except Wrong as why:
                raise Wrong(f"{file}:{number}: {why}") from None
    if not found:
        raise Wrong(f"{file}: no vector")
    return found


class Section:
    """A call with its first texts."""

    def __init__(self, file, head, texts):
        self.file, self.why = file, head
        words = shlex.split(head)
        self.edited, self.fault = None, None
        if len(words) > 2 and words[-2] == "edits":
            if words[-1] not in texts.known:
                raise Wrong(f"`{words[-1]}` is no text")
            self.edited, self.earlier, words = texts.known[words[-1]], [], words[:-2]
        elif len(words) > 2 and words[-2] == "fronts":
            self.fault, words = words[-1], words[:-2]
        self.name, self.first = words[0], [text_of(word, texts) for word in words[1:]]

    def vector(self, number, line, texts):
        vector = Vector(self.file, number, self.why)
        if self.fault:
            self.add_fronts(vector, text_of(line, texts))
            return vector
        text, arrow, answer = line.rpartition(" -> ")
        if not arrow:
            raise Wrong(f"`{line}` has no answer")
        answer = text_of(answer, texts)
        if self.edited is None:
            vector.add(self.name, [*self.first, text_of(text, texts)], answer)
        else:
            self.add_edits(vector, text, answer, texts)
        return vector

    def add_fronts(self, vector, text):
        """Each front of a text. Of hexadecimal digits each two are a byte."""
        digits = text.replace(b" ", b"")
        for size in range(len(digits) // 2):
            vector.add(self.name, [*self.first, digits[: 2 * size]], f"{self.fault}({size})".encode())

    def add_edits(self, vector, text, answer, texts):
        """A letter with an edit, and with a later one beside it."""
        old, mark, new = text.partition(" =>")
        old, new = text_of(old, texts), text_of(new.removeprefix(" "), texts)
        if not mark or old not in self.edited:
            raise Wrong(f"`{text}`: the letter has no such text")
        vector.add(self.name, [*self.first, self.edited.replace(old, new)], answer)
        for other, earlier, wanted in self.earlier:
            other.add(self.name, [*self.first, earlier.replace(old, new)], wanted)
        self.earlier.append((vector, self.edited.replace(old, new), answer))


def asked(name, texts):
    """What the player is asked for a try: a request is a service over memory, in pieces of a byte."""
    if name != "request":
        return [asking.asked(name, *texts)]
    with open(os.path.join(RUNS, "alfa.toml"), "rb") as file:
        directory = file.read().replace(b'name = "alfa"', b'name = "alfa"\nlimit = 73')
    return [asking.asked("depot"), asking.asked("run", "serve\n1\n", directory, "1000", "", "", "", "", "", "", texts[-1], "")]


def replied(came):
    """The status and the body of the only reply."""
    next(came)
    _, _, replies = asking.came_of(next(came))
    head, _, body = replies[0][1].partition(b"\r\n\r\n")
    return head[9:12] + b" " + body


def wrong(program, found):
    """Of each vector that is wrong, what was wanted and what came."""
    calls = [call for vector in found for name, texts, _ in vector.tries for call in asked(name, texts)]
    came = iter(asking.answers(program, calls))
    for vector in found:
        said = False
        for name, texts, wanted in vector.tries:
            answer = replied(came) if name == "request" else next(came)
            if answer != wanted and not said:
                said = True
                given = f"given:  {texts[-1]!r}\nwanted: {wanted!r}\ncame:   {answer!r}"
                yield f"{vector.file}:{vector.number}: {vector.why}\n{given}"
