"""The lines that a run can write. Their forms stand in bin/help, each with its meaning, and the words of causes; here
stand what another word in capitals of a form stands for, and the mark that a picture has for a line."""

import os
import re
from dataclasses import dataclass

HELP = os.path.join(os.path.dirname(os.path.dirname(os.path.realpath(__file__))), "help")
NUMBER = "(?:0|[1-9][0-9]*)"
PROVIDER = "[a-z0-9-]{1,32}"
DIGEST = "[0-9a-f]{64}"


def parts():
    """What bin/help says of lines: their forms, and what words in capitals stand for."""
    with open(HELP, encoding="ascii") as file:
        return file.read().split("that a picture of bin/draw has at its foot:\n\n")[1].split("\n\n")[:2]


def causes():
    """The words of causes, and what each means."""
    found = re.search(r"^    CAUSE  +(.*(?:\n {8}.*)*)", parts()[1], re.MULTILINE)
    return dict(re.findall(r"([a-z-]+) \(([^)]*)\)", " ".join(found[1].split())))


CAUSES = causes()
VALUES = {
    "ID": r"pec\.[0-9]{7}@[a-z0-9.-]+",
    "RECIPIENT": "[!-?A-~]+@[a-z0-9.-]+",
    "NAME": PROVIDER,
    "BY": PROVIDER,
    "TO": PROVIDER,
    "CAUSE": f"(?:{'|'.join(CAUSES)})",
    "DECISION": "(?:delivered|no-mailbox|mailbox-full|virus)",
    "CLASS": "(?:primary|copy)",
    "KIND": "(?:envelope|anomaly|(?:non-)?acceptance|delivery(?:-error)?|warning|(?:late-)?notice)",
    "CHARGED": f"(?:{NUMBER}|-)",
    "WARNED": f"(?:{NUMBER}|-)",
    "NOTICED": f"(?:{NUMBER}|-)",
    "KEPT": DIGEST,
    "GIVEN": DIGEST,
    "FIELD": "(?:name|mailReceipt|managedDomains|key|zone|limit|account|address|quota)",
    # an item begins with its seal
    "BASE64": "WC1TaWdpbGxv(?:[A-Za-z0-9+/]{4})*(?:[A-Za-z0-9+/]{2}==|[A-Za-z0-9+/]{3}=)?",
}

# The colours of Okabe and Ito, which all eyes tell apart.
BLUE, GREEN, RED, ORANGE, SKY, GREY = "#0072B2", "#009E73", "#D55E00", "#E69F00", "#56B4E9", "#6E7781"
# For the first word of a form: the shape of its mark, its colour, and what it says in the legend.
MARKS = {
    "accepted": ("square", BLUE, "a message is accepted"),
    "not-accepted": ("cross", RED, "a message isn't accepted"),
    "warned": ("triangle", ORANGE, "the sender is warned: 12 hours"),
    "noticed": ("triangle", ORANGE, "the sender has notice: 22 hours"),
    "noticed-late": ("triangle", RED, "the sender has notice, late"),
    "ticked": ("clock", GREY, "a provider looked at the clock"),
    "took": ("dot", BLUE, "takes charge of a message"),
    "charged": ("ring", BLUE, "hears that another took charge"),
    "learned": ("flag", GREEN, "hears of a delivery, and the sender does"),
    "acked": ("ring", GREEN, "hears that its receipt came"),
    "repeat": ("again", GREY, "came before: nothing changes"),
    "anomaly": ("triangle", ORANGE, "no letter, placed in mailboxes"),
    "dropped": ("cross", RED, "no letter, dropped"),
    "decided": ("diamond", GREEN, "places a message in a mailbox"),
    "down": ("bars", RED, "is down"),
    "clock-back": ("bars", RED, "a moment before the last one"),
    "journal-full": ("bars", RED, "a journal has no room"),
    "fault": ("cross", RED, "a disk failed"),
    "changed": ("cross", RED, "a disk gave back another entry"),
    "lost": ("cross", RED, "a frame is lost"),
    "repeated": ("again", ORANGE, "a frame is repeated"),
    "swapped": ("again", ORANGE, "two frames change places"),
    "injected": ("triangle", ORANGE, "a frame from outside"),
    "crashed": ("cross", RED, "a provider crashes"),
    "restarted": ("play", GREEN, "a provider starts again"),
    "book": ("pages", SKY, "a sender's book"),
    "mailbox": ("pages", SKY, "a mailbox"),
    "vault": ("pages", SKY, "an archive"),
    "archived": ("pages", GREEN, "an item goes to the archive"),
    "upgraded": ("play", BLUE, "a journal is raised to version 2"),
    "screened": ("again", BLUE, "a screen is replaced"),
    "http": ("pages", SKY, "a connection is served"),
} | {word: ("bars", RED, "the run ends") for word in ("usage", "refused", "not-empty", "not-fit", "too-long")}
REFUSED = ("bars", RED, "nothing comes of it")
# of recipients
REFUSALS = {
    "decided": ("lozenge", RED, "can't place a message"),
    "learned": ("struck", RED, "hears of a refusal, and the sender does"),
}
# rows of books, mailboxes and archives; the end of a round has no mark, and what is sent an arrow
ROW = ("dash", GREY, "")
ITEM = ("pages", SKY, "an item of a mailbox or an archive, in base64")


@dataclass(frozen=True)
class Form:
    """A form of a line, by its words."""

    group: str
    words: tuple
    meaning: str

    @property
    def key(self):
        """The first word that stands as it is, or nothing for a row or an item."""
        return next((word for word in self.words if not word.isupper()), "")

    @property
    def is_turn(self):
        return self.words[0] == "NAME"

    @property
    def is_row(self):
        return self.words[0] in ("ID", "PLACE")

    def mark(self):
        if self.is_row or self.key in ("round", "sent"):
            return ROW
        return ITEM if self.words == ("BASE64",) else MARKS.get(self.key, REFUSED)

    def pattern(self):
        absent = "|-" if self.words[0] == "PLACE" else ""
        return " ".join(self.word_pattern(word, absent) for word in self.words)

    def word_pattern(self, word, absent):
        if not word.isupper():
            return re.escape(word)
        pattern = VALUES.get(word, NUMBER)
        return f"(?:{pattern}{absent})" if word in ("ID", "RECIPIENT") else pattern


def forms():
    """The forms of bin/help: four spaces, a form, two spaces or a new line, and its meaning, below a group's title."""
    found, group = [], None
    for piece in re.sub(r"\n {20,}", "  ", parts()[0]).split("\n"):
        if not piece.startswith("    "):
            group = piece.strip()
            continue
        form, _, meaning = piece.strip().partition("  ")
        found.append(Form(group, tuple(form.split(" ")), meaning.strip()))
    return found


FORMS = forms()
READ = re.compile("|".join(f"({form.pattern()})" for form in FORMS))


def read(text):
    """The form of a line and what its words in capitals stand for, or None."""
    found = READ.fullmatch(text)
    if found is None:
        return None
    form = FORMS[found.lastindex - 1]
    return form, {name: word for name, word in zip(form.words, text.split(" ")) if name.isupper()}
