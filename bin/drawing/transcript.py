"""Reads what a run wrote, line by line, into rounds and what stands between them, and tells what became of each message
and of the frames that were sent."""

from collections import Counter
from dataclasses import dataclass, field

import words

MOST_LINES = 100_000
MOST_BYTES = 64 * 1024 * 1024
MOST_PROVIDERS = 16
# What the words of turns handle one frame each.
HANDLED = ("took", "charged", "learned", "acked", "repeat", "anomaly", "dropped")


class Unreadable(Exception):
    """A line that can't be read, or isn't where a run writes it."""

    def __init__(self, number, why):
        super().__init__(f"line {number} {why}")


@dataclass
class Line:
    number: int
    text: str
    form: words.Form
    said: dict

    @property
    def key(self):
        return self.form.key


@dataclass
class Sent:
    """A line that says to whom frames were sent, and what became of them: they `came`, are `lost`, `wait`, or it is
    `unsure` which of them came."""

    line: Line
    fate: str = "wait"


@dataclass
class Turn:
    events: list = field(default_factory=list)
    sent: list = field(default_factory=list)

    def handled(self):
        return sum(line.key in HANDLED for line in self.events)

    def ended(self):
        """The word with which it ended early."""
        last = self.events[-1].key if self.events else ""
        return last if last in ("down", "clock-back", "journal-full", "fault", "changed") else ""


@dataclass
class Round:
    """Turns by the name of their provider, in order, and the line that ends the round."""

    turns: dict = field(default_factory=dict)
    end: Line = None

    def turn(self, name):
        return self.turns.get(name, Turn())


@dataclass
class Band:
    """Lines that no provider's turn writes, one after the other."""

    lines: list = field(default_factory=list)


@dataclass
class Transcript:
    blocks: list
    lines: list

    def providers(self):
        """The names of providers in the order of the directory, as far as their turns show it."""
        before = {}
        for one in self.blocks:
            if isinstance(one, Round):
                chain(before, list(one.turns))
                for turn in one.turns.values():
                    chain(before, [sent.line.said["TO"] for sent in turn.sent])
        for line in self.lines:
            if line.form.is_turn and line.key == "charged":
                before.setdefault(line.said["BY"], set())
        order = []
        while before:
            # the next is one before which all stand already; lines of two directories may have none
            name = next((one for one in before if before[one] <= set(order)), next(iter(before)))
            order.append(name)
            del before[name]
        return order


def chain(before, names):
    """Notes that these names stand in this order."""
    for place, name in enumerate(names):
        before.setdefault(name, set()).update(names[:place])


# The words of a line behind which only the named may stand: the lines of one command belong together.
OPEN = {"turn": ("round",), "mark": ("ticked",), "ID": ("book",), "PLACE": ("mailbox", "vault")}


def part_of(form):
    """Of which command's lines this is one, of several."""
    if form.is_turn:
        return "turn"
    if form.is_row:
        return form.words[0]
    return "mark" if form.key in ("warned", "noticed", "noticed-late") else ""


def read_lines(data):
    """The lines of these bytes; the last may have no end."""
    if len(data) > MOST_BYTES:
        raise Unreadable(data[:MOST_BYTES].count(b"\n") + 1, f"goes over {MOST_BYTES} bytes")
    pieces = data.split(b"\n")
    if pieces[-1] == b"":
        pieces.pop()
    for number, piece in enumerate(pieces, 1):
        if number > MOST_LINES:
            raise Unreadable(number, f"is over the limit of {MOST_LINES} lines")
        text = piece.decode("latin-1")
        found = words.read(text)
        if found is None:
            raise Unreadable(number, f"is none that a run writes: {text[:100]!r}")
        yield Line(number, text, *found)


class Order:
    """Whether lines stand where a run writes them: those of one command together, as many as its last line counts."""

    def __init__(self):
        self.part, self.count = "", 0

    def take(self, line):
        part, last = part_of(line.form), OPEN.get(self.part)
        if last is not None and part != self.part and line.key not in last:
            ought = "` or `".join(last)
            raise Unreadable(line.number, f"stands where `{ought}` ought to be: {line.text[:100]!r}")
        count = int(line.said.get("COUNT", line.said["PLACE"] if part == "PLACE" else self.count))
        if count != self.count:
            raise Unreadable(line.number, f"counts other than {self.count} lines before it: {line.text[:100]!r}")
        self.part, self.count = part, self.count + 1 if part else 0


def read(data):
    """The transcript of a run."""
    lines, blocks, order = [], [], Order()
    for line in read_lines(data):
        order.take(line)
        lines.append(line)
        place(blocks, line)
    if len(Transcript(blocks, lines).providers()) > MOST_PROVIDERS:
        raise Unreadable(len(lines), f"ends a text of more than {MOST_PROVIDERS} providers")
    tell_frames(blocks)
    return Transcript(blocks, lines)


def place(blocks, line):
    """Puts the line where it belongs."""
    last = blocks[-1] if blocks else None
    if not line.form.is_turn and line.key != "round":
        if not isinstance(last, Band):
            blocks.append(Band())
        blocks[-1].lines.append(line)
        return
    if not isinstance(last, Round) or last.end is not None:
        blocks.append(Round())
    if line.key == "round":
        blocks[-1].end = line
    else:
        place_in_turn(blocks[-1].turns, line)


def place_in_turn(turns, line):
    """A provider's lines stand together, what it sent behind the others."""
    name, sent = line.said["NAME"], line.key == "sent"
    turn = turns.setdefault(name, Turn())
    if name != next(reversed(turns)) or turn.sent and not sent:
        raise Unreadable(line.number, f"stands behind lines that a run writes later: {line.text[:100]!r}")
    if sent:
        turn.sent.append(Sent(line))
    else:
        turn.events.append(line)


def tell_frames(blocks):
    """Notes for each line that says what was sent what became of it, as far as the next round shows it."""
    waiting, blurred = Counter(), set()  # how many frames wait for a provider, and where that can't be told
    before, between = None, Counter()
    for block in blocks:
        if isinstance(block, Band):
            between.update(line.key for line in block.lines)
            continue
        for name in set(waiting) | set(block.turns):
            turn = block.turn(name)
            if between["repeated"] or between["injected"] or turn.ended() in ("journal-full", "fault", "changed"):
                blurred.add(name)
            fate = fate_of(turn, None if name in blurred else waiting[name], between["lost"])
            for one in sent_in(before):
                one.fate = fate if one.line.said["TO"] == name else one.fate
            if not turn.ended():
                waiting[name] = 0
                blurred.discard(name)
            elif between["lost"]:
                blurred.add(name)
        for one in sent_in(block):
            waiting[one.line.said["TO"]] += int(one.line.said["FRAMES"])
        before, between = block, Counter()


def sent_in(block):
    return [one for turn in block.turns.values() for one in turn.sent] if isinstance(block, Round) else []


def fate_of(turn, waiting, lost):
    """What became of so many frames on the links to a provider that has this turn; of how many may not be known."""
    if turn.ended() in ("down", "clock-back"):
        return "unsure" if lost else "wait"
    if not turn.ended() and turn.handled() == 0:
        return "lost"
    return "came" if turn.handled() == waiting else "unsure"


class Pair:
    """What is known of a message at one recipient, or, where that is nobody, of the message."""

    def __init__(self):
        self.cause = self.decided = self.known = self.mark = None
        self.heard = self.charged = self.placed = False


REFUSALS = {"no-mailbox": "nobody has the address", "mailbox-full": "the mailbox is full", "virus": "it has a virus"}
MARKS = {
    "warned": "open; the sender was warned",
    "noticed": "open; the sender had notice",
    "noticed-late": "open; the sender had notice, late",
}
# The marks that items of a mailbox tell.
TOLD = {"warning": "warned", "notice": "noticed", "late-notice": "noticed-late"}


def fates(lines):
    """What became of each message at each recipient that the lines name, in words, each with a mark."""
    messages = {}
    for line in lines:
        identity, recipient = line.said.get("ID", "-"), line.said.get("RECIPIENT", "-")
        if identity != "-":
            pairs = messages.setdefault(identity, {"-": Pair()})
            tell(pairs.setdefault(recipient, Pair()), line)
    for identity, pairs in messages.items():
        message = pairs["-"]
        for recipient, pair in pairs.items():
            if recipient != "-":
                yield f"{identity} to {recipient}", *in_words(pair, message)
        if len(pairs) == 1:
            yield identity, *in_words(message, message)


def tell(pair, line):
    """What a line says of a pair. Later lines may know more, and none knows less."""
    said, words_of, kind = line.said, line.form.words, line.said.get("KIND")
    if line.key == "not-accepted" or kind == "non-acceptance":
        pair.cause = said.get("CAUSE", pair.cause or "")
    elif line.key == "decided":
        pair.decided = said["DECISION"]
    elif "DECISION" in said:
        pair.known = said["DECISION"]
    elif kind in ("delivery", "delivery-error"):
        pair.known = pair.known or ("delivered" if kind == "delivery" else kind)
    pair.mark = line.key if line.key in MARKS else TOLD.get(kind, pair.mark)
    pair.placed |= kind == "envelope"
    pair.heard |= line.key == "acked" or words_of[1:3] in (("repeat", "outcome"), ("repeat", "ack"))
    pair.charged |= line.key in ("took", "charged", "repeat") or said.get("CHARGED", "-") != "-"
    if words_of[0] == "ID":
        pair.mark = next((mark for mark in ("noticed", "warned") if said[mark.upper()] != "-"), pair.mark)


def in_words(pair, message):
    """The shape and the colour of a mark, and words."""
    outcome, knows = pair.known or pair.decided, bool(pair.known or pair.heard)
    if message.cause is not None:
        return "cross", words.RED, "not accepted" + (": " + words.CAUSES[message.cause] if message.cause else "")
    if outcome == "delivered":
        sender = "the sender has the receipt" if knows else "the sender hasn't heard yet"
        return "diamond", words.GREEN if knows else words.BLUE, f"delivered; {sender}"
    if outcome is not None:
        why = ": " + REFUSALS[outcome] if outcome in REFUSALS else ""
        return "cross", words.RED, f"not delivered{why}; the sender {'knows' if knows else 'does not know yet'}"
    if knows:
        return "dot", words.GREEN, "decided before; the sender knows"
    if pair.mark:
        return "triangle", words.ORANGE, MARKS[pair.mark]
    if message.placed and pair is message:
        return "dot", words.BLUE, "delivered to one who has it in the mailbox"
    if pair.charged:
        return "dot", words.BLUE, "open; its provider has taken charge"
    if message.charged:
        return "dot", words.BLUE, "open; a provider has taken charge"
    return "ring", words.GREY, "open; nothing is known yet"
