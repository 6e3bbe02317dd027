"""One map for a whole network, and what each command of a script does to it and writes."""

import struct

import letters
import texts

OUTCOMES = {"delivered": 0, "no-mailbox": 1, "mailbox-full": 2, "virus": 3}
LINK = 64
SCREEN, SPARE = b"PEC-VIRUS-DI-PROVA", b"PEC-VIRUS-DI-PROVA-2"
SPARES = 4
MARKS = {"warning": "warned", "notice": "noticed", "late-notice": "noticed-late"}


class Refused(Exception):
    """The line of a refused command, or the end of a turn."""


class Row:
    """One pair, at the sender's provider and at the recipient's."""

    def __init__(self):
        self.accepted = self.charged = self.warned = self.noticed = self.known = None
        self.taken = self.decided = self.acked = None


class Item:
    """One item of a mailbox, as it is listed and as it is shown."""

    def __init__(self, kind, identity, recipient, text):
        self.kind, self.identity, self.recipient, self.text = kind, identity, recipient, text


def moment(at):
    return struct.pack(">Q", at)


def short(text):
    return struct.pack(">H", len(text)) + text


def long(text):
    return struct.pack(">I", len(text)) + text


def identity_bytes(identity):
    return struct.pack(">IQ", *identity)


def list_bytes(addresses):
    return struct.pack(">I", len(addresses)) + b"".join(short(one) for one in addresses)


class Network:
    """A network whose journals begin in these versions, 1 or 2, one for each provider."""

    def __init__(self, directory, versions):
        self.directory = directory
        count = len(directory.houses)
        self.numbers = range(count)
        digest = directory.digest()
        self.versions = list(versions)
        firsts = {1: b"\0", 2: b"\x0a"}
        self.journals = [[firsts[versions[p]] + struct.pack(">I", p) + digest] for p in self.numbers]
        self.last = [0] * count
        self.down = [False] * count
        self.links = {(p, q): [] for p in self.numbers for q in self.numbers}
        self.rows = {}
        self.accepted = {}
        self.messages = [0] * count
        self.taken = {}
        self.decided = [[] for _ in self.numbers]
        self.items = {one.address: [] for house in directory.houses for one in house.accounts}
        self.vaults = {address: [] for address in self.items}
        self.take_screens()
        self.view = {}
        # writes and reads of each journal are counted, and these fail, by provider and number; so many did
        self.writes, self.failing, self.faults = [0] * count, (), 0
        self.reads, self.unread, self.misses = [0] * count, (), 0

    def take_screens(self):
        """Each provider has one screen of one pattern, and spares are handed in with them."""
        self.screens = [[[SCREEN]] for _ in self.numbers]
        self.spares = [[SPARE] for _ in range(SPARES)]

    # What is read of the map.

    def row(self, identity, recipient):
        return self.rows.setdefault((identity, recipient), Row())

    def pairs(self, provider):
        """The pairs of the provider's messages, in order of number and recipients."""
        for identity in sorted(one for one in self.accepted if one[0] == provider):
            for recipient in self.directory.certified(self.accepted[identity][1].recipients):
                yield identity, recipient, self.row(identity, recipient)

    def has_room(self, address):
        account = self.directory.account(address)
        counted = sum(one.kind in ("envelope", "anomaly") for one in self.items[address])
        return counted < account.quota

    def finds(self, provider, message):
        return any(one in message for patterns in self.screens[provider] for one in patterns)

    def all_items(self, address):
        """What stands in the mailbox or in the archive of an account."""
        return self.items[address] + self.vaults[address]

    def name(self, provider):
        return self.directory.houses[provider].name.decode()

    def text(self, identity):
        return self.directory.text(identity).decode()

    # What the texts of letters are, each kept with what it says.

    def known_text(self, text, *said):
        self.view[text] = said
        return text

    def envelope(self, identity):
        at, facts, original = self.accepted[identity]
        return self.envelope_text(identity, at, facts, original)

    def envelope_text(self, identity, at, facts, original):
        said = letters.Said("envelope", identity, identity[0], at, facts)
        text = letters.certified(self.directory, said, original)
        return self.known_text(text, "envelope", identity, identity[0], facts, original)

    def charge(self, identity, by, at, facts):
        text = letters.certified(self.directory, letters.Said("charge", identity, by, at, facts), None)
        return self.known_text(text, "charge", identity, by)

    def outcome(self, identity, by, recipient, decision, at, facts, original):
        kind = {"delivered": "delivery", "virus": "virus-found"}.get(decision, "delivery-error")
        detail = None if decision == "delivered" else decision.encode()
        said = letters.Said(kind, identity, by, at, facts, recipient, detail)
        text = letters.certified(self.directory, said, original)
        return self.known_text(text, "outcome", identity, by, recipient, decision, at)

    def error_of_virus(self, identity, by, recipient, at, facts):
        """What tells a sender that a virus was found; it is no letter."""
        said = letters.Said("delivery-error", identity, by, at, facts, recipient, b"virus")
        return letters.certified(self.directory, said, None)

    def outcome_path(self, identity, decision):
        """Along which an outcome is sent: a virus is told to the message's provider."""
        if decision == "virus":
            return [self.directory.houses[identity[0]].receipts]
        return [self.accepted[identity][1].sender]

    def ack(self, identity, by, recipient, at, facts):
        text = letters.acknowledgement(self.directory, letters.Said("ack", identity, by, at, facts, recipient))
        return self.known_text(text, "ack", identity, by, recipient)

    # The entries of a provider.

    def append(self, provider, tag, at, fields):
        """Two writes; where one fails the provider is down, and nothing else changes."""
        for _ in range(2):
            self.writes[provider] += 1
            if (provider, self.writes[provider]) in self.failing:
                self.faults += 1
                self.down[provider] = True
                raise Refused("fault disk")
        self.journals[provider].append(bytes([tag]) + moment(at) + fields)
        self.last[provider] = at

    def read(self, provider):
        """An entry of the journal is read. Where that fails the provider is down, and nothing else changes."""
        self.reads[provider] += 1
        if (provider, self.reads[provider]) in self.unread:
            self.misses += 1
            self.down[provider] = True
            raise Refused("fault disk")

    def opening(self, provider):
        """How many reads open a journal: its header, each gate and each entry."""
        return 2 + 2 * len(self.journals[provider])

    def place(self, address, kind, identity=None, recipient=None, text=None):
        self.items[address].append(Item(kind, identity, recipient, text))

    def receipt(self, kind, identity, at, facts, recipient=None, detail=None):
        """A receipt or notice that the message's provider gives to its sender."""
        said = letters.Said(kind, identity, identity[0], at, facts, recipient, detail)
        text = letters.certified(self.directory, said, None)
        self.place(facts.sender, kind, identity, recipient, text)

    def may(self, provider, at):
        if self.down[provider]:
            raise Refused("down")
        if at < self.last[provider]:
            raise Refused(f"clock-back {self.last[provider]}")

    # The commands. Each gives its lines.

    def submit(self, provider, at, sender, path, message):
        account = self.directory.account(sender)
        if account is None or self.directory.home(sender) != provider:
            raise Refused("no-account")
        self.may(provider, at)
        identity = (provider, self.messages[provider])
        limit, found = self.directory.houses[provider].limit, self.finds(provider, message)
        cause = texts.refused(message, sender, path, limit, found)
        if cause is None:
            facts = texts.facts(texts.head(message)[0])
            self.append(provider, 1, at, short(sender) + long(message))
            self.accepted[identity] = at, facts, message
            self.messages[provider] += 1
            for recipient in self.directory.certified(facts.recipients):
                self.row(identity, recipient).accepted = at
            self.receipt("acceptance", identity, at, facts)
            return [f"accepted {self.text(identity)}"]
        number = bytes([texts.CAUSES.index(cause) + 1])
        self.append(provider, 2, at, short(sender) + number + list_bytes(path) + long(message))
        self.messages[provider] += 1
        fields = (texts.head(message) or ([], 0))[0]
        shown = [texts.shown(texts.first(fields, name)) for name in (b"Subject", b"Message-ID")]
        facts = texts.Facts(sender, texts.without_repeats(path), [], texts.wish(fields), *shown, sender)
        self.receipt("non-acceptance", identity, at, facts, None, cause.encode())
        return [f"not-accepted {self.text(identity)} {cause}"]

    def tick(self, provider, at):
        self.may(provider, at)
        self.append(provider, 8, at, b"")
        lines = []
        for identity, recipient, row in list(self.pairs(provider)):
            past = at - row.accepted
            if row.known:
                continue
            if past >= 79_200 and row.noticed is None:
                row.noticed, kind = at, "late-notice" if past > 86_400 else "notice"
            elif past >= 43_200 and row.charged is None and row.warned is None and row.noticed is None:
                row.warned, kind = at, "warning"
            else:
                continue
            detail = letters.DETAILS[kind]
            self.receipt(kind, identity, at, self.accepted[identity][1], recipient, detail)
            lines.append(f"{MARKS[kind]} {self.text(identity)} {recipient.decode()}")
        return lines + ["ticked"]

    def lose(self, source, to, place):
        self.frame_at(source, to, place)
        del self.links[source, to][place]
        return ["lost"]

    def repeat(self, source, to, place):
        one = self.frame_at(source, to, place)
        return self.put(source, to, one, "repeated")

    def swap(self, source, to, place):
        later = self.frame_at(source, to, place + 1)
        link = self.links[source, to]
        link[place], link[place + 1] = later, link[place]
        return ["swapped"]

    def inject(self, source, to, frame):
        return self.put(source, to, frame, "injected")

    def put(self, source, to, frame, done):
        if len(self.links[source, to]) >= LINK:
            raise Refused("link-full")
        self.links[source, to].append(frame)
        return [done]

    def frame_at(self, source, to, place):
        if place >= len(self.links[source, to]):
            raise Refused("no-frame")
        return self.links[source, to][place]

    def crash(self, provider):
        self.down[provider] = True
        return ["crashed"]

    def restart(self, provider):
        if not self.down[provider]:
            raise Refused("up")
        for _ in range(self.opening(provider)):
            self.read(provider)
        self.down[provider] = False
        return [f"restarted {len(self.journals[provider])}"]

    def resume(self):
        """The whole program stops and starts again on its journals."""
        self.down = [False] * len(self.numbers)
        self.take_screens()
        for link in self.links.values():
            link.clear()

    def own_provider(self, address):
        if self.directory.account(address) is None:
            raise Refused("no-account")
        provider = self.directory.home(address)
        if self.down[provider]:
            raise Refused("down")
        return provider

    def book(self, address):
        provider, lines = self.own_provider(address), []
        for identity, recipient, row in self.pairs(provider):
            _, facts, _ = self.accepted[identity]
            if facts.sender != address:
                continue
            marks = ["-" if one is None else str(one) for one in (row.charged, row.warned, row.noticed)]
            end = f"{row.known[0]} {row.known[1]}" if row.known else "open"
            part = "primary" if recipient in facts.to else "copy"
            words = [self.text(identity), recipient.decode(), part, str(row.accepted)] + marks + [end]
            lines.append(" ".join(words))
        return lines + [f"book {len(lines)}"]

    def mailbox(self, address):
        return self.listed(address, self.items, "mailbox")

    def vault(self, address):
        return self.listed(address, self.vaults, "vault")

    def listed(self, address, boxes, word):
        self.own_provider(address)
        lines = []
        for number, one in enumerate(boxes[address]):
            identity = "-" if one.identity is None else self.text(one.identity)
            recipient = "-" if one.recipient is None else one.recipient.decode()
            lines.append(f"{number} {one.kind} {identity} {recipient}")
        return lines + [f"{word} {len(lines)}"]

    def show(self, address, place):
        return self.shown(address, self.items, place)

    def vault_show(self, address, place):
        return self.shown(address, self.vaults, place)

    def shown(self, address, boxes, place):
        self.own_provider(address)
        if place >= len(boxes[address]):
            raise Refused("no-item")
        self.read(self.directory.home(address))
        return [letters.base64.b64encode(boxes[address][place].text).decode()]

    # Archives.

    def archive(self, address, at, place):
        account = self.directory.account(address)
        if account is None:
            raise Refused("no-account")
        provider = self.directory.home(address)
        self.may(provider, at)
        if place >= len(self.items[address]):
            raise Refused("no-item")
        if self.versions[provider] == 1:
            raise Refused("old-journal")
        self.append(provider, 12, at, short(address) + struct.pack(">I", place))
        self.vaults[address].append(self.items[address].pop(place))
        return ["archived"]

    def upgrade(self, provider, at):
        self.may(provider, at)
        if self.versions[provider] == 2:
            raise Refused("no-need")
        self.append(provider, 11, at, b"")
        self.versions[provider] = 2
        return ["upgraded"]

    # Screens.

    def screen(self, provider, place):
        if not self.spares:
            raise Refused("no-spare")
        if self.down[provider]:
            raise Refused("down")
        if place >= len(self.screens[provider]):
            raise Refused("no-screen")
        self.screens[provider][place] = self.spares.pop()
        return ["screened"]

    # A round.

    def round(self, at):
        waiting = {between: list(link) for between, link in self.links.items()}
        lines = []
        for provider in self.numbers:
            lines += [f"{self.name(provider)} {line}" for line in self.turn(provider, at, waiting)]
        return lines + ["round"]

    def turn(self, provider, at, waiting):
        try:
            self.may(provider, at)
        except Refused as why:
            return [str(why)]
        lines, owed = [], {peer: [] for peer in self.numbers}
        try:
            for peer in self.numbers:
                for frame in waiting[peer, provider]:
                    del self.links[peer, provider][0]
                    lines.append(self.arrive(provider, at, frame, owed))
            for line in self.decide(provider, at):
                lines.append(line)
            put = {peer: self.composed(provider, peer, owed[peer], waiting) for peer in self.numbers}
        except Refused as why:
            # the frame in hand is gone, later ones stay, and nothing is put
            return lines + [str(why)]
        for peer, frames in put.items():
            self.links[provider, peer] += frames
            if frames:
                lines.append(f"sent {self.name(peer)} {len(frames)}")
        return lines

    def composed(self, provider, peer, answers, waiting):
        """The frames that are put on a link, each of which takes an entry that is read."""
        # frames that this turn took of its own link don't make room in this round
        frames = (answers + self.due(provider, peer))[: LINK - len(waiting[provider, peer])]
        for _ in frames:
            self.read(provider)
        return frames

    def arrive(self, provider, at, frame, owed):
        read = letters.read_frame(frame)
        if read is None:
            return "dropped"
        path, message = read
        said = self.view.get(message)
        if said is not None:
            answer = getattr(self, "arrived_" + said[0])(provider, at, path, message, owed, *said[1:])
            if answer is not None:
                return answer
        return self.stray(provider, at, path, message)

    def arrived_envelope(self, provider, at, path, message, owed, identity, _, facts, original):
        mine = self.directory.at(facts.recipients, provider)
        if not mine or path != mine:
            return None
        answer = f"repeat envelope {self.text(identity)}"
        if (provider, identity) not in self.taken:
            self.append(provider, 3, at, identity_bytes(identity) + long(message))
            self.taken[provider, identity] = at, facts, original, message
            for recipient in mine:
                self.row(identity, recipient).taken = at
            answer = f"took {self.text(identity)}"
        taken = self.taken[provider, identity]
        back = self.charge(identity, provider, taken[0], taken[1])
        owed[identity[0]].append(letters.frame([self.directory.houses[identity[0]].receipts], back))
        return answer

    def arrived_charge(self, provider, at, path, _, __, identity, by):
        if identity[0] != provider or identity not in self.accepted:
            return None
        if path != [self.directory.houses[provider].receipts]:
            return None
        theirs = self.directory.at(self.accepted[identity][1].recipients, by)
        if not theirs:
            return None
        if all(self.row(identity, one).charged is not None for one in theirs):
            return f"repeat charge {self.text(identity)}"
        self.append(provider, 5, at, identity_bytes(identity) + struct.pack(">I", by))
        for one in theirs:
            self.row(identity, one).charged = at
        return f"charged {self.text(identity)} {self.name(by)}"

    def arrived_outcome(self, provider, at, path, message, owed, identity, by, recipient, decision, when):
        if identity[0] != provider or identity not in self.accepted or self.directory.home(recipient) != by:
            return None
        _, facts, _ = self.accepted[identity]
        if recipient not in facts.recipients or path != self.outcome_path(identity, decision):
            return None
        row, pair = self.row(identity, recipient), f"{self.text(identity)} {recipient.decode()}"
        answer = f"repeat outcome {pair}"
        if row.known is None:
            fields = identity_bytes(identity) + short(recipient) + bytes([OUTCOMES[decision]])
            self.append(provider, 6, at, fields + moment(when) + long(message))
            row.known = decision, when, at
            kind = "delivery" if decision == "delivered" else "delivery-error"
            text = message
            if decision == "virus":
                text = self.error_of_virus(identity, provider, recipient, at, facts)
            self.place(facts.sender, kind, identity, recipient, text)
            answer = f"learned {pair} {decision}"
        back = self.ack(identity, provider, recipient, row.known[2], facts)
        owed[by].append(letters.frame([self.directory.houses[by].receipts], back))
        return answer

    def arrived_ack(self, provider, at, path, _, __, identity, by, recipient):
        row = self.row(identity, recipient)
        if by != identity[0] or self.directory.home(recipient) != provider or row.decided is None:
            return None
        if path != [self.directory.houses[provider].receipts]:
            return None
        pair = f"{self.text(identity)} {recipient.decode()}"
        if row.acked is not None:
            return f"repeat ack {pair}"
        self.append(provider, 7, at, identity_bytes(identity) + short(recipient))
        row.acked = at
        return f"acked {pair}"

    def stray(self, provider, at, path, message):
        """What is no letter for this provider."""
        mine = [one for one in self.directory.at(texts.without_repeats(path), provider) if self.directory.account(one)]
        mine = [one for one in mine if self.has_room(one)]
        if not mine:
            return "dropped"
        text = letters.anomaly(self.directory, provider, len(self.journals[provider]), at, message)
        self.append(provider, 9, at, list_bytes(mine) + long(message))
        for one in mine:
            self.place(one, "anomaly", None, None, text)
        return f"anomaly {len(mine)}"

    def decide(self, provider, at):
        for (by, identity), (_, facts, original, message) in list(self.taken.items()):
            if by != provider:
                continue
            for recipient in self.directory.at(facts.recipients, provider):
                row = self.row(identity, recipient)
                if row.decided is not None:
                    continue
                decision = self.decision(provider, recipient, original)
                fields = identity_bytes(identity) + short(recipient) + bytes([OUTCOMES[decision]])
                self.append(provider, 4, at, fields)
                row.decided = decision, at
                self.decided[provider].append((identity, recipient))
                if decision == "delivered":
                    self.place(recipient, "envelope", identity, None, message)
                yield f"decided {self.text(identity)} {recipient.decode()} {decision}"

    def decision(self, provider, recipient, original):
        """What is decided of a pair. Screens look where the recipient is an account, for which its entry is read."""
        if self.directory.account(recipient) is None:
            return "no-mailbox"
        self.read(provider)
        if self.finds(provider, original):
            return "virus"
        return "delivered" if self.has_room(recipient) else "mailbox-full"

    def due(self, provider, peer):
        """The outcomes and envelopes that are due to the peer."""
        frames = []
        for identity, recipient in self.decided[provider]:
            row = self.row(identity, recipient)
            if identity[0] == peer and row.acked is None:
                _, facts, original, _ = self.taken[provider, identity]
                text = self.outcome(identity, provider, recipient, *row.decided, facts, original)
                path = [self.directory.houses[peer].receipts] if row.decided[0] == "virus" else [facts.sender]
                frames.append(letters.frame(path, text))
        for identity in sorted(one for one in self.accepted if one[0] == provider):
            theirs = self.directory.at(self.accepted[identity][1].recipients, peer)
            rows = [self.row(identity, one) for one in theirs]
            if rows and all(row.charged is None and row.known is None for row in rows):
                frames.append(letters.frame(theirs, self.envelope(identity)))
        return frames
