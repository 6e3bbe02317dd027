"""Lines of scripts: how they are read and played, and random ones."""

import base64
import binascii
import re

import letters
import network
import texts

FORMS = {
    b"submit": "provider moment address path base64",
    b"tick": "provider moment",
    b"round": "moment",
    b"lose": "provider provider number",
    b"repeat": "provider provider number",
    b"swap": "provider provider number",
    b"inject": "provider provider base64",
    b"crash": "provider",
    b"restart": "provider",
    b"book": "address",
    b"mailbox": "address",
    b"show": "address number",
    b"archive": "address moment number",
    b"upgrade": "provider moment",
    b"vault": "address",
    b"vault-show": "address number",
    b"screen": "provider number",
}
# No commands, each with its own fault.
WRONG = (
    b"rounds 1|round|round 1 2|round 01|round +1|round 4102444800|round  1| round 1|tick gamm 1|tick NAME x|crash Name|"
    b"lose NAME NAME 4294967296|book bob|show|SHOW a 1|show ACCOUNT -1|inject NAME NAME ???|inject NAME x YQ==|"
    b"inject NAME NAME YQ=|submit NAME 1|submit NAME 1 ACCOUNT ACCOUNT,, YQ==|submit x 01 a b ?|submit NAME 1 a b ?|"
    b"archive ACCOUNT 1|archive NAME 1 0|archive ACCOUNT 01 0|archive ACCOUNT 1 -1|archive ACCOUNT 4102444800 4294967296|"
    b"archive ACCOUNT 1 4294967296|upgrade ACCOUNT 1|upgrade NAME|upgrade NAME 4102444800|vault|vault NAME|Vault ACCOUNT|"
    b"vault-show ACCOUNT|vault-show ACCOUNT 01|vault_show ACCOUNT 0|screen NAME|screen x 0|screen NAME 4294967296"
).split(b"|")
GREATEST = {"moment": 4_102_444_799, "number": 4_294_967_295}


class LineFault(Exception):
    """The fault of a line that is no command."""


def argument(sort, word, place, directory):
    if sort == "provider":
        number = directory.named(word)
        if number is None:
            raise LineFault(f"unknown-provider {place}")
        return number
    if sort in GREATEST:
        if not re.fullmatch(rb"0|[1-9][0-9]*", word) or int(word) > GREATEST[sort]:
            raise LineFault(f"bad-number {place}")
        return int(word)
    if sort == "base64":
        try:
            return base64.b64decode(word, validate=True)
        except binascii.Error:
            raise LineFault(f"bad-base64 {place}") from None
    found = [texts.address(one) for one in (word.split(b",") if sort == "path" else [word])]
    if None in found or len(found) > 1000:
        raise LineFault(f"bad-address {place}")
    return found if sort == "path" else found[0]


def play(state, line):
    """The lines that a line of a script writes."""
    if not line or line.startswith(b"#"):
        return []
    word, *words = line.split(b" ")
    if word not in FORMS:
        raise LineFault("unknown-word")
    sorts = FORMS[word].split()
    if len(words) != len(sorts):
        raise LineFault("arity")
    given = [argument(sort, one, place, state.directory) for place, (sort, one) in enumerate(zip(sorts, words), 1)]
    try:
        return getattr(state, word.decode().replace("-", "_"))(*given)
    except network.Refused as why:
        return [str(why)]


def encoded(text):
    return base64.b64encode(text)


class Author:
    """Writes random lines that suit the state of a network, and plays them on it."""

    def __init__(self, chance, state, forging):
        self.chance, self.state, self.forging = chance, state, forging
        self.directory = state.directory
        self.now = chance.choice([0, 1_704_186_000, 1_711_846_000, 1_729_980_000, 1_704_186_000])
        accounts = [one.address for house in self.directory.houses for one in house.accounts]
        domains = [one for house in self.directory.houses for one in house.domains]
        self.accounts = accounts
        nobodies = [b"nobody@" + chance.choice(domains), self.directory.houses[0].receipts]
        self.reachable = accounts * 4 + nobodies + [b"x@posta.example", b"y@altrove.example"]

    def one_of(self, *choices):
        """One of the choices, each of which is a weight and a value."""
        return self.chance.choices([value for _, value in choices], [weight for weight, _ in choices])[0]

    def maybe(self, share):
        return self.chance.random() < share

    # Moments.

    def moment(self):
        """Mostly a little later; at times beside a limit of a pair, or before what was."""
        row = self.chance.choice([row for row in self.state.rows.values() if row.accepted is not None] or [None])
        if row is not None and self.maybe(0.3):
            limit = self.chance.choice([43_200, 79_200, 86_400]) + self.chance.choice([-1, 0, 0, 1])
            if row.accepted + limit >= self.now:
                self.now = row.accepted + limit
                return self.now
        if self.maybe(0.05):
            return max(0, self.now - self.chance.randint(1, 50_000))
        if self.maybe(0.05):
            # one provider's clock may be ahead for a while
            return self.now + self.chance.randint(1, 20)
        self.now += self.one_of((3, 0), (6, 1), (3, 7), (1, 20_000))
        return self.now

    # Messages.

    def spelled(self, address):
        """An address as a list may have it."""
        if self.maybe(0.1):
            address = address.upper()
        return self.one_of(
            (6, address), (1, b" " + address + b"\t"), (1, b"Un Nome <" + address + b">"), (1, b"<" + address + b">"),
            (1, b'"Rossi, \\"M\\"" <' + address + b"> "), (1, b"Perch\xc3\xa9 < " + address + b" >"),
        )

    def listed(self, name, addresses):
        """One or two fields of that name."""
        spelled = [self.spelled(one) for one in addresses] + [b" "] * self.maybe(0.05)
        if len(spelled) > 1 and self.maybe(0.2):
            return [name + b": " + spelled[0], name.upper() + b":" + b",".join(spelled[1:])]
        return [name + b": " + self.one_of((4, b","), (1, b",\r\n "), (1, b", ")).join(spelled)]

    def wrong_head(self, fields, sender):
        """The fields with something amiss, for which the message may be refused."""
        other = self.chance.choice(self.accounts)
        amiss = [
            ["senza due punti"], ["X Y: z"], ["X: \x01"], ["X: " + "y" * 997], ["Bcc: " + other.decode()], ["Bcc: ,"],
            ["From: " + other.decode()], ["To: a@b (x)"], ["Cc: "], ["Cc: a@-b"], ["To: <a@b> c"], ["To: \"a@b.c"],
        ]
        pick = self.chance.randrange(len(amiss) + 5)
        if pick < len(amiss):
            return fields + [one.encode() for one in amiss[pick]]
        kept = {0: b"from", 1: b"to", 2: b"x"}.get(pick - len(amiss))
        if kept:
            fields = [one for one in fields if not one.lower().startswith(kept + b":")]
            return fields if kept != b"x" else [b" X: y"] + fields
        instead = other if pick % 2 else sender + b"," + other
        return [b"From: " + instead] + [one for one in fields if not one.lower().startswith(b"from:")]

    def further_fields(self):
        subjects = [b"Ciao", b"", b"a & <b>\t\"c\"", b"Perch\xc3\xa9", b"z" * 920, b" \r\n x"]
        chosen = [
            (0.7, b"Subject: " + self.chance.choice(subjects)),
            (0.3, b"Message-ID: <%d@cliente.example>" % self.chance.randrange(1000)),
            (0.2, b"Reply-To: " + self.chance.choice([b"ufficio@posta.example", b" ", b"w" * 901, b"U <u@x.y>"])),
            (0.3, b"X-TipoRicevuta: " + self.chance.choice([b"breve", b"Sintetica", b"COMPLETA", b"altra"])),
            (0.1, b"Bcc: "), (0.1, b"bcc:\t"),
        ]
        return [field for share, field in chosen if self.maybe(share)]

    def multipart(self):
        """A field and a body of some parts, not always rightly put together."""
        mark = self.chance.choice([b"XYZ", b"a b", b"=_pec_0"])
        kinds = [
            b"Content-Type: text/plain\r\n\r\nBuongiorno",
            b'Content-Type: text/plain; name="nota.txt"\r\n'
            b'Content-Disposition: attachment; filename="n\\o ta.txt"\r\n\r\nabc',
            b"Content-Disposition: ATTACHMENT\r\nContent-Type: a/b; name=b.c\r\n\r\n"
            + bytes([self.chance.randrange(256)]) * 40,
            b"\r\nniente",
            b"senza testa",
            b"Content-Disposition: attachment; filename=\r\n\r\n",
        ]
        chosen = self.chance.choices(kinds, [4, 4, 4, 2, 1, 2], k=self.chance.randint(1, 3))
        body = b"prima\r\n" + b"".join(b"--" + mark + b" \r\n" + one + b"\r\n" for one in chosen)
        body += self.one_of((6, b"--" + mark + b"--\r\ndopo\r\n"), (2, b"--" + mark + b"--"), (1, b""))
        return b'Content-Type: multipart/mixed; x=y; boundary="' + mark + b'"', body

    def message(self, sender, to, copies):
        fields = [b"From: " + self.spelled(sender)] + self.listed(b"To", to)
        fields += self.listed(b"Cc", copies) if copies else []
        fields += self.further_fields()
        body = self.chance.choice([b"Salve\r\n", b"", b"--=_pec_0\r\n--=_pec_1x", b"\xff\x00 senza fine", b"x\n" * 50])
        if self.maybe(0.25):
            field, body = self.multipart()
            fields.append(field)
        if self.maybe(0.08):
            body += b"y" * self.chance.randint(1, 2000)
        if self.maybe(0.2):
            body += self.one_of(
                (6, b"PEC-VIRUS-DI-PROVA\r\n"), (2, b"PEC-VIRUS-DI-PROVA-2"), (1, b"PEC-VIRUS-DI-PROV"),
                (1, b"PEC-VIRUS-DI-\r\nPROVA"),
            )
        if self.maybe(0.12):
            fields = self.wrong_head(fields, sender)
        if self.maybe(0.3):
            self.chance.shuffle(fields)
        end = b"\n" if self.maybe(0.2) else b"\r\n"
        return end.join(fields) + end + (b"" if self.maybe(0.02) else end) + body

    # Commands.

    def submit(self):
        sender = self.chance.choice(self.accounts)
        count = self.one_of((5, 1), (3, 2), (2, 3), (1, 5))
        chosen = texts.without_repeats(self.chance.choices(self.reachable, k=count))
        parted = self.chance.randint(1, len(chosen))
        to, copies = chosen[:parted], chosen[parted:]
        message = self.message(sender, to, copies + to[: self.maybe(0.1)])
        path = to + copies + to[: self.maybe(0.1)]
        self.chance.shuffle(path)
        if self.maybe(0.05):
            path = path[1:] or [b"z@posta.example"]
        if self.maybe(0.05):
            path.append(self.chance.choice(self.reachable))
        provider = self.directory.home(sender)
        if self.maybe(0.03):
            provider, sender = self.chance.choice([(provider, b"zoe@" + texts.domain(sender)), (0, sender)])
        words = [self.name(provider), b"%d" % self.moment(), sender, b",".join(path), encoded(message)]
        return b"submit " + b" ".join(words)

    def name(self, provider):
        return self.directory.houses[provider].name

    def provider(self):
        return self.name(self.chance.choice(self.state.numbers))

    def tick(self):
        return b"tick %s %d" % (self.provider(), self.moment())

    def round(self):
        return b"round %d" % self.moment()

    def busy_link(self):
        busy = [between for between, link in self.state.links.items() if link]
        return self.chance.choice(busy) if busy and self.maybe(0.9) else self.any_link()

    def any_link(self):
        return tuple(self.chance.choices(self.state.numbers, k=2))

    def on_a_link(self):
        between = self.busy_link()
        place = self.chance.randint(0, max(0, len(self.state.links[between]) - self.chance.choice([0, 1, 1, 1])))
        word = self.chance.choice([b"lose", b"repeat", b"swap"])
        return b"%s %s %s %d" % (word, self.name(between[0]), self.name(between[1]), place)

    def paths(self, said):
        """The right path of a letter first, and others."""
        houses, sort, identity = self.directory.houses, said[0], said[1]
        right = []
        if sort == "envelope":
            peer = self.chance.choice(self.state.numbers)
            right = [self.directory.at(said[3].recipients, peer)]
        elif sort == "outcome" and identity in self.state.accepted:
            right = [self.state.outcome_path(identity, said[4])]
        else:
            peer = identity[0] if sort == "charge" else self.directory.home(said[3])
            right = [[houses[peer].receipts]]
        others = self.chance.choices(self.reachable, k=self.chance.randint(1, 3))
        right = [path for path in right if path]
        return right * 4 + [others, others + others[:1]] + [path[::-1] + others[:1] for path in right]

    def forged(self):
        """A letter that is sealed rightly and says what isn't so."""
        state, numbers = self.state, self.state.numbers
        if not state.accepted:
            return None
        identity = self.chance.choice(list(state.accepted))
        at, facts, original = state.accepted[identity]
        recipient = self.chance.choice(self.directory.certified(facts.recipients) or [None])
        sort = self.chance.choice(["envelope", "charge", "outcome", "ack"])
        by = self.chance.choice(numbers)
        if recipient is not None and self.maybe(0.7):
            by = identity[0] if sort == "ack" else self.directory.home(recipient)
        if sort == "envelope":
            other = (identity[0], identity[1] + self.chance.choice([0, 0, 1, 5]))
            return state.envelope_text(other, at + 1, facts, original)
        if sort == "charge":
            return state.charge(identity, by, at + 5, facts)
        if recipient is None:
            return None
        if sort == "ack":
            return state.ack(identity, by, recipient, at + 9, facts)
        decision = self.chance.choice(["delivered", "no-mailbox", "mailbox-full", "virus"])
        return state.outcome(identity, by, recipient, decision, at + 3, facts, original)

    def told_of_a_virus(self):
        """What tells a sender of a virus, sealed by some provider, under a path of an outcome: it is no letter."""
        identity, by = self.chance.choice(list(self.state.accepted)), self.chance.choice(self.state.numbers)
        at, facts, _ = self.state.accepted[identity]
        recipient = self.chance.choice(self.directory.certified(facts.recipients) or [None])
        if recipient is None:
            return b""
        text = self.state.error_of_virus(identity, by, recipient, at + 3, facts)
        return letters.frame(self.state.outcome_path(identity, self.chance.choice(["virus", "delivered"])), text)

    def letter_frame(self):
        """A letter of this network, or what was a letter, under some path."""
        if self.forging and self.state.accepted and self.maybe(0.1):
            return self.told_of_a_virus()
        text = self.forged() if self.forging and self.maybe(0.5) else None
        licensed = [text for text, said in self.state.view.items() if self.forging or said]
        text = text or (self.chance.choice(licensed) if licensed else None)
        if text is None:
            return b"Per: " + self.chance.choice(self.accounts) + b"\r\n"
        path = self.chance.choice(self.paths(self.state.view[text]))
        if self.maybe(0.1):
            path = [one.upper() for one in path]
        if self.maybe(0.25):
            at = self.chance.randrange(len(text))
            text = text[:at] + bytes([text[at] ^ (1 << self.chance.randrange(8))]) + text[at + 1 :]
        elif self.maybe(0.1):
            text = text[: self.chance.randrange(len(text))]
        return letters.frame(path, text)

    def plain_frame(self):
        """No letter, and at times no frame."""
        path = self.chance.choices(self.reachable, k=self.chance.randint(1, 4))
        found = [b"From: x@y.example\r\n\r\nciao", b"", b"\xff", b"Subject: a\tb\xe8\n\n", b"--=_pec_0\r\n"]
        text = self.chance.choice(found)
        items = [one.text for address in self.state.items for one in self.state.all_items(address)]
        if items and self.maybe(0.4):
            # receipts and anomalies are no letters, and what an envelope or an outcome is its frame says
            text = self.chance.choice(items)
        whole = letters.frame(path, text)
        begin = b"Per: " + path[0]
        wrong = [
            whole[4:], begin, b"Per: \r\nx", b"Per: a@b, c@d\r\n", begin + b",a@-b\r\nx", b"", begin.lower() + b"\r\nx",
            whole.replace(b"\r", b""),
        ]
        return self.chance.choice(wrong) if self.maybe(0.4) else whole

    def inject(self):
        frame = self.letter_frame() if self.maybe(0.6) else self.plain_frame()
        between = self.busy_link() if self.maybe(0.3) else self.any_link()
        return b"inject %s %s %s" % (self.name(between[0]), self.name(between[1]), encoded(frame))

    def crash(self):
        return b"crash " + self.provider()

    def archive(self):
        full = [one for one in self.accounts if self.state.items[one]]
        address = self.chance.choice(full if full and self.maybe(0.9) else self.accounts + [b"a@b.c"])
        count = len(self.state.items.get(address, []))
        place = self.chance.randint(0, max(0, count - self.chance.choice([0, 1, 1, 1, 1])))
        return b"archive %s %d %d" % (address, self.moment(), place)

    def upgrade(self):
        old = [provider for provider in self.state.numbers if self.state.versions[provider] == 1]
        provider = self.name(self.chance.choice(old)) if old and self.maybe(0.7) else self.provider()
        return b"upgrade %s %d" % (provider, self.moment())

    def screen(self):
        return b"screen %s %d" % (self.provider(), self.one_of((8, 0), (1, 1), (1, 4_294_967_295)))

    def restart(self):
        down = [provider for provider in self.state.numbers if self.state.down[provider]]
        return b"restart " + (self.name(self.chance.choice(down)) if down and self.maybe(0.9) else self.provider())

    def look(self):
        address = self.chance.choice(self.accounts + [b"zoe@" + texts.domain(self.accounts[0]), b"a@b.c"])
        place = self.chance.randint(0, len(self.state.items.get(address, [])))
        laid = self.chance.randint(0, len(self.state.vaults.get(address, [])))
        return self.chance.choice([
            b"book " + address, b"mailbox " + address, b"show %s %d" % (address, place),
            b"vault " + address, b"vault-show %s %d" % (address, laid),
        ])

    def wrong_line(self):
        """No command: the run ends there."""
        name, account = self.provider(), self.accounts[0]
        return self.chance.choice(WRONG).replace(b"NAME", name).replace(b"ACCOUNT", account)

    def line(self):
        if any(self.state.down) and self.maybe(0.15):
            return self.restart()
        make = self.one_of(
            (20, self.submit), (32, self.round), (9, self.tick), (14, self.on_a_link), (10, self.inject),
            (2, self.crash), (1, self.restart), (13, self.look), (1, lambda: self.chance.choice([b"", b"# nota"])),
            (9, self.archive), (1, self.upgrade), (3, self.screen),
        )
        return make()

    def full_link(self):
        """So many frames that a link is full."""
        between = self.any_link()
        names = self.name(between[0]), self.name(between[1])
        line = b"inject %s %s %s" % (*names, encoded(b"Per: " + self.chance.choice(self.reachable) + b"\r\nx"))
        return [line] * (network.LINK - len(self.state.links[between]) + 2) + [b"repeat %s %s 3" % names]


def looks(state):
    """Lines that show all that accounts can see."""
    lines = []
    for address, items in state.items.items():
        lines += [b"book " + address, b"mailbox " + address, b"vault " + address]
        lines += [b"show %s %d" % (address, place) for place in range(len(items))]
        lines += [b"vault-show %s %d" % (address, place) for place in range(len(state.vaults[address]))]
    return lines
