"""The log extract of journals, as docs/formats.md has it: records, and their text."""

import re

import journals
import letters
import texts

HEADER = ["provider", "entry", "moment", "event", "id", "sender", "recipients", "subject", "detail"]
GREATEST = 4_102_444_799
# The entries whose rows tell the facts of an original, as it stands in the envelope that was taken.
OF_ORIGINALS = ("Took", "Decided", "Acked")
# No ranges: the form has other words.
WRONG = ["", "1", "1 2 3", "2 1", "01 2", "1 02", "+1 2", "-1 2", "x 2", "1 4102444800", "4102444800 4102444800", "1  2"]


def named(part, name):
    """Whether a part of a letter is the attachment of this name."""
    value = texts.first(texts.head(part)[0], b"Content-Disposition") or b""
    return texts.parameter(value, b"filename") == name


def original(envelope):
    """The message in an envelope, behind its seal."""
    sealed = envelope.partition(b"\r\n")[2]
    fields, at = texts.head(sealed)
    body = sealed[at:]
    parts = [body[begin:end] for begin, end in texts.parts(fields, body)]
    part = next(one for one in parts if named(one, b"postacert.eml"))
    return part[texts.head(part)[1] :]


def facts(message):
    return texts.facts(texts.head(message)[0])


class Log:
    """One provider's journal, read through once."""

    def __init__(self, directory, provider, entries):
        self.directory, self.provider = directory, provider
        self.house = directory.houses[provider]
        self.entries = [journals.entry(one) for one in entries]
        self.accepted, self.taken, self.known, self.own = {}, {}, {}, {}
        submitted = 0
        for number, (name, said) in enumerate(self.entries):
            if name in ("Accepted", "NotAccepted"):
                self.own[number] = provider, submitted
                submitted += 1
            if name == "Accepted":
                self.accepted[self.own[number]] = said["moment"], facts(said["message"])
            elif name == "Took":
                self.taken[said["id"]] = facts(original(said["message"]))
            elif name == "Learned":
                self.known[said["id"], said["recipient"]] = said["decision"]

    def within(self, begin, end):
        """The numbers of the entries of a range, each with what it says."""
        for number, (name, said) in enumerate(self.entries):
            if "moment" in said and begin <= said["moment"] <= end:
                yield number, name, said

    def message(self, number, name, said):
        """The message that an entry is about, and its facts: those of the original in its envelope where it was taken,
        decided and acknowledged, and else those of the message that was accepted here."""
        identity = self.own.get(number) or said.get("id")
        if name in OF_ORIGINALS:
            return identity, self.taken.get(identity)
        return identity, self.accepted.get(identity, (None, None))[1]

    def rows(self, begin, end):
        for number, name, said in self.within(begin, end):
            told = [one.decode() for one in self.told(number, name, said)]
            yield [self.house.name.decode(), str(number), str(said["moment"])] + told

    def told(self, number, name, said):
        """Event, id, sender, recipients, subject and detail."""
        if name in ("Ticked", "Upgraded"):
            return name.lower().encode(), b"", b"", b"", b"", b""
        if name == "Anomaly":
            item = b"ano.%d@%s" % (number, self.house.domains[0])
            return b"anomaly", b"", b"", b" ".join(said["accounts"]), b"", item
        if name == "Archived":
            return b"archived", b"", b"", said["account"], b"", b"%d" % said["place"]
        identity, read = self.message(number, name, said)
        text = self.directory.text(identity)
        if name == "NotAccepted":
            fields = (texts.head(said["message"]) or ([], 0))[0]
            subject = texts.shown(texts.first(fields, b"Subject")) or b""
            path = b" ".join(texts.without_repeats(said["path"]))
            return b"not-accepted", text, said["sender"], path, subject, said["cause"].encode()
        recipients, detail = self.whom(name, said, read)
        return name.lower().encode(), text, read.sender, b" ".join(recipients), read.subject or b"", detail

    def whom(self, name, said, read):
        """The recipients of a row about a message, and its detail."""
        if name == "Accepted":
            return read.recipients, read.wish
        if name == "Took":
            return self.directory.at(self.taken[said["id"]].recipients, self.provider), b""
        if name == "Charged":
            return self.directory.at(read.recipients, said["by"]), self.directory.houses[said["by"]].name
        return [said["recipient"]], said.get("decision", "").encode()

    def totals(self, begin, end):
        """Of the pairs accepted in the range: those known as delivered, those known as refused, and the rest."""
        found = [0, 0, 0]
        for identity, (moment, read) in self.accepted.items():
            for recipient in self.directory.certified(read.recipients) if begin <= moment <= end else []:
                decision = self.known.get((identity, recipient))
                found[2 if decision is None else decision != "delivered"] += 1
        return found

    def reads(self, begin, end):
        """How many reads of its disk the rows take: one of each entry, whatever its moment, and one of the envelope of
        each message that was taken, decided or acknowledged in the range."""
        about = {said["id"] for _, name, said in self.within(begin, end) if name in OF_ORIGINALS}
        return len(self.entries) + sum(one in self.taken for one in about)


def logs(directory, kept):
    """The logs of the journals, whose entries are given as bytes."""
    return [Log(directory, provider, entries) for provider, entries in enumerate(kept)]


def records(found, begin, end):
    """The header, the rows of these logs, and the totals."""
    rows = [row for log in found for row in log.rows(begin, end)]
    sums = [sum(column) for column in zip(*(log.totals(begin, end) for log in found))]
    totals = ["totals"] + [str(one) for one in [sum(sums)] + sums] + [""] * 4
    return [HEADER] + rows + [totals]


def text(rows):
    """Records as they are written."""
    return "".join(",".join(quoted(field) for field in row) + "\n" for row in rows)


def quoted(field):
    return '"' + field.replace('"', '""') + '"' if re.search('[",\r\n]', field) else field


def random_range(chance, found):
    """Two moments, mostly of entries or beside them, the first not above the second."""
    moments = [said["moment"] for log in found for _, said in log.entries if "moment" in said]
    ends = [0, 0, GREATEST, GREATEST] + [max(0, one + chance.choice([-1, 0, 0, 0, 1])) for one in moments * 3]
    return sorted(chance.choices(ends, k=2))
