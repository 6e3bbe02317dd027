"""Letters: items of mailboxes as files, and what a certification text says. docs/formats.md, `Letters`."""

import html
import re

SEAL = b"X-Sigillo: "
# An item of a mailbox begins with its seal, and so does its base64.
SHOWN = re.compile(rb"WC1TaWdpbGxvOi[A-Za-z0-9+/]+={0,2}")
KINDS = {
    "envelope": "envelope",
    "anomaly": "anomaly",
    "acceptance": "receipt of acceptance",
    "non-acceptance": "notice of non-acceptance",
    "charge": "receipt of taking charge",
    "delivery": "receipt of delivery",
    "delivery-error": "notice of non-delivery",
    "warning": "warning: nothing heard for 12 hours",
    "notice": "notice: no delivery within the time limit",
    "late-notice": "notice: no delivery within the time limit, late",
    "ack": "acknowledgement between providers",
    "virus-found": "notice of a virus between providers",
}
WORDS = {
    "posta-certificata": "envelope",
    "accettazione": "acceptance",
    "non-accettazione": "non-acceptance",
    "presa-in-carico": "charge",
    "avvenuta-consegna": "delivery",
    "errore-consegna": "delivery-error",
    "preavviso-errore-consegna": "notice",
    "rilevazione-virus": "virus-found",
    "errore": "anomaly",
}
DECISIONS = {
    "delivered": "delivered",
    "no-mailbox": "not delivered: nobody has the address",
    "mailbox-full": "not delivered: the mailbox is full",
    "virus": "not delivered: a virus was found",
}
CAUSES = {
    "head": "its head is wrong",
    "from": "its sender is wrong",
    "to": "its recipients are wrong",
    "reverse-path": "another account handed it in than the one that it names",
    "forward-path": "its path has other recipients than its head",
    "bcc": "it has a blind copy",
    "size": "it is too long",
    "virus": "it has a virus",
}


def fields(letter):
    """The head of a letter as it is composed: the first value of each name in lower case."""
    found = {}
    for line in re.sub(rb"\r?\n[ \t]", b" ", letter.partition(b"\r\n\r\n")[0]).split(b"\r\n"):
        name, colon, value = line.partition(b":")
        if colon:
            found.setdefault(name.decode("latin-1").lower(), value.strip().decode("latin-1"))
    return found


def file_name(letter):
    """A name for the file of a letter: its kind and its own Message-ID, with nothing that a name of a file may not have."""
    said = fields(letter)
    word = said.get("x-ricevuta") or said.get("x-trasporto") or ""
    identity = re.sub(r"[^A-Za-z0-9.@_-]", "_", said.get("message-id", "letter").strip("<>"))[:150]
    return f"{WORDS.get(word, 'letter')}-{identity.lstrip('.-')}.eml"


class Certificate:
    """What a certification text says, each line of which has one form."""

    def __init__(self, text):
        elements = re.findall(r"<([a-z-]+)(?: [^>]*)?>([^<\r\n]*)</\1>", text)
        self.pairs = [(name, html.unescape(value)) for name, value in elements]
        found = re.search(r'<ricevuta tipo="([a-z]+)"/>', text)
        self.wish = found.group(1) if found else None

    def all(self, name):
        return [value for one, value in self.pairs if one == name]

    def one(self, name):
        return (self.all(name) or [None])[0]
