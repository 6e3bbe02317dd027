"""The directory and the sealed texts of letters, receipts and notices, as docs/formats.md has them."""

import base64
import datetime
import hashlib
import hmac
from typing import NamedTuple

import texts


class Account(NamedTuple):
    address: bytes
    quota: int
    key: bytes


class House(NamedTuple):
    """One provider of the directory."""

    name: bytes
    receipts: bytes
    domains: list
    key: bytes
    zone: bytes
    limit: int
    accounts: list

    def toml(self):
        named = ", ".join(f'"{one.decode()}"' for one in self.domains)
        text = (
            f'[[provider]]\nname = "{self.name.decode()}"\nmailReceipt = "{self.receipts.decode()}"\n'
            f'managedDomains = [{named}]\nkey = "{self.key.hex()}"\nzone = "{self.zone.decode()}"\n'
        )
        if self.limit != 31_457_280:
            text += f"limit = {self.limit}\n"
        for one in self.accounts:
            text += f'[[provider.account]]\naddress = "{one.address.decode()}"\nquota = {one.quota}\n'
            text += f'key = "{one.key.decode()}"\n'
        return text

    def canonical(self):
        text = b"provider " + self.name + b"\nreceipts " + self.receipts + b"\n"
        text += b"".join(b"domain " + one + b"\n" for one in self.domains)
        text += b"key " + self.key.hex().encode() + b"\nzone " + self.zone + b"\nlimit %d\n" % self.limit
        return text + b"".join(b"account %s %d %s\n" % one for one in self.accounts)


class Directory:
    def __init__(self, houses):
        self.houses = houses

    def toml(self):
        return "".join(one.toml() for one in self.houses)

    def digest(self):
        return hashlib.sha256(b"".join(one.canonical() for one in self.houses)).digest()

    def home(self, address):
        """The number of the provider of the address, or None."""
        for number, one in enumerate(self.houses):
            if texts.domain(address) in one.domains:
                return number
        return None

    def account(self, address):
        home = self.home(address)
        found = [] if home is None else [one for one in self.houses[home].accounts if one.address == address]
        return found[0] if found else None

    def named(self, name):
        found = [number for number, one in enumerate(self.houses) if one.name == name]
        return found[0] if found else None

    def at(self, recipients, provider):
        return [one for one in recipients if self.home(one) == provider]

    def certified(self, recipients):
        return [one for one in recipients if self.home(one) is not None]

    def text(self, message):
        """The text of the id (provider, number)."""
        return b"pec.%07d@%s" % (message[1], self.houses[message[0]].domains[0])


def last_sunday(year, month):
    day = datetime.datetime(year, month, 31, 1)
    return day - datetime.timedelta(days=(day.weekday() + 1) % 7)


# The zones that scripts use, each with its minutes at a moment of UTC.
ZONES = {
    b"UTC0": lambda at: 0,
    b"EST5": lambda at: -300,
    b"IST-5:30": lambda at: 330,
    b"CET-1CEST,M3.5.0,M10.5.0/3": lambda at: 120 if last_sunday(at.year, 3) <= at < last_sunday(at.year, 10) else 60,
}


def stamp(zone, moment):
    """Day, time and offset as they are shown, and the line of a date."""
    at = datetime.datetime(1970, 1, 1) + datetime.timedelta(seconds=moment)
    minutes = ZONES[zone](at)
    at += datetime.timedelta(minutes=minutes)
    offset = "%s%02d%02d" % ("-" if minutes < 0 else "+", abs(minutes) // 60, abs(minutes) % 60)
    date = at.strftime("%a, %d %b %Y %H:%M:%S ") + offset
    return at.strftime("%d/%m/%Y").encode(), at.strftime("%H:%M:%S").encode(), offset.encode(), date.encode()


def sealed(house, text):
    tag = base64.b64encode(hmac.new(house.key, text, hashlib.sha256).digest())
    return b"X-Sigillo: " + house.name + b"; " + tag + b"\r\n" + text


class Kind(NamedTuple):
    tag: bytes
    word: bytes
    prefix: bytes
    error: bytes
    phrase: bytes


LATE = b"AVVISO DI MANCATA CONSEGNA PER SUPERAMENTO TEMPO MASSIMO: "
HEARD = b"%s ore non vi e' notizia di consegna a %%s."
KINDS = {
    "envelope": Kind(b"", b"posta-certificata", b"POSTA CERTIFICATA: ", b"nessuno",
                     b"Messaggio di posta certificata; l'originale e' allegato."),
    "acceptance": Kind(b"acc", b"accettazione", b"ACCETTAZIONE: ", b"nessuno", b"Il messaggio e' stato accettato."),
    "non-acceptance": Kind(b"nac", b"non-accettazione", b"AVVISO DI NON ACCETTAZIONE: ", b"altro",
                           b"Il messaggio non e' stato accettato: %s."),
    "charge": Kind(b"pic", b"presa-in-carico", b"PRESA IN CARICO: ", b"nessuno",
                   b"Il messaggio e' stato preso in carico da %s."),
    "delivery": Kind(b"avc", b"avvenuta-consegna", b"CONSEGNA: ", b"nessuno",
                     b"Il messaggio e' stato consegnato a %s."),
    "delivery-error": Kind(b"err", b"errore-consegna", b"AVVISO DI MANCATA CONSEGNA: ", b"altro",
                           b"Il messaggio non e' stato consegnato a %s: %s."),
    "virus-found": Kind(b"vir", b"rilevazione-virus", b"PROBLEMA DI SICUREZZA: ", b"virus",
                        b"Il messaggio per %s contiene un virus."),
    "warning": Kind(b"pre", b"preavviso-errore-consegna", LATE, b"altro", HEARD % b"Entro 12"),
    "notice": Kind(b"man", b"preavviso-errore-consegna", LATE, b"altro", HEARD % b"Entro 24"),
    "late-notice": Kind(b"man", b"preavviso-errore-consegna", LATE, b"altro", HEARD % b"Oltre 24"),
}
DETAILS = {"warning": b"12 ore", "notice": b"24 ore", "late-notice": b"oltre 24 ore"}


def escaped(text):
    for mark, name in ((b"&", b"&amp;"), (b"<", b"&lt;"), (b">", b"&gt;"), (b'"', b"&quot;")):
        text = text.replace(mark, name)
    return text


def element(name, text):
    return b"<" + name + b">" + escaped(text) + b"</" + name + b">\r\n"


class Said(NamedTuple):
    """What a letter is about: all that its certification text says."""

    kind: str
    identity: tuple
    by: int
    moment: int
    facts: texts.Facts
    recipient: bytes = None
    detail: bytes = None


def certificate(directory, said):
    """The certification text."""
    kind, facts, house = KINDS[said.kind], said.facts, directory.houses[said.by]
    day, time, offset, _ = stamp(house.zone, said.moment)
    error = {b"no-mailbox": b"no-dest", b"virus": b"virus"}.get(said.detail, kind.error)
    text = b'<?xml version="1.0" encoding="UTF-8"?>\r\n'
    text += b'<postacert tipo="' + kind.word + b'" errore="' + error + b'">\r\n'
    text += b"<intestazione>\r\n" + element(b"mittente", facts.sender)
    for one in facts.recipients:
        sort = b"esterno" if directory.home(one) is None else b"certificato"
        text += b'<destinatari tipo="' + sort + b'">' + escaped(one) + b"</destinatari>\r\n"
    text += element(b"risposte", facts.reply) + (element(b"oggetto", facts.subject) if facts.subject else b"")
    text += b"</intestazione>\r\n<dati>\r\n" + element(b"gestore-emittente", house.name)
    text += b'<data zona="' + offset + b'">\r\n' + element(b"giorno", day) + element(b"ora", time) + b"</data>\r\n"
    text += element(b"identificativo", directory.text(said.identity))
    text += element(b"msgid", facts.reference) if facts.reference else b""
    if said.kind in ("envelope", "acceptance", "delivery"):
        text += b'<ricevuta tipo="' + facts.wish + b'"/>\r\n'
    text += element(b"consegna", said.recipient) if said.recipient else b""
    if said.kind == "charge":
        text += b"".join(element(b"ricezione", one) for one in directory.at(facts.recipients, said.by))
    text += element(b"errore-esteso", said.detail) if said.detail else b""
    return text + b"</dati>\r\n</postacert>\r\n"


def joined(parts):
    """The least free boundary and the body."""
    begins = [line for part in parts for line in part.split(b"\n")]
    number = 0
    while any(line.startswith(b"--=_pec_%d" % number) for line in begins):
        number += 1
    mark = b"--=_pec_%d" % number
    return mark[2:], b"".join(mark + b"\r\n" + part + b"\r\n" for part in parts) + mark + b"--\r\n"


def attached(kind, name, text):
    return (
        b"Content-Type: " + kind + b'; name="' + name + b'"\r\n'
        b'Content-Disposition: attachment; filename="' + name + b'"\r\n\r\n' + text
    )


def multipart(house, fields, words, attachments):
    """A sealed message of a text and attachments."""
    first = b"Content-Type: text/plain; charset=us-ascii\r\n\r\n" + b"\r\n".join(words)
    mark, body = joined([first] + attachments)
    fields = fields + [b"MIME-Version: 1.0", b'Content-Type: multipart/mixed; boundary="' + mark + b'"']
    return sealed(house, b"".join(field + b"\r\n" for field in fields) + b"\r\n" + body)


def listed(name, addresses):
    return [name + b": " + b",\r\n ".join(addresses)] if addresses else []


def day_line(house, moment):
    return b"Giorno %s ore %s (%s)" % stamp(house.zone, moment)[:3]


def message_id(directory, said):
    """The value of a receipt's Message-ID: its tag, the message, and which recipient it is about."""
    which = b".%d" % said.facts.recipients.index(said.recipient) if said.recipient else b""
    tag = b"ris" if said.kind == "ack" else KINDS[said.kind].tag
    mark = b"%s.%d.%07d" % (tag, said.identity[0], said.identity[1])
    return b"<" + mark + which + b"@" + directory.houses[said.by].domains[0] + b">"


def envelope_fields(directory, said):
    facts, house, identity = said.facts, directory.houses[said.by], directory.text(said.identity)
    fields = [b"X-Trasporto: posta-certificata", b"X-TipoRicevuta: " + facts.wish, b"Message-ID: <" + identity + b">"]
    if facts.reference:
        fields.append(b"X-Riferimento-Message-ID: " + facts.reference)
    own = b"posta-certificata@" + house.domains[0]
    fields += [b"Date: " + stamp(house.zone, said.moment)[3], b'From: "Per conto di: %s" <%s>' % (facts.sender, own)]
    fields += [b"Reply-To: " + facts.reply] + listed(b"To", facts.to) + listed(b"Cc", facts.copies)
    return fields + [b"Subject: " + KINDS["envelope"].prefix + (facts.subject or b"")]


def has_virus(said):
    return said.kind in ("non-acceptance", "delivery-error") and said.detail == b"virus"


def receipt_fields(directory, said):
    """The head of a receipt, a notice or an acknowledgement."""
    facts, house, identity = said.facts, directory.houses[said.by], directory.text(said.identity)
    if said.kind == "ack":
        fields = [b"X-Riscontro: " + identity + b" " + said.recipient]
    else:
        fields = [b"X-Ricevuta: " + KINDS[said.kind].word]
    if has_virus(said):
        fields.append(b"X-VerificaSicurezza: errore")
    if said.kind == "delivery":
        fields.append(b"X-TipoRicevuta: " + facts.wish)
    fields += [b"Message-ID: " + message_id(directory, said), b"X-Riferimento-Message-ID: <" + identity + b">"]
    to = facts.sender
    if said.kind in ("charge", "virus-found"):
        to = directory.houses[said.identity[0]].receipts
    elif said.kind == "ack":
        to = directory.houses[directory.home(said.recipient)].receipts
    prefix = b"RISCONTRO" if said.kind == "ack" else KINDS[said.kind].prefix
    fields += [b"Date: " + stamp(house.zone, said.moment)[3], b"From: posta-certificata@" + house.domains[0]]
    return fields + [b"To: " + to, b"Subject: " + prefix + (facts.subject or b"")]


def phrase(directory, said):
    words = KINDS[said.kind].phrase
    if said.kind == "non-acceptance":
        return words % said.detail
    if said.kind == "charge":
        return words % directory.houses[said.by].name
    if said.kind == "delivery-error":
        return words % (said.recipient, said.detail)
    return words % said.recipient if said.recipient else words


def certified(directory, said, original):
    """The one sealed text of an envelope, a receipt or a notice."""
    house, facts = directory.houses[said.by], said.facts
    fields = envelope_fields(directory, said) if said.kind == "envelope" else receipt_fields(directory, said)
    words = [day_line(house, said.moment), b"Mittente: " + facts.sender, b"Oggetto: " + (facts.subject or b"")]
    words += [b"Identificativo: " + directory.text(said.identity), phrase(directory, said)]
    inside = None
    if said.kind == "envelope" or said.kind == "delivery" and facts.wish == b"completa" and said.recipient in facts.to:
        inside = original
    elif said.kind == "delivery" and facts.wish == b"breve":
        inside = texts.brief(original)
    attachments = [] if inside is None else [attached(b"message/rfc822", b"postacert.eml", inside)]
    attachments.append(attached(b"application/xml", b"daticert.xml", certificate(directory, said)))
    return multipart(house, fields, words, attachments)


def acknowledgement(directory, said):
    fields = receipt_fields(directory, said)
    text = b"".join(field + b"\r\n" for field in fields) + b"\r\nricevuto\r\n"
    return sealed(directory.houses[said.by], text)


def anomaly(directory, by, entry, moment, message):
    house, read = directory.houses[by], texts.head(message)
    subject = texts.shown(texts.first(read[0], b"Subject")) if read else None
    fields = [b"X-Trasporto: errore", b"Message-ID: <ano.%d@%s>" % (entry, house.domains[0])]
    fields += [b"Date: " + stamp(house.zone, moment)[3], b"From: posta-certificata@" + house.domains[0]]
    fields.append(b"Subject: ANOMALIA MESSAGGIO: " + (subject or b""))
    words = [day_line(house, moment), b"Messaggio non di posta certificata; e' allegato."]
    return multipart(house, fields, words, [attached(b"message/rfc822", b"postacert.eml", message)])


def frame(path, message):
    return b"Per: " + b",".join(path) + b"\r\n" + message


def read_frame(text):
    """The path in lower case and the message, or None."""
    begin, end, message = text.partition(b"\r\n")
    if not begin.startswith(b"Per: ") or not end:
        return None
    path = [texts.address(one) for one in begin[5:].split(b",")]
    return None if None in path or len(path) > 1000 else (path, message)
