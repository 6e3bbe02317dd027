"""Items of a mailbox as they are shown, their parts as files, and messages that are composed."""

import datetime
import email
import email.errors
import email.header
import email.message
import email.policy
import email.utils
import html
import re

from desk import Refused

ADDRESS = re.compile(r"[A-Za-z0-9!#$%&'*+/=?^_`{|}~.-]+@[A-Za-z0-9.-]+")
LINE = re.compile(r'^<([a-z-]+)(?: tipo="([a-z]+)")?>([^<]*)</\1>\r?$', re.MULTILINE)
KIND = re.compile(r'<postacert tipo="([a-z-]+)" errore="([a-z-]+)">')
ZONE = re.compile(r'<data zona="([+-])([0-9]{2})([0-9]{2})">')
CLOCK = re.compile(r"([0-9]{2})/([0-9]{2})/([0-9]{4}) ([0-9]{2}):([0-9]{2}):([0-9]{2})")


def decoded(value):
    """A field of a head as text on one line."""
    value = re.sub(r"[\r\n]+", "", str(value))
    try:
        return str(email.header.make_header(email.header.decode_header(value)))
    except (ValueError, LookupError, email.errors.MessageError):
        return value


class Letter:
    """An item of a mailbox: fields of its head, what its certificate says, and the original with its files."""

    def __init__(self, data):
        self.data, self.fields, self.facts, self.moment = data, {}, [], None
        self.original, self.files, self.text = None, [], ""
        try:
            self.read(email.message_from_bytes(data))
        except Exception as why:  # whatever the library makes of a letter, there is its source
            self.text = f"[it can't be read: {why!r}]"

    def read(self, whole):
        self.fields = {name: decoded(whole.get(name, "")) for name in ("Subject", "From", "Date")}
        date = email.utils.parsedate_to_datetime(whole["Date"]) if whole["Date"] else None
        self.moment = date and date.timestamp()
        certificate = part_of(self.data, "daticert.xml", whole.get_boundary())
        if certificate is not None:
            self.facts, self.moment = facts(certificate.decode("latin-1"), self.moment)
        self.original = part_of(self.data, "postacert.eml", whole.get_boundary())
        if self.original is not None:
            self.text, self.files = shown_of(email.message_from_bytes(self.original))

    def summary(self):
        """Subject, sender, moment and external recipients, as the certificate has them, where there is one."""
        said = dict(self.facts)
        external = [value for name, value in self.facts if name == "esterno"]
        subject = decoded(said.get("oggetto", self.fields.get("Subject", "")))
        return subject, said.get("mittente", self.fields.get("From", "")), self.moment, external


def part_of(data, name, boundary):
    """The bytes of the part with this name, exactly as they stand, or None."""
    if not boundary:
        return None
    for piece in data.split(b"\r\n--" + boundary.encode("latin-1"))[1:]:
        head, end, body = piece.removeprefix(b"\r\n").partition(b"\r\n\r\n")
        if end and f'name="{name}"'.encode() in head:
            return body
    return None


def facts(certificate, moment):
    """Names and values of a certificate, whose lines have one form, and the moment that it shows."""
    found = [("tipo", one[0]) for one in KIND.findall(certificate)[:1]]
    found += [("errore", one[1]) for one in KIND.findall(certificate)[:1] if one[1] != "nessuno"]
    clock = {}
    for name, sort, value in LINE.findall(certificate):
        if name in ("giorno", "ora"):
            clock[name] = value
        else:
            found.append(("esterno" if sort == "esterno" else name, html.unescape(value)))
    zone, shown = ZONE.search(certificate), CLOCK.fullmatch(f"{clock.get('giorno')} {clock.get('ora')}")
    if zone and shown:
        ahead = datetime.timedelta(hours=int(zone[2]), minutes=int(zone[3])) * (-1 if zone[1] == "-" else 1)
        day, month, year, hour, minute, second = map(int, shown.groups())
        when = datetime.datetime(year, month, day, hour, minute, second, tzinfo=datetime.timezone.utc) - ahead
        moment = when.timestamp()
    return found, moment


def shown_of(message):
    """The head of an original and its text, and its files: their names, kinds and bytes."""
    lines = [f"{name}: {decoded(message[name])}" for name in ("From", "To", "Cc", "Date", "Subject") if name in message]
    files = []
    for part in message.walk():
        if part.is_multipart():
            continue
        data, name = part.get_payload(decode=True) or b"", part.get_filename()
        if part.get_content_maintype() != "text" or name:
            files.append((decoded(name or ""), part.get_content_type(), data))
            continue
        try:
            lines.append("\n" + data.decode(part.get_content_charset("utf-8"), "replace"))
        except (LookupError, ValueError):
            lines.append("\n" + data.decode("utf-8", "replace"))
    return "\n".join(lines), files


def composed(account, form):
    """A message of this form, and its path."""
    lists = {name: [one for one in re.split(r"[\s,;]+", form.get(name, "")) if one] for name in ("to", "cc")}
    path = list(dict.fromkeys(lists["to"] + lists["cc"]))
    wrong = [one for one in path if not ADDRESS.fullmatch(one)]
    if wrong or not lists["to"]:
        raise Refused("no-address", wrong[0]) if wrong else Refused("no-recipient")
    message = email.message.EmailMessage(email.policy.SMTP)
    message["From"], message["To"] = account, ", ".join(lists["to"])
    if lists["cc"]:
        message["Cc"] = ", ".join(lists["cc"])
    message["Subject"] = " ".join(form.get("subject", "").split())
    message["Date"] = email.utils.formatdate(localtime=True)
    message["Message-ID"] = email.utils.make_msgid(domain=account.split("@")[1])
    message.set_content(form.get("text", ""), cte="quoted-printable")
    return bytes(message), path
