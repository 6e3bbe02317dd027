"""The page. All that isn't written here goes through `shown`."""

import html
import os
import string
import time

from items import ADDRESS, decoded
from letters import file_name

LONGEST_SHOWN = 4_000_000
WHOLE = 44  # an address of so many characters isn't broken
FORM = ("to", "cc", "subject", "text")

with open(os.path.join(os.path.dirname(os.path.realpath(__file__)), "page.html"), encoding="utf-8") as file:
    TEMPLATE = string.Template(file.read())


def shown(text):
    text = str(text)
    return html.escape(text if len(text) < LONGEST_SHOWN else text[:LONGEST_SHOWN] + "\n[cut here]")


def shown_address(text):
    """An address that isn't too long stays on one line."""
    whole = len(text) <= WHOLE and ADDRESS.fullmatch(text)
    return f'<span class="address">{shown(text)}</span>' if whole else shown(text)


def moment(seconds):
    """By the clock of this machine, on which all times are shown."""
    return time.strftime("%Y-%m-%d %H:%M:%S", time.localtime(int(seconds)))


def link(place, text):
    return f'<a href="./?item={int(place)}#opened">{text}</a>'


class Page:
    """What stands on the page, in the words of a language."""

    def __init__(self, say):
        self.say = say

    def whole(self, desk, nonce, told, opened="", lists="", form=None):
        say, form = self.say, form or {}
        values = {one.replace("-", "_"): say(one) for one in ("again", "new", "to", "cc", "subject", "text", "hand-in")}
        values |= {f"value_{one}": shown(form.get(one, "")) for one in FORM}
        values |= {"title": shown(say("title", desk.account)), "heading": say("title", shown_address(desk.account))}
        values |= {"language": say.language, "nonce": nonce}
        values |= {"told": told, "opened": opened, "lists": lists, "foot": say("foot", shown(time.strftime("%Z, UTC%z")))}
        return TEMPLATE.substitute(values)

    def told(self, text, wrong):
        """What is said once: a fault is an alert, in another colour."""
        sort, role = ("told wrong", "alert") if wrong else ("told", "status")
        return f'<p class="{sort}" role="{role}">{shown(text)}</p>\n'

    def table(self, name, heads, rows):
        """A list with the heads of its columns; roles, for on a narrow screen it is no table by its looks."""
        head = "".join(f'<th scope="col" role="columnheader">{shown(self.say(one))}' for one in heads)
        lines = "".join(f'<tr role="row">{"".join(cells)}' for cells in rows)
        return (
            f'<table class="list" role="table" aria-labelledby="{name}-title"><thead role="rowgroup"><tr role="row">{head}'
            f'<tbody role="rowgroup">{lines}</table>'
        )

    def section(self, name, body):
        head = f'<h2 id="{name}-title">{shown(self.say(name))}</h2>'
        return f'<section id="{name}" aria-labelledby="{name}-title">{head}{body}</section>'

    def lists(self, items, book, seen):
        mailbox = self.mailbox(items, seen) if items else shown(self.say("nothing"))
        messages = self.book(book, items, seen) if book else shown(self.say("no-message"))
        return self.section("mailbox", mailbox) + self.section("book", messages)

    def mailbox(self, items, seen):
        rows = []
        for place, kind, identity, recipient in reversed(items):
            subject, side, at, _ = seen.get(place, (identity, "", None, []))
            other = ""
            if recipient != "-":
                other = self.say("is-to", shown_address(recipient))
            elif side and kind in ("envelope", "anomaly"):
                other = self.say("is-from", shown_address(side))
            cells = [shown(self.say.of("kinds", kind)), link(place, shown(subject or self.say("no-subject"))), other]
            cells.append(shown(moment(at)) if at is not None else "")
            rows.append([f'<td role="cell">{one}' for one in cells])
        return self.table("mailbox", ("kind", "oggetto", "who", "when"), rows)

    def book(self, rows, items, seen):
        """A row for each recipient, with links to the receipts; who is external has one behind those of the message."""
        receipts, lines = {}, []
        for place, kind, identity, recipient in items:
            receipts[identity, recipient] = place
        for at, row in enumerate(rows):
            identity, recipient = row[0], row[1]
            accepted = receipts.get((identity, "-"))
            subject, _, _, external = seen.get(accepted, (identity, "", None, []))
            name = shown(subject or self.say("no-subject"))
            message = f"{link(accepted, name) if accepted else name}<br>{shown(self.say('accepted-at', moment(row[3])))}"
            copy = f" ({shown(self.say('copy'))})" if row[2] == "copy" else ""
            sort, said = self.fate(row)
            receipt = receipts.get((identity, recipient))
            fate = link(receipt, shown(said)) if receipt else shown(said)
            lines.append(self.book_row(message, shown_address(recipient) + copy, sort, fate))
            if at + 1 == len(rows) or rows[at + 1][0] != identity:
                lines += [self.book_row(message, shown_address(one), "bad", shown(self.say("external"))) for one in external]
        return self.table("book", ("message", "recipient", "fate"), reversed(lines))

    def book_row(self, message, recipient, sort, fate):
        return f'<td role="cell">{message}', f'<td role="cell">{recipient}', f'<td role="cell" class="{sort}">{fate}'

    def fate(self, row):
        """What became of a row of the book: a class and words."""
        charged, warned, noticed, outcome, say = row[4], row[5], row[6], row[7:], self.say
        if outcome[0] == "delivered":
            return "good", say("delivered", moment(outcome[1]))
        if outcome[0] != "open":
            return "bad", say("refused", moment(outcome[1]), say.of("causes", outcome[0]))
        if noticed != "-":
            return "bad", say("noticed", moment(noticed))
        if warned != "-":
            return "bad", say("warned", moment(warned))
        return "open", say("charged", moment(charged)) if charged != "-" else say("on-its-way")

    def opened(self, letter, place):
        say, pieces = self.say, []
        head = [("oggetto", letter.fields.get("Subject", "")), ("from", letter.fields.get("From", ""))]
        if letter.moment is not None:
            head.append(("date", moment(letter.moment)))
        pieces.append(f"<h3>{shown(say('head'))}</h3>{self.facts('head', head)}")
        if letter.facts:
            certified = [("moment", moment(letter.moment))] if letter.moment is not None else []
            certified += [(name, decoded(value)) for name, value in letter.facts]
            pieces.append(f"<h3>{shown(say('certificate'))}</h3>{self.facts('certificate', certified)}")
        if letter.text:
            pieces.append(f'<h3>{shown(say("original"))}</h3><pre id="original" tabindex="0">{shown(letter.text)}</pre>')
        pieces.append(self.files(letter, place))
        source = shown(letter.data.decode("utf-8", "replace"))
        pieces.append(f"<details><summary>{shown(say('source'))}</summary><pre>{source}</pre></details>")
        return self.section("opened", "".join(pieces))

    def facts(self, name, pairs):
        rows = "".join(
            f'<tr><th scope="row">{shown(self.say(fact) if self.say.knows(fact) else fact)}<td>{shown_address(value)}'
            for fact, value in pairs
        )
        return f'<table class="facts" id="{name}">{rows}</table>'

    def files(self, letter, place):
        """Links by which the letter, the original and its files are saved."""
        named = [("letter", self.say("save-letter"))]
        if letter.original is not None:
            named.append(("original", self.say("save-original")))
        for number, (name, kind, data) in enumerate(letter.files):
            size = self.say("bytes", kind, len(data))
            named.append((str(number), f"{self.say('save-file', name or self.say('a-part'))} ({size})"))
        links = (f'<li><a href="./?file={int(place)}&amp;part={part}" download>{shown(text)}</a>' for part, text in named)
        return f'<ul id="files">{"".join(links)}</ul>'


def file_of(letter, part):
    """The name and the bytes of a part that is saved, or None. What `letter save` makes has the same name."""
    name = file_name(letter.data)
    if part == "letter":
        return name, letter.data
    if part == "original" and letter.original is not None:
        return f"original-of-{name}", letter.original
    if part.isdigit() and int(part) < len(letter.files):
        given, _, data = letter.files[int(part)]
        return given or f"part-{part}-of-{name.removesuffix('.eml')}", data
    return None
