"""Answers a browser of this machine. The server has the desk and the token that the page's address has."""

import hmac
import http.server
import re
import secrets
import urllib.parse

from desk import PATIENCE, Refused
from items import Letter, composed
from page import Page, file_of
from words import wanted

LONGEST = 8_000_000  # bytes of a form
PLACE = re.compile("[0-9]{1,9}")
MESSAGE = re.compile(r"pec\.[0-9]{7}@[A-Za-z0-9.-]+")


class Answers(http.server.BaseHTTPRequestHandler):
    server_version, sys_version = "webmail", ""
    timeout = PATIENCE

    def answer(self, status, data, nonce="none", **headers):
        data = data.encode("utf-8", "replace") if isinstance(data, str) else data
        self.send_response(status)
        headers = {
            "Content-Type": "text/html; charset=utf-8",
            "Content-Length": len(data),
            "Content-Security-Policy": f"default-src 'none'; style-src 'nonce-{nonce}'; form-action 'self'; "
            "base-uri 'none'; frame-ancestors 'none'",
            "Cross-Origin-Resource-Policy": "same-origin",
            "Cross-Origin-Opener-Policy": "same-origin",
            "Referrer-Policy": "same-origin",
            "X-Content-Type-Options": "nosniff",
            "Cache-Control": "no-store",
            "Vary": "Accept-Language",
        } | {name.replace("_", "-"): value for name, value in headers.items()}
        for name, value in headers.items():
            self.send_header(name, str(value))
        self.end_headers()
        self.wfile.write(data)

    def allowed(self, path, place):
        """Whether the request is of the page itself: it knows the token, and comes from no other site."""
        own = f"127.0.0.1:{self.server.server_port}"
        known = hmac.compare_digest(path.encode("utf-8", "replace"), f"/{self.server.token}/{place}".encode())
        ours = self.headers.get("Host") == own and self.headers.get("Origin", f"http://{own}") == f"http://{own}"
        if known and ours and self.headers.get("Sec-Fetch-Site", "none") in ("none", "same-origin"):
            return True
        self.answer(403 if known else 404, "Not here.")
        return False

    def do_GET(self):
        path, _, query = self.path.partition("?")
        if not self.allowed(path, ""):
            return
        asked = {name: values[0] for name, values in urllib.parse.parse_qs(query, max_num_fields=3).items()}
        if PLACE.fullmatch(asked.get("file", "")):
            self.file(asked["file"], asked.get("part", ""))
        else:
            taken = asked.get("accepted", "")
            self.page(asked.get("item", ""), taken=taken if MESSAGE.fullmatch(taken) else None)

    def do_POST(self):
        if not self.allowed(self.path, "submit"):
            return
        form = {}
        try:
            length = self.headers.get("Content-Length", "")
            if not length.isdigit() or int(length) > LONGEST:
                raise Refused("too-long")
            pairs = urllib.parse.parse_qs(self.rfile.read(int(length)).decode("latin-1"), max_num_fields=10)
            form = {name: values[0] for name, values in pairs.items()}
            message, path = composed(self.server.desk.account, form)
            said = self.server.desk.ask("submit", message, path).decode("latin-1").split()
        except (Refused, ValueError) as why:
            # what was written stays in the form
            self.page("", why=why if isinstance(why, Refused) else Refused("answers", 400, str(why)), form=form)
            return
        self.answer(303, "", Location=f"./?accepted={urllib.parse.quote(said[1])}")

    def page(self, place, taken=None, why=None, form=None):
        """The page: what was told, the item at the place where it is one, and the lists where the service answers."""
        desk, nonce, words = self.server.desk, secrets.token_urlsafe(16), wanted(self.headers.get("Accept-Language"))
        page, opened, lists = Page(words), "", ""
        told = page.told(words("taken", taken), False) if taken else ""
        try:
            items, book = desk.rows("items"), desk.rows("book")
            lists = page.lists(items, book, desk.letters(items))
            opened = page.opened(Letter(desk.item(place)), place) if PLACE.fullmatch(place) else ""
        except Refused as trouble:
            if why is None or why.word != trouble.word:
                told += page.told(words.refusal(trouble), True)
        told += page.told(words.refusal(why), True) if why else ""
        self.answer(422 if why else 200, page.whole(desk, nonce, told, opened, lists, form), nonce)

    def file(self, place, part):
        """An item, its original, or a file of that, as a file: it is saved, and never shown as a part of a page."""
        try:
            found = file_of(Letter(self.server.desk.item(place)), part)
        except Refused as why:
            self.page("", why=why)
            return
        if found is None:
            self.answer(404, "Not here.")
            return
        name, data = found
        plain = re.sub('[^A-Za-z0-9.@_ -]', "_", name)
        disposition = f"attachment; filename=\"{plain}\"; filename*=UTF-8''{urllib.parse.quote(name, safe='')}"
        self.answer(200, data, Content_Type="application/octet-stream", Content_Disposition=disposition)

    def log_message(self, *_):
        pass
