"""The account's own requests to the service."""

import http.client

SERVICE = ("127.0.0.1", 8125)
PATIENCE = 120  # seconds that the service may be busy with others
NEWEST = 40  # items that are fetched for the lists at one look


class Refused(Exception):
    """What the service, or the page, answers in place of what was asked: a word and what belongs to it."""

    def __init__(self, word, *values, status=0):
        super().__init__(word)
        self.word, self.values, self.status = word, values, status


class Desk:
    def __init__(self, account, key, read):
        """`read` makes a letter of an item's bytes."""
        self.account, self.key, self.read = account, key, read
        self.seen = {}

    def ask(self, what, message=None, path=()):
        """The body of an answer."""
        headers = {"x-key": self.key} | ({"x-path": ",".join(path)} if message is not None else {})
        link = http.client.HTTPConnection(*SERVICE, timeout=PATIENCE)
        try:
            link.request("GET" if message is None else "POST", f"/mail/{self.account}/{what}", message, headers)
            answer = link.getresponse()
            body = answer.read()
        except (OSError, ValueError, http.client.HTTPException) as why:
            raise Refused("silent", SERVICE[1], str(why)) from None
        finally:
            link.close()
        if answer.status not in (200, 201):
            raise refusal(answer.status, body.decode("latin-1").split())
        return body

    def rows(self, what):
        """The rows of the book or the mailbox, by their words, without the line that counts them."""
        return [line.split(" ") for line in self.ask(what).decode("ascii").split("\n")[:-2]]

    def item(self, place):
        return self.ask(f"items/{place}")

    def letters(self, rows):
        """What was seen of items, by their places; what wasn't seen yet is fetched, the newest first."""
        for place in [row[0] for row in reversed(rows) if row[0] not in self.seen][:NEWEST]:
            self.seen[place] = self.read(self.item(place)).summary()
        return self.seen


def refusal(status, said):
    if status == 422 and len(said) == 3:
        return Refused("not-accepted", said[2], status=status)
    words = {401: "no-key", 403: "wrong-key", 404: "not-there"}
    if status in words:
        return Refused(words[status], status=status)
    return Refused("answers", status, " ".join(said), status=status)
