#!/usr/bin/env python3
"""A message over HTTP by Python's http.client: alice hands it in, and bob lists his mailbox and fetches it. A program
serves the directory of mailbox.sh meanwhile."""

import http.client

MESSAGE = b"From: alice@alfa.example\r\nTo: bob@beta.example\r\nSubject: Ciao\r\n\r\nSalve\r\n"
ALICE, BOB = {"x-key": "chiave-alice"}, {"x-key": "chiave-bob"}
ASKED = [
    ("POST", "alice@alfa.example/submit", MESSAGE, ALICE | {"x-path": "bob@beta.example"}),
    ("GET", "alice@alfa.example/book", None, ALICE),
    ("GET", "bob@beta.example/items", None, BOB),
    ("GET", "bob@beta.example/items/0", None, BOB),
]

link = http.client.HTTPConnection("127.0.0.1", 8125)
for method, what, message, headers in ASKED:
    # the provider closes the connection behind its answer, and http.client opens another one
    link.request(method, "/mail/" + what, message, headers)
    answer = link.getresponse()
    print(answer.status, answer.read().decode("latin-1"))
