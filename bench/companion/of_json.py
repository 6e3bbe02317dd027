"""Books and lists of mailboxes as JSON."""

import json

from place import companion, example

ROW = {"id": "pec.0000000@alfa.example", "recipient": "bob@beta.example", "class": "primary", "accepted": 1704186000,
       "charged": 1704186003, "warned": None, "noticed": None, "decision": "delivered", "moment": 1704186002}


def play():
    said = companion("json", given=example("delivery.out")).must(0)
    book, alice, bob = [json.loads(line) for line in said.text().split("\n")[:-1]]
    if book != {"book": [ROW]} or [len(one["mailbox"]) for one in (alice, bob)] != [2, 1]:
        said.fail("other lists are wanted")
    if alice["mailbox"][1] != {"place": 1, "kind": "delivery", "id": ROW["id"], "recipient": ROW["recipient"]}:
        said.fail("another row is wanted")
    is_open = companion("json", given=f"{ROW['id']} {ROW['recipient']} copy 5 - 6 7 open\r\nbook 1\r\nvault 0\n".encode()).must(0)
    open_row = ROW | {"class": "copy", "accepted": 5, "charged": None, "warned": 6, "noticed": 7, "decision": None, "moment": None}
    if [json.loads(line) for line in is_open.text().split("\n")[:-1]] != [{"book": [open_row]}, {"vault": []}]:
        is_open.fail("an open row is wanted, and an empty archive")
    companion("json", given=b"book 1\n").must(1, err=["a book of 1 rows has 0 here"])
    companion("json", given=b"ticked\n").must(1, err=["no book, mailbox or archive"])
    companion("json", "x").must(2)
    print("json: books and lists are the same as on lines")
