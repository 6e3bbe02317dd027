"""One message's history, from the logs of all providers and the sender's book."""

import tempfile

from of_log import days
from place import PROGRAM, companion, example, files, ran


def of_deliveries(folder, directory):
    kept, how = files(folder, ".journal"), {"given": directory, "folder": folder}
    seen = companion("fate", "pec.0000001@alfa.example", **how)
    seen.must(0, 'pec.0000001@alfa.example from alice@alfa.example: Disdetta del "Contratto 12", recesso',
              "bob@beta.example: delivered; 2 January 2024, 10:00:02 +0100; taken in charge 2 January 2024, 10:00:03 +0100")
    lines = [line for line in seen.text().split("\n") if line.startswith("  2024")]
    order = ["alfa accepts", "beta takes charge", "beta decides", "alfa hears that beta", "alfa hears of", "beta hears"]
    if len(lines) != 6 or not all(one in line and "2024-01-02 10:00:0" in line for one, line in zip(order, lines)):
        seen.fail("other lines are wanted, in their order")
    companion("fate", "pec.0000000@alfa.example", **how).must(0, "Auguri", "bob@beta.example: delivered; 1 January 2024")
    companion("fate", "pec.0000002@alfa.example", **how).must(0, "not delivered: nobody has the address")
    companion("fate", "pec.0000003@alfa.example", **how).must(0, "another account handed it in")
    companion("fate", "pec.0000009@alfa.example", **how).must(1, err=["has a message pec.0000009"], exact=b"")
    companion("fate", "0000001", **how).must(2, err=["is no name of a message"])
    companion("fate", "pec.0000001@alfa.example", "--in", folder, given=directory, folder="/").must(0, exact=seen.out)
    if files(folder, ".journal") != kept:
        seen.fail("a journal was changed")


def of_limits():
    """A message of which nothing was heard: the sender was warned, and had notice."""
    with tempfile.TemporaryDirectory() as folder:
        given = example("notice.pec")
        ran([PROGRAM, "run"], given, folder).must(0)
        rows = [line for line in example("notice.out").decode().split("\n") if line.endswith(" open")]
        identity, warned, noticed = rows[-1].split(" ")[0], *rows[-1].split(" ")[5:7]
        if "-" in (warned, noticed):
            raise SystemExit("examples/notice.pec has no notice any more")
        seen = companion("fate", identity, given=given, folder=folder)
        seen.must(0, "open: no end is known; the sender was warned", "the sender had notice")
        if "accepts the message" not in seen.text():
            seen.fail("the acceptance is wanted")


def play():
    with tempfile.TemporaryDirectory() as folder:
        of_deliveries(folder, days(folder))
    of_limits()
    print("fate: histories of delivered, refused and open messages stand in their order, with dates")
