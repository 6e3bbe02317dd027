"""Lines of a script are made of files, and files of what a run shows."""

import base64
import os
import tempfile

from place import DELIVERY, DIRECTORY, companion, files, played, put, ran

MESSAGE = (
    b'From: Alice <ALICE@alfa.example>\r\nTo: "Rossi, B." <bob@beta.example>,\r\n carl@beta.example\r\n'
    b"Cc: bob@beta.example, anna@alfa.example\r\nSubject: Ciao\r\n\r\nSalve\r\n" + b"x" * 300 + b"\r\n"
)
PATH = "bob@beta.example,carl@beta.example,anna@alfa.example"


def of_submit(folder):
    name = put(folder, "message.eml", MESSAGE)
    line = companion("letter", "submit", "alfa", "2024-01-02T10:00:00+01:00", "alice@alfa.example", name).must(0)
    word = base64.b64encode(MESSAGE).decode()
    if line.text() != f"submit alfa 1704186000 alice@alfa.example {PATH} {word}\n" or line.err:
        line.fail("another line is wanted")
    played(folder, [line.text().rstrip("\n")]).must(0, exact=b"accepted pec.0000000@alfa.example\n")
    companion("letter", "path", name).must(0, exact=PATH.encode() + b"\n")
    again = companion("letter", "submit", "alfa", "1704186000", "alice@alfa.example", "-", name, given=MESSAGE).must(0)
    if again.text() != line.text() * 2:
        again.fail("the same line is wanted twice")
    now = companion("letter", "submit", "alfa", "now", "alice@alfa.example", name).must(0).text().split(" ")
    if not 1_704_186_000 < int(now[2]) < 4_102_444_800:
        raise SystemExit(f"now is no moment: {now[2]}")


def of_refusals(folder):
    name = put(folder, "m", MESSAGE.replace(b"Subject", b"Bcc: x@y.example\r\nSubject"))
    words = ["submit", "alfa", "0", "anna@alfa.example", name]
    companion("letter", *words).must(0, "submit alfa 0", err=["its From is alice@alfa.example, and the account is anna", "Bcc"])
    for wrong, said in [
        (b"x", "no empty line ends its head"),
        (b"From: a@b\r\n\r\n", "its To is no list"),
        (b"?\r\n\r\n", "is no field"),
    ]:
        companion("letter", "submit", "alfa", "0", "a@b.example", "-", given=wrong).must(1, err=[said], exact=b"")
    companion("letter", "submit", "alfa", "yesterday", "a@b.example", name).must(2, err=["is no moment"])
    companion("letter", "submit", "alfa", "0", "nobody", name).must(2, err=["is no address"])
    companion("letter", "submit", "alfa", "0", "a@b.example", folder + "/none").must(1, err=["can't be read"])


def of_inject(folder):
    name = put(folder, "outside.eml", b"From: x@posta.example\r\n\r\nOfferta\r\n")
    line = companion("letter", "inject", "alfa", "beta", "bob@beta.example", name).must(0).text().rstrip("\n")
    said = played(folder, [line, "round 1704186009"], form="resume")
    said.must(0, "injected", "beta anomaly 1")
    companion("letter", "inject", "alfa", "beta", "bob", name).must(2, err=["is no path"])


def of_save():
    """Receipts of a whole run are saved, to the last byte, and nothing is written over."""
    with tempfile.TemporaryDirectory() as folder:
        shows = ["show alice@alfa.example 0", "show alice@alfa.example 1", "show bob@beta.example 0"]
        ran([os.environ["PEC"], "run"], DELIVERY, folder).must(0)
        shown = played(folder, shows, DIRECTORY, "resume")
        texts = [base64.b64decode(line) for line in shown.text().split("\n")[:-1]]
        saved = os.path.join(folder, "saved")
        told = companion("letter", "save", saved, given=b"ticked\nlost\n" + shown.out).must(0)
        names = ["acceptance-acc.0.0000000@alfa", "delivery-avc.0.0000000.0@beta", "envelope-pec.0000000@alfa"]
        names = [f"{one}.example.eml" for one in names]
        if told.text().split("\n")[:-1] != [os.path.join(saved, one) for one in names] or files(saved) != dict(zip(names, texts)):
            told.fail("other files are wanted")
        companion("letter", "save", saved, given=shown.out).must(0, err=["was there already, with the same bytes"])
        put(saved, names[0], b"mine")
        companion("letter", "save", saved, given=shown.out).must(0, names[0].replace(".eml", "-2.eml"))
        if files(saved)[names[0]] != b"mine":
            raise SystemExit("a file was written over")
        companion("letter", "save", saved, given=b"ticked\nrepeated\n").must(1, err=["no item stands in these lines"])


def play():
    with tempfile.TemporaryDirectory() as folder:
        of_submit(folder)
        of_refusals(folder)
        of_inject(folder)
    of_save()
    print("letter: lines of files are played, and items are saved to the last byte")
