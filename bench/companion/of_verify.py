"""Saved letters are judged by the program, and told in words; the files stay as they are."""

import base64
import hashlib
import hmac
import os
import tempfile

from place import DELIVERY, DIRECTORY, EXAMPLES, companion, files, played, put, ran

BETA, ALFA = bytes(range(16, 32)), bytes(range(16))


def saved(folder):
    """The letters of a delivery: the receipts of acceptance and of delivery, and the envelope."""
    with tempfile.TemporaryDirectory() as run:
        ran([os.environ["PEC"], "run"], DELIVERY, run).must(0)
        shows = ["show alice@alfa.example 0", "show alice@alfa.example 1", "show bob@beta.example 0"]
        lines = played(run, shows, DIRECTORY, "resume").text().split("\n")[:-1]
    for name, line in zip(("acceptance", "delivery", "envelope"), lines):
        put(folder, name + ".eml", base64.b64decode(line))
    put(folder, "directory", DIRECTORY)
    return files(folder, ".eml")


def sealed(name, key, text):
    tag = base64.b64encode(hmac.new(key, text, hashlib.sha256).digest())
    return b"X-Sigillo: " + name + b"; " + tag + b"\r\n" + text


def forged(delivery, name, key):
    """What somebody with a key makes of a receipt of delivery: that the mailbox was full."""
    text = delivery.partition(b"\r\n")[2]
    for old, new in [
        (b"X-Ricevuta: avvenuta-consegna", b"X-Ricevuta: errore-consegna"),
        (b"X-TipoRicevuta: completa\r\n", b""),
        (b'avvenuta-consegna" errore="nessuno"', b'errore-consegna" errore="altro"'),
        (b'<ricevuta tipo="completa"/>\r\n', b""),
        (b"</dati>", b"<errore-esteso>mailbox-full</errore-esteso>\r\n</dati>"),
        (b"<gestore-emittente>beta", b"<gestore-emittente>" + name),
    ]:
        text = text.replace(old, new)
    return sealed(name, key, text)


def of_genuine(folder, letters):
    said = companion("verify", "directory", *letters, folder=folder)
    said.must(0, "delivery.eml: genuine, receipt of delivery", "sealed by beta, 2 January 2024, 10:00:02 +0100 (1704186002)",
              "certifies beta placed the message in the mailbox of bob@beta.example", "certifies alfa accepted the message",
              "proved: pec.0000000@alfa.example to bob@beta.example: delivered, 2 January 2024", "3 genuine, 0 refused")
    # a directory in LDIF, and one with a script behind it
    for name in ("registry.pec", "delivery.pec"):
        companion("verify", os.path.join(EXAMPLES, name), "delivery.eml", folder=folder).must(0, "1 genuine, 0 refused")


def of_spoilt(folder, letters):
    """What programs do to saved letters, and what verify says of it."""
    delivery = letters["delivery.eml"]
    client = b"From - Tue Jan  2 10:00:00 2024\r\nX-Mozilla-Status: 0001\r\nReceived: from a\r\n\tby b\r\n"
    ends, above = "once its line ends are CRLF again", "once the lines above its seal are taken off"
    for name, text, said in [
        ("lf", delivery.replace(b"\r\n", b"\n"), ends),
        ("client", client + delivery, above),
        ("both", (client + delivery).replace(b"\r\n", b"\n"), above + " (a mail client put them there) and its line ends are CRLF"),
        ("longer", delivery + b"\r\n\r\n", "once it ends with one line end"),
        ("shorter", delivery[:-2], "once it ends with one line end"),
        ("wrapped", base64.encodebytes(delivery), "once it is taken out of its base64"),
    ]:
        put(folder, name, text)
        companion("verify", "directory", name, folder=folder).must(1, f"{name}: REFUSED [refused 0 seal]", said, "stays as it is")
    put(folder, "changed", delivery.replace(b"Salve", b"Valse"))
    told = companion("verify", "directory", "delivery.eml", "changed", folder=folder)
    told.must(1, "changed: REFUSED", "1 genuine, 1 refused")
    if "would be genuine" in told.text():
        told.fail("a changed letter can't be helped")


def of_forged(folder, letters):
    put(folder, "forged", forged(letters["delivery.eml"], b"beta", BETA))
    said = "CONTRADICTION: genuine letters tell more than one end of pec.0000000@alfa.example to bob@beta.example"
    companion("verify", "directory", "delivery.eml", "forged", folder=folder).must(1, "2 genuine, 0 refused", said)
    companion("verify", "directory", "forged", folder=folder).must(0, "not delivered: the mailbox is full", "proved: ")
    put(folder, "by-alfa", forged(letters["delivery.eml"], b"alfa", ALFA))
    companion("verify", "directory", "by-alfa", folder=folder).must(1, "[refused 0 wrong-provider]", "than the one that decides")
    put(folder, "none", sealed(b"beta", BETA, b"Subject: x\r\n\r\nCiao\r\n"))
    companion("verify", "directory", "none", folder=folder).must(1, "[refused 0 body]", "its parts aren't those of a letter")


def of_troubles(folder):
    companion("verify", "directory", "nowhere", folder=folder).must(3, err=["nowhere can't be read"], exact=b"")
    put(folder, "wrong", DIRECTORY.replace(b"quota = 1\n", b"quota = -1\n"))
    wrong = companion("verify", "wrong", "delivery.eml", folder=folder)
    wrong.must(3, err=["wrong, line 27, column 1", "`quota` has to be"], exact=b"")
    companion("verify", "directory", folder=folder).must(2)
    env = {**os.environ, "PEC": "/nowhere/pec"}
    companion("verify", "directory", "delivery.eml", folder=folder, env=env).must(3, err=["the program can't be run"], exact=b"")


def play():
    with tempfile.TemporaryDirectory() as folder:
        letters = saved(folder)
        of_genuine(folder, letters)
        of_spoilt(folder, letters)
        of_forged(folder, letters)
        of_troubles(folder)
        if {name: text for name, text in files(folder, ".eml").items() if name in letters} != letters:
            raise SystemExit("a file was changed")
    print("verify: letters are told in words; spoilt, forged and contradicting ones end with status 1")
