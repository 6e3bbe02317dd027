"""A directory of two providers, messages of its accounts, and scripts that are played on it."""

import base64
import re


def provider(name, key, accounts):
    text = (
        f'[[provider]]\nname = "{name}"\nmailReceipt = "ricevute@{name}.example"\n'
        f'managedDomains = ["{name}.example"]\nkey = "{key}"\nzone = "CET-1CEST,M3.5.0,M10.5.0/3"\n'
    )
    for one, quota in accounts:
        text += f'[[provider.account]]\naddress = "{one}@{name}.example"\nquota = {quota}\nkey = "chiave-{one}"\n'
    return text


ALFA = provider("alfa", bytes(range(16)).hex(), [("alice", 100), ("anna", 100)])
TWO = ALFA + provider("beta", bytes(range(16, 32)).hex(), [("bob", 100), ("carl", 1)])
PEOPLE = ["alice@alfa.example", "anna@alfa.example", "bob@beta.example", "carl@beta.example"]
BEGIN = 1_704_186_000


def people(directory):
    """The addresses in a directory, those of its accounts among them."""
    return list(dict.fromkeys(re.findall(r"[\w.-]+@[\w.-]+", directory)))


def message(sender, to, copy="", text="Salve\r\n"):
    head = f"From: {sender}\r\nTo: {to}\r\n" + (f"Cc: {copy}\r\n" if copy else "") + "Subject: Ciao\r\n\r\n"
    return base64.b64encode((head + text).encode()).decode()


def submission(moment, sender, to, copy="", text="Salve\r\n"):
    name = sender.split("@")[1].split(".")[0]
    path = to + ("," + copy if copy else "")
    return f"submit {name} {moment} {sender} {path} {message(sender, to, copy, text)}\n"


def rounds(begin, count):
    return "".join(f"round {begin + one}\n" for one in range(count))


def shown(directory):
    """Lines that show the book and the mailbox of each account."""
    return "".join(f"book {one}\nmailbox {one}\n" for one in people(directory))


def given(directory, script):
    """The input of a run."""
    return (directory + "%%\n" + script).encode()


ALICE, ANNA, BOB, _ = PEOPLE
TO_BOB = submission(BEGIN, ALICE, BOB)

# Scripts by what they are, each with its directory.
ROWS = {
    "accepted": (ALFA, submission(BEGIN, ALICE, ANNA) + f"book {ALICE}\n"),
    "within one provider": (
        ALFA,
        submission(BEGIN, ALICE, ANNA) + rounds(BEGIN + 1, 5) + f"book {ALICE}\nmailbox {ALICE}\nmailbox {ANNA}\n",
    ),
    "lost twice and repeated": (
        TWO,
        TO_BOB + "lose alfa beta 0\n".join(rounds(BEGIN + one, 1) for one in (1, 2, 3)) + "repeat alfa beta 0\n" * 3
        + rounds(BEGIN + 4, 4) + f"mailbox {BOB}\n",
    ),
    "crash and restart": (
        TWO,
        TO_BOB + rounds(BEGIN + 1, 3) + "lose alfa beta 0\ncrash alfa\nrestart alfa\n" + rounds(BEGIN + 4, 3)
        + f"mailbox {ALICE}\n",
    ),
}


def accepted_in(text):
    """The messages that a run's whole lines say are accepted."""
    return {line.split(" ")[1] for line in text.decode().split("\n")[:-1] if line.startswith("accepted pec.")}


def booked(text):
    """The rows of all books that a run shows: words of each."""
    rows = (line.split(" ") for line in text.decode().split("\n"))
    return [words for words in rows if words[0].startswith("pec.") and len(words) in (8, 9)]


def has_first_entries(paths):
    """Whether each of these files is a journal with an entry."""
    for path in paths:
        try:
            with open(path, "rb") as file:
                if file.read(9)[8:] != b"\1":
                    return False
        except FileNotFoundError:
            return False
    return True
