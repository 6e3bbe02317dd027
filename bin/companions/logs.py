"""The log of providers: an extract of a copy of their journals, as rows."""

import csv
import io
import re

import console
import dates
import journals

# A journal that is copied while it grows may be caught in the middle of a write; the next copy has it whole.
COPIES = 3


class Log:
    """Rows of an extract, each by the names of its fields, and the totals."""

    def __init__(self, text):
        rows = list(csv.DictReader(io.StringIO(text)))
        self.totals = [int(rows[-1][name]) for name in ("entry", "moment", "event", "id")]
        self.rows = rows[:-1]


def words_of(status, line):
    """Why there is no extract, in words."""
    if "directory" in line.split(" "):
        return f"these journals were made with another directory ({line[:60]}..)"
    return {
        3: f"the directory has a fault: {line} (bin/lint says where)",
        7: "a journal can't be opened",
        9: f"a journal isn't whole, or a journal of a provider is missing: {line}",
        13: "a disk failed while a journal was read",
        14: "an entry of a journal isn't what was kept",
    }.get(status, f"the program ended with status {status} {line}")


def copied(folder, play):
    """What is made of a copy of the journals; of another copy where the first wasn't to be opened."""
    for left in reversed(range(COPIES)):
        with journals.Copy(folder) as copy:
            made, status = play(copy)
        if status == 0:
            return made
        if status != 9 or not left or re.search(" directory ", made):
            raise console.Trouble(words_of(status, made.rstrip("\n").split("\n")[-1]))


def extract(read, copy, begin, end):
    """The extract, as the program writes it, and the status."""
    written, status = console.ask(["extract", str(begin), str(end)], read.text, copy)
    return written.decode("ascii", "replace"), status


def of_range(read, folder, begin, end):
    return Log(copied(folder, lambda copy: extract(read, copy, begin, end)))


def dated(row, read):
    return dates.stamp(row["moment"], read.named(row["provider"]).zone)
