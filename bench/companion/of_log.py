"""The log of a day, from a copy of journals that others hold or that can't be written."""

import csv
import io
import os
import shutil
import subprocess
import tempfile
import threading

from place import DIRECTORY, EXAMPLES, PROGRAM, companion, files, played, put, ran

COLUMNS = "provider,entry,moment,date,event,id,sender,recipients,subject,detail".split(",")
TOTALS = "by all providers together; 2 are delivered, 1 refused, 0 open"
DAY = ("1704150000", "1704236399")
# of a day whose journals grow
LOGS = 6


def days(folder):
    """The three days of examples/extract.sh, with its directory."""
    ran(["sh", os.path.join(EXAMPLES, "extract.sh"), PROGRAM], folder=folder).must(0)
    with open(os.path.join(folder, "directory"), "rb") as file:
        return file.read()


def rows_of(seen):
    rows = list(csv.reader(io.StringIO(seen.text())))
    if rows[0] != COLUMNS:
        seen.fail("other columns are wanted")
    return rows[1:]


def of_a_day(folder, directory):
    """The rows are those of the extract, with a date each."""
    how = {"given": directory, "folder": folder}
    seen = companion("log", "2024-01-02", **how).must(0, err=[TOTALS, "15 rows"])
    extract = list(csv.reader(io.StringIO(ran([PROGRAM, "extract", *DAY], directory, folder).must(0).text())))
    wanted = [row for row in extract[1:-1] if row[3] != "ticked"]
    if [row[:3] + row[4:] for row in rows_of(seen)] != wanted:
        seen.fail("its rows aren't those of the extract")
    dates = [row[3] for row in rows_of(seen)]
    if dates[0] != "2024-01-02 10:00:00 +0100" or dates[7] != "2024-01-02 23:59:59 +0100":
        seen.fail("other dates are wanted")
    one = companion("log", "2024-01-02", "--of", "beta", **how).must(0, err=["7 rows"])
    if {row[0] for row in rows_of(one)} != {"beta"}:
        one.fail("rows of beta alone are wanted")
    companion("log", "2024-02-30", **how).must(2, err=["is no day"], exact=b"")
    companion("log", "2023-12-31", **how).must(0, err=["0 rows", "totals: 0 pairs"])
    companion("log", "2024-01-02", "--of", "gamma", **how).must(2, err=["no provider of the directory: alfa, beta"])
    other = directory.replace(b"CET-1CEST,M3.5.0,M10.5.0/3", b"UTC0", 1)
    companion("log", "2024-01-02", given=other, folder=folder).must(2, err=["isn't the same in all zones: name a provider by --of"])
    wrong = directory.replace(b"quota = 100", b"quota = 101", 1)
    companion("log", "2024-01-02", given=wrong, folder=folder).must(1, err=["were made with another directory"], exact=b"")


def of_a_copy(folder, directory):
    """Journals that a program holds, and such as can't be written."""
    kept = files(folder, ".journal")
    holds = subprocess.Popen([PROGRAM, "resume"], cwd=folder, stdin=subprocess.PIPE, stdout=subprocess.PIPE)
    holds.stdin.write(directory + b"%%\nbook alice@alfa.example\n")
    holds.stdin.flush()
    holds.stdout.readline()
    ran([PROGRAM, "extract", *DAY], directory, folder).must(7)
    companion("log", "2024-01-02", "--in", folder, given=directory, folder="/").must(0, err=[TOTALS])
    holds.communicate()
    if os.geteuid() == 0 and shutil.which("unshare"):
        shell = f"mount --bind {folder} {folder} && mount -o remount,bind,ro {folder} && log --in {folder} 2024-01-02"
        path = {**os.environ, "PATH": os.path.join(EXAMPLES, "..", "bin") + ":" + os.environ["PATH"]}
        ran(["unshare", "-m", "sh", "-c", shell], directory, env=path).must(0, err=[TOTALS])
    if files(folder, ".journal") != kept:
        raise SystemExit("a journal was changed")
    with tempfile.TemporaryDirectory() as empty:
        companion("log", "2024-01-02", given=directory, folder=empty).must(1, err=["has no journals"], exact=b"")
        put(empty, "pec-0.journal", kept["pec-0.journal"][:50])
        cut = companion("log", "2024-01-02", given=directory, folder=empty)
        cut.must(1, err=["isn't whole, or a journal of a provider is missing"], exact=b"")


def feed(child, line, enough):
    """Hands messages in, each at a later moment and with a round behind it, until there are enough."""
    child.stdin.write(DIRECTORY + b"%%\n")
    for moment in range(1_704_186_000, 1_704_196_000):
        child.stdin.write(f"{line.replace('1704186000', str(moment))}round {moment}\n".encode())
        child.stdin.flush()
        if enough.wait(0.2):
            break
    child.stdin.close()


def of_growing_journals():
    """A program writes to the journals meanwhile: each log has the rows of some moment, and never fewer than the one before."""
    with tempfile.TemporaryDirectory() as folder:
        name = put(folder, "m", b"From: alice@alfa.example\r\nTo: bob@beta.example\r\n\r\nSalve\r\n")
        line = companion("letter", "submit", "alfa", "1704186000", "alice@alfa.example", name).must(0).text()
        child = subprocess.Popen([PROGRAM, "run"], cwd=folder, stdin=subprocess.PIPE, stdout=subprocess.DEVNULL)
        enough, counts = threading.Event(), [0]
        feeds = threading.Thread(target=feed, args=(child, line, enough))
        feeds.start()
        while len(counts) < LOGS and child.poll() is None:
            seen = companion("log", "2024-01-02", given=DIRECTORY, folder=folder)
            # (before the first entries of both there is nothing to be opened)
            if seen.status == 0 or len(counts) > 1:
                counts.append(len(rows_of(seen.must(0))))
        enough.set()
        feeds.join()
        if child.wait() or counts != sorted(counts) or counts[-1] == counts[1]:
            raise SystemExit(f"the program ends with {child.returncode}, and the logs have {counts} rows")


def of_cells():
    """Subjects that a spreadsheet would take for formulas, and clock calls."""
    with tempfile.TemporaryDirectory() as folder:
        lines = []
        for number, subject in enumerate(["=1+1", "+39 06", "-x", "@SUM(A1)", "plain, =1"]):
            name = put(folder, "m", f"From: alice@alfa.example\r\nTo: bob@beta.example\r\nSubject: {subject}\r\n\r\n".encode())
            line = companion("letter", "submit", "alfa", str(1_704_186_000 + number), "alice@alfa.example", name).must(0)
            lines.append(line.text().rstrip("\n"))
        played(folder, [*lines, "tick alfa 1704186009"])
        seen = companion("log", "2024-01-02", given=DIRECTORY, folder=folder).must(0, err=["5 rows; 1 of clock calls are left out"])
        if [row[8] for row in rows_of(seen)] != ["'=1+1", "'+39 06", "'-x", "'@SUM(A1)", "plain, =1"]:
            seen.fail("other subjects are wanted")
        both = companion("log", "--all", "2024-01-02", given=DIRECTORY, folder=folder).must(0, err=["6 rows"])
        if rows_of(both)[-1][4] != "ticked":
            both.fail("the clock call is wanted too")


def play():
    with tempfile.TemporaryDirectory() as folder:
        directory = days(folder)
        of_a_day(folder, directory)
        of_a_copy(folder, directory)
    of_growing_journals()
    of_cells()
    print("log: the day's rows are those of the extract, from journals that are held, grow, or can't be written")
