"""Why the program ended as it did, in words: from its status, its words, and what the folder and the streams look like
behind it. What it wrote isn't read."""

import errno
import os
import resource
import select
import stat

from console import folded

JOURNALS = [f"pec-{number}.journal" for number in range(16)]
MAKERS = ("run", "resume", "load", "serve", "extract")
FORMS = {
    "run": "`run` stands alone; its input comes on standard input",
    "resume": "`resume` stands alone; its input comes on standard input",
    "ldif": "`ldif` stands alone; the directory comes on standard input",
    "check": "`check` stands alone; the dossier comes on standard input",
    "serve": "`serve N`: N is the number of connections, from 1 to 1000000",
    "load": "`load N`: N is the number of messages, from 1 to 20000",
    "extract": "`extract FROM TO`: two moments in seconds since 1970, the first not above the second; bin/log takes a day",
}


class Before:
    """What stood there before the program ran."""

    def __init__(self, words):
        self.words, self.form = words, words[0] if words else ""
        self.closed = [number for number in range(3) if not is_open(number)]
        self.journals = {one for one in JOURNALS if os.path.lexists(one)} if self.form in MAKERS else set()
        self.place = place_of_input()


def is_open(number):
    try:
        os.fstat(number)
    except OSError:
        return False
    return True


def place_of_input():
    """Where the input begins in its file, or None where it is no file."""
    try:
        return os.lseek(0, 0, os.SEEK_CUR) if stat.S_ISREG(os.fstat(0).st_mode) else None
    except OSError:
        return None


def told(before, status):
    """Sentences for this status."""
    found = list(STATUSES.get(status, nothing)(before))
    if before.form in MAKERS:
        found += full(before) if status in (0, 7, 13) else []
        found += left(before, status) if status else []
    return [folded("pec: " + one, "", "  ") for one in found]


def nothing(_):
    return []


# ---- what the folder looks like


def full(_):
    """Whether the disk has room."""
    room = os.statvfs(".")
    if not room.f_bavail or room.f_files and not room.f_favail:
        shows = "a command that wrote `fault disk` may have been kept or not, as `resume` shows"
        yield f"the disk of {os.getcwd()} is full: {shows}"
    limit = resource.getrlimit(resource.RLIMIT_FSIZE)[0]
    if limit != resource.RLIM_INFINITY:
        yield f"files may have {limit:,} bytes here and no more (ulimit -f): past that a write is a fault of the disk"


def left(before, status):
    """The journals that weren't there before."""
    import journals

    new = [one for one in JOURNALS if one not in before.journals and os.path.lexists(one)]
    if not new:
        return
    if before.form in ("resume", "extract"):
        yield f"{', '.join(new)} wasn't there, and is an empty file now: it can be removed"
        return
    if all(journals.Front(one).entries < 2 for one in new if os.path.isfile(one)):
        played = "Nothing was played in them: they can be removed, and `run` wants that, or `resume` goes on with them"
    else:
        played = "They have what was played before the end: `resume` goes on with them, and `run` refuses them"
    yield f"new journals were left in {os.getcwd()}: {', '.join(new)}. {played}"


def can_be_made():
    """Why no file can be made in the folder, or nothing."""
    try:
        made = os.open(".", os.O_TMPFILE | os.O_WRONLY, 0o600)
    except OSError as why:
        return None if why.errno in (errno.EOPNOTSUPP, errno.EISDIR, errno.ENOENT) else why.strerror
    try:
        os.write(made, bytes(4096))
        os.fsync(made)
    except OSError as why:
        return why.strerror
    finally:
        os.close(made)
    return None


def of_journal(name):
    """Why a journal can't be opened, or nothing."""
    import fcntl

    if os.path.islink(name):
        return f"{name} is a link to {os.readlink(name)}: a journal has to stand there itself"
    if not os.path.lexists(name):
        return None
    if not os.path.isfile(name):
        return f"{name} is no file"
    try:
        held = os.open(name, os.O_RDWR)
    except OSError as why:
        return f"{name} can't be opened for writing: {why.strerror}"
    try:
        fcntl.flock(held, fcntl.LOCK_EX | fcntl.LOCK_NB)
    except OSError:
        return f"{name} is held by another program{holder(held)}: it ends, or this one runs in another folder"
    finally:
        os.close(held)
    return None


def holder(held):
    """Which program has the lock of a file, as far as the system says it."""
    node = os.fstat(held)
    name = f"{os.major(node.st_dev):02x}:{os.minor(node.st_dev):02x}:{node.st_ino}"
    try:
        with open("/proc/locks", encoding="ascii") as lines:
            numbers = [line.split()[4] for line in lines if name in line.split() and "->" not in line]
        with open(f"/proc/{numbers[0]}/cmdline", "rb") as file:
            return f", process {numbers[0]} ({file.read().replace(bytes(1), b' ').decode('utf-8', 'replace').strip()[:60]})"
    except (OSError, IndexError):
        return ""


# ---- statuses


def usage(before):
    if before.form in FORMS:
        yield f"these words are no form: {FORMS[before.form]}"
    else:
        said = f"`{before.form}` is no form" if before.words else "no form was named"
        yield f"{said}: {', '.join(FORMS)}; bin/pec --help has them"


def refused(before):
    yield "the line on standard output says for what the input was refused; bin/lint FILE says it in words, with its place"


def no_input(before):
    if 0 in before.closed:
        yield "standard input is closed"
    elif stat.S_ISDIR(os.fstat(0).st_mode):
        yield "standard input is a folder"
    else:
        yield "standard input couldn't be read on"


def no_output(before):
    if 1 in before.closed:
        yield "standard output is closed"
        return
    mode = os.fstat(1).st_mode
    if stat.S_ISREG(mode) and not os.fstatvfs(1).f_bavail:
        yield "standard output couldn't be written: its disk is full"
    elif stat.S_ISFIFO(mode) and any(what & select.POLLERR for _, what in polled(1)):
        yield "standard output couldn't be written: nobody reads the pipe any more"
    else:
        yield "standard output couldn't be written"
    if before.form in ("run", "resume", "serve"):
        yield "what was played is in the journals all the same"
    else:
        yield "what was written is a front"


def polled(number):
    poll = select.poll()
    poll.register(number, select.POLLOUT)
    return poll.poll(0)


def no_memory(_):
    limit = resource.getrlimit(resource.RLIMIT_AS)[0]
    allowed = "" if limit == resource.RLIM_INFINITY else f": {limit:,} bytes are allowed (ulimit -v)"
    yield f"there wasn't enough memory{allowed}"


def no_journal(before):
    found = [why for why in map(of_journal, JOURNALS) if why]
    why = can_be_made()
    if why and any(not os.path.lexists(one) for one in JOURNALS[:1]):
        found.append(f"no file can be made in the folder {os.getcwd()}: {why}")
    elif why:
        found.append(f"nothing can be written in the folder {os.getcwd()}: {why}")
    yield from found or [f"a journal in {os.getcwd()} couldn't be looked at, made or opened, and nothing is wrong with it now"]


def not_empty(before):
    found = ", ".join(one for one in JOURNALS if os.path.lexists(one) and os.path.getsize(one))
    if before.form == "serve":
        yield f"a file of this folder that would be a journal ({found}) is none: another folder is wanted"
    else:
        other = f"`resume` goes on with them; `{before.form}` wants an empty folder, as bin/fresh makes one"
        yield f"there are journals in {os.getcwd()}: {found}. {other}"


def not_fit(before):
    import journals

    fronts = {one: journals.Front(one) for one in JOURNALS if os.path.isfile(one)}
    empty = [one for one, front in fronts.items() if not front.size]
    broken = [one for one, front in fronts.items() if front.size and not front.is_whole]
    if empty:
        yield f"there is no journal of a provider here: {', '.join(empty)} is empty"
    if broken:
        yield f"{', '.join(broken)} is no whole journal: something else wrote to it, or a copy was cut"
    if fronts and not empty and not broken:
        yield from other_directory(before, {front.digest for front in fronts.values()})


def other_directory(before, digests):
    kept, given = ", ".join(one[:16] + ".." for one in digests if one), digest_of_input(before)
    if given and {given} == digests:
        yield "these journals were made with this directory, and an entry doesn't follow from those before it"
        yield "something else wrote to a journal"
        return
    sure, other = ("", f", and this one has {given[:16]}..") if given else (", where the line says `directory`", "")
    yield f"the directory is another than the one that these journals were made with{sure} (digest {kept}{other})"
    yield "a provider, domain, key, zone, limit, account, its quota or its key has changed, or the folder is another's"


def digest_of_input(before):
    """The digest of the directory of the input, where that is a file and the directory can be read."""
    import directory

    if before.place is None:
        return None
    try:
        text = os.pread(0, 1 << 30, before.place)
    except OSError:
        return None
    read = directory.Directory(directory.parted(text)[0])
    return None if read.faults else read.digest()


def no_clock(_):
    yield "the system's clock couldn't be asked, or tells a moment before 1970 or past 2099"


def no_door(_):
    yield f"the port 8125 of 127.0.0.1 couldn't be listened at{listener()}"


def listener():
    try:
        with open("/proc/net/tcp", encoding="ascii") as lines:
            listened = {words[1] for words in map(str.split, lines) if words[3] == "0A"}
    except OSError:
        return ""
    # (of this machine's own address, or of all: hexadecimal, and 1FBD is 8125)
    return ": another program listens there" if listened & {"0100007F:1FBD", "00000000:1FBD"} else ""


def no_read(_):
    yield "a disk failed while entries were read; there is no row `totals`, and what was written is a front"


def no_entry(_):
    yield "an envelope that a journal keeps isn't what was taken: something else wrote to it"
    yield "what was written is a front; there is no row `totals`"


STATUSES = {
    2: usage,
    3: refused,
    4: no_input,
    5: no_output,
    6: no_memory,
    7: no_journal,
    8: not_empty,
    9: not_fit,
    10: no_clock,
    11: no_door,
    12: refused,
    13: no_read,
    14: no_entry,
}
