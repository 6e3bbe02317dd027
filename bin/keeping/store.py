"""The folder of a service, its journals, and copies of them.

A service keeps its journals in FOLDER/journals, which is there only when all of them were made. A journal only grows: its
bytes before the closed gate stay, so a copy that is made while the program goes on is caught up later by what came behind.
docs/formats.md, Journals, has the form."""

import fcntl
import os
import shutil

import child
from journals import names

LAST_MOMENT = 4_102_444_799
HEADER = b"PECJRN1\n"


class Held(Exception):
    """Another process holds the folder."""


def folder_of(service):
    return os.path.join(service, "journals")


def hold(service):
    """Keeps other services and copies out of the folder until this process ends, or raises Held."""
    lock = os.open(os.path.join(service, "lock"), os.O_CREAT | os.O_RDWR, 0o600)
    try:
        fcntl.flock(lock, fcntl.LOCK_EX | fcntl.LOCK_NB)
    except BlockingIOError:
        os.close(lock)
        raise Held from None
    return lock


def sync(path):
    at = os.open(path, os.O_RDONLY)
    try:
        os.fsync(at)
    finally:
        os.close(at)


def make(program, service, directory):
    """Makes all journals beside, and moves them into their place at once. The status of the run that makes them."""
    beside = os.path.join(service, "making")
    shutil.rmtree(beside, ignore_errors=True)
    os.mkdir(beside)
    status, written = child.played(program, ["run"], beside, child.with_script(directory))
    if status == 0:
        sync(beside)
        os.rename(beside, folder_of(service))
        sync(service)
    return status, written


def closed_gate(file):
    """The place of the gate behind the last entry that is whole; what stands from there on may become another."""
    if os.pread(file, len(HEADER), 0) != HEADER:
        return 0
    at, size = len(HEADER), os.fstat(file).st_size
    while (head := os.pread(file, 5, at))[:1] == b"\1":
        behind = at + 5 + int.from_bytes(head[1:], "big")
        if len(head) < 5 or behind >= size:
            break
        at = behind
    return at


def copy_from(source, to, at):
    """Copies what a file has from a place on."""
    end = os.fstat(source).st_size
    os.lseek(to, at, os.SEEK_SET)
    while at < end and (count := os.sendfile(to, source, at, min(end - at, 1 << 26))):
        at += count
    os.ftruncate(to, at)


class Copy:
    """Copies of all journals of a folder."""

    def __init__(self, folder, to):
        self.pairs = []
        for name in names(folder):
            source = os.open(os.path.join(folder, name), os.O_RDONLY)
            copy = os.open(os.path.join(to, name), os.O_CREAT | os.O_EXCL | os.O_RDWR, 0o600)
            self.pairs.append((source, copy))

    def first(self):
        """While the program goes on."""
        for source, copy in self.pairs:
            copy_from(source, copy, 0)

    def rest(self):
        """While it stands still: what has come behind the gates that are closed in the copies."""
        for source, copy in self.pairs:
            copy_from(source, copy, closed_gate(copy))

    def close(self):
        size = 0
        for source, copy in self.pairs:
            os.fsync(copy)
            size += os.fstat(copy).st_size
            os.close(source)
            os.close(copy)
        return size


def extracted(program, folder, directory):
    """Reads all of a folder's journals by an extract of all moments: its status, and the totals that it ends with."""
    status, written = child.played(program, ["extract", "0", str(LAST_MOMENT)], folder, directory)
    return status, written.rstrip("\n").rpartition("\n")[2]
