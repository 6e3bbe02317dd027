"""The journals of a folder: copies of them, and what stands at their front. docs/formats.md, `Journals`."""

import os
import re
import shutil
import tempfile

from console import Trouble

NAME = re.compile(r"pec-(0|[1-9][0-9]?)\.journal")
HEADER, GATE = b"PECJRN1\n", 5
# Tags of the entry that a journal begins with: of version 1, of version 2.
STARTS = (0, 10)


def names(folder):
    """The journals that are there, by the numbers of their providers."""
    found = [(int(NAME.fullmatch(one).group(1)), one) for one in os.listdir(folder) if NAME.fullmatch(one)]
    return [one for _, one in sorted(found)]


class Front:
    """What a journal looks like: whether its gates and lengths are whole, how many entries it has, and the digest of the
    directory that it was made with."""

    def __init__(self, path):
        self.is_whole, self.entries, self.digest = False, 0, None
        with open(path, "rb") as file:
            self.size = os.fstat(file.fileno()).st_size
            if file.read(len(HEADER)) == HEADER:
                self.look(file)

    def look(self, file):
        at = len(HEADER)
        while (front := file.read(GATE)) and front[0] == 1 and len(front) == GATE:
            length = int.from_bytes(front[1:], "big")
            at += GATE + length
            if at > self.size:
                return
            if not self.entries:
                entry = file.read(37)
                self.digest = entry[5:].hex() if len(entry) == 37 and entry[0] in STARTS else None
            self.entries += 1
            file.seek(at)
        self.is_whole = front[:1] not in (b"", b"\1")


class Copy:
    """A copy of the journals of a folder, in a folder of its own that is gone at the end. A program may write to them
    meanwhile: an entry is behind a gate that is opened last, so a copy has the entries up to some moment. The original files
    are only read."""

    def __init__(self, folder):
        self.folder = folder

    def __enter__(self):
        if not os.path.isdir(self.folder) or not names(self.folder):
            raise Trouble(f"{self.folder} has no journals: files named pec-0.journal and on")
        self.kept = tempfile.TemporaryDirectory(prefix="pec-copy-")
        try:
            for one in names(self.folder):
                shutil.copyfile(os.path.join(self.folder, one), os.path.join(self.kept.name, one))
        except OSError as why:
            self.kept.cleanup()
            words = f"the journals can't be copied: {why.filename}: {why.strerror} (TMPDIR names another place)"
            raise Trouble(words) from None
        return self.kept.name

    def __exit__(self, *_):
        self.kept.cleanup()
