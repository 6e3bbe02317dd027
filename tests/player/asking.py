"""What the player is asked: calls with their texts, and runs over devices in memory."""

import shlex
import subprocess

import playing
from reading import Wrong

DISKS = 3


def asked(name, *texts):
    """A call with its texts, as the player reads it."""
    texts = [text.encode() if isinstance(text, str) else text for text in texts]
    return " ".join([name, *(str(len(text)) for text in texts)]).encode() + b"\n" + b"".join(texts)


def answers(program, calls):
    """What the player answers to calls."""
    run = subprocess.run([program], input=b"".join(calls), stdout=subprocess.PIPE, stderr=subprocess.PIPE, timeout=600)
    came, at = [], 0
    for _ in calls:
        end = run.stdout.find(b"\n", at)
        if end < 0:
            raise Wrong(f"the player ended with status {run.returncode}: {run.stderr.decode(errors='replace')}")
        size = int(run.stdout[at:end])
        came.append(run.stdout[end + 1 : end + 1 + size])
        at = end + 1 + size
    return came


def numbers(values):
    """The numbers that stand behind a key, in all its lines."""
    words = " ".join(values).split()
    if not all(word.isdigit() for word in words):
        raise Wrong(f"`{' '.join(words)}` are no numbers")
    return " ".join(words)


def lines_of(values):
    """The words behind a key, each a line; `-` is an empty one."""
    return "".join("\n" if word == "-" else f"{word}\n" for word in " ".join(values).split())


def disks(values):
    """The calls that fail of each provider's disk."""
    failing = [""] * DISKS
    for value in values:
        provider, _, calls = value.partition(" ")
        if not provider.isdigit() or int(provider) >= DISKS:
            raise Wrong(f"`{provider}` is no provider's number")
        failing[int(provider)] += f" {numbers([calls])}"
    return failing


class Devices:
    """The calls that fail, of a row or of one of its turns."""

    def __init__(self, row, disk=(), read=(), write=()):
        self.disk = disks([*row.key("fails-disk"), *disk])
        self.read, self.write = numbers([*row.key("fails-read"), *read]), numbers([*row.key("fails-write"), *write])
        self.row = row

    def run(self, step, given, texts):
        """A run that is asked."""
        words = "".join(f"{word}\n" for word in shlex.split(step.words))
        piece = (self.row.key("piece") or ["1000"])[0]
        faults = [self.read, self.write, numbers(self.row.key("fails-clock")), numbers(self.row.key("fails-door"))]
        screens, spares = lines_of(self.row.key("screens")), lines_of(self.row.key("spares"))
        broken = dict(value.split(" ", 1) for value in self.row.key("fails-connection"))
        meetings = []
        for place, (request, _) in enumerate(step.meetings):
            meetings += [playing.request_of(request, texts), numbers([broken.get(str(place), "")])]
        return asked("run", words, given, piece, *faults, screens, spares, *meetings)


def came_of(answer):
    """What a run wrote, its status, and its replies, each with whether its connection failed."""
    head, _, rest = answer.partition(b"\n")
    code, size, *replies = [int(word) for word in head.split()]
    wrote, at, came = rest[:size], size, []
    for failed, length in zip(replies[::2], replies[1::2]):
        came.append((failed == 1, rest[at : at + length]))
        at += length
    return wrote, playing.STATUSES.get(code, str(code)), came


def turns(row):
    """The devices of each turn in which a row is played: once for each call behind `@each-..`, or once."""
    found = []
    for value in row.key("each-disk"):
        provider, _, calls = value.partition(" ")
        found += [(f"call {call} of disk {provider}", Devices(row, disk=[f"{provider} {call}"])) for call in calls.split()]
    for kind in ("read", "write"):
        for call in " ".join(row.key(f"each-{kind}")).split():
            found.append((f"{kind} {call}", Devices(row, **{kind: [call]})))
    return found or [("", Devices(row))]


def played(program, row, texts, folder):
    """What is wrong with a row that is played over devices in memory."""
    for turn, devices in turns(row):
        before = []

        def ran(step, known):
            if step.is_new or step is row.first():
                before[:] = [asked("depot", numbers(row.key("keeps")), *devices.disk)]
                before.extend(asked("journal", *laid) for laid in playing.journals_of(row, folder, known))
            before.append(devices.run(step, playing.input_of(row, step, folder, known), known))
            return came_of(answers(program, before)[-1])

        why = playing.steps_wrong(row, texts, ran)
        if why:
            return f"{turn}: {why}" if turn else why
    return ""
