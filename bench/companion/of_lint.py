"""Faults of directories and scripts with their places; and the same verdict as the program's on texts that were changed at
random, which lint has to reach without asking it."""

import os
import random
import re
import tempfile

from place import DELIVERY, DIRECTORY, PROGRAM, companion, example, ran

# It finds no program here, so what it says is its own.
ALONE = {**os.environ, "PEC": "/nowhere/pec"}
LDIF = example("registry.pec").partition(b"%%\n")[0]
SCRIPT = DELIVERY.partition(b"%%\n")[2]
TEXTS = [DIRECTORY, DIRECTORY + b"limit = 9\n", LDIF]
# What stands in lines, for other things to be put in its place.
PIECES = b"0 -1 1704186000 99999999999 beta alfa @ a@b alice@alfa.example bob@beta.example \" [ = # : :: < UTC0 CET-1CEST".split()
PIECES += [b"", b" ", b": ", b"\xff", b"\r", b"\n", b"A" * 40]
ZONES = """
UTC0 UTC :UTC CET+1 C1T0 A0 AB0 CET-01 CET-001 CET-25 CET-24:59:59 CET-1:60 Europe/Rome <UTC>0 <+00>0 <é>0 <+0330>-3:30
CET-1CEST CET-1,M3.5.0,M10.5.0 CET-1CEST,M3.5.0,M10.5.0/3 CET-1CEST-2,M3.5.0,M10.5.0 CET-1CEST,M3.5.0,M10.5.0x
CET-1CEST,M13.1.0,M10.5.0 CET-1CEST,M3.6.0,M10.5.0 CET-1CEST,M3.5.7,M10.5.0 CET-1CEST,M03.5.0,M10.5.0 UTC0,M3.5.0,M10.5.0
CET-1CEST,M3.5.0/168,M10.5.0 CET-1CEST,M3.5.0/-167,M10.5.0 CET-1CEST,M3.5.0/+2,M10.5.0 CET-1CEST,M3.5.0/3:00:00,M10.5.0/2:60
CET-1CEST,J0,J300 CET-1CEST,366,1 EST5EDT,J60,J300 EST5EDT,0,300/25 AAAAAAAAAAAAAAA0 AAAAAAAAAAAAAAAA0 <AAAAAAAAAAAAAAAA>0
""".split()


def told(seen):
    """What lint says that the program tells of the text, in order; one that was folded is put together."""
    return re.findall(r"\[((?:refused|too-long) [^\]]*)\]", " ".join(seen.text().split()))


def of_places():
    """Each fault with its line and column, and what it means."""
    carl = "provider 1, `beta`, account 2, `carl@beta.example`"
    for old, new, said in [
        (b'name = "beta"', b'name = "Beta"', "f:16:1: provider 1, `Beta`: `name` has to be 1 to 32 lower-case letters"),
        (b"quota = 1\n", b"  quota = -1\n", f"f:27:3: {carl}: `quota` has to be a number from 0"),
        (b'"carl@beta.example"', b'"carl@x.example"', f"f:26:1: {carl.replace('beta.', 'x.')}: its address isn't in one"),
        (b'key = "1011', b'key = "10 11', "f:19:1: provider 1, `beta`: `key` has to be 32 to 128 hexadecimal digits"),
        (b"quota = 1\n", b"quota = 1\nquta = 5\n", "f:28:1: note: `quta` isn't looked at: is it `quota`?"),
        (b'"carl@beta.example"', b'"bob@beta.example"', f"f:26:1: {carl.replace('carl', 'bob')}: its address is taken"),
        (b"[[provider.account]]", b"[[provider.account]", "it is no TOML"),
    ]:
        given_lint(DIRECTORY.replace(old, new, 1), "note:" not in said, said)
    for old, new, said in [
        (b"pecQuota: 100", b"pecQuota: many", "f:57: provider 0, `alfa`, account 1, `alice@alfa.example`: `quota` has to be"),
        (b"version: 1", b"version: 2", "f:1: it looks like LDIF, whose first line has to be exactly `version: 1`"),
        (b"pecName: alfa", b"pecName alfa", "it is no `name: value`"),
        (b"pecQuota: 100", b"pecQuotas: 100\npecQuota: 100", "note: `pecquotas` isn't looked at: is it `pecquota`?"),
    ]:
        given_lint(LDIF.replace(old, new, 1), "note:" not in said, said)


def given_lint(text, is_refused, *said, words=()):
    """What lint says of a text, by its own reading."""
    with tempfile.TemporaryDirectory() as folder:
        with open(os.path.join(folder, "f"), "wb") as file:
            file.write(text)
        seen = companion("lint", *words, "f", folder=folder, env=ALONE)
        seen.must(1 if is_refused else 0, *said, err=["the program isn't built, and wasn't asked"])
        if os.listdir(folder) != ["f"]:
            seen.fail("it made a file")
    return seen


def of_newer_toml():
    """A form of TOML 1.1: the program reads it, and Python's reader doesn't."""
    fields = b'name = "alfa", mailReceipt = "ricevute@alfa.example", managedDomains = ["alfa.example"], zone = "UTC0",\n'
    text = b"provider = [{" + fields + b'key = "000102030405060708090a0b0c0d0e0f"\n}]\n'
    given_lint(text, True, "it is no TOML")
    companion("lint", "-", given=text).must(0, exact=b"", err=["the program takes this directory"])
    companion("lint", "-", given=text + b"%%\ntick beta 1\n").must(1, "`beta`, is no provider of the directory: alfa")


def of_scripts():
    submit = next(line for line in SCRIPT.split(b"\n") if line.startswith(b"submit"))
    front = DIRECTORY + b"%%\n"
    wrapped = submit[: submit.rindex(b" ") + 77] + b"\n" + submit[submit.rindex(b" ") + 77 :] + b"\nbook alice@alfa.example\n"
    seen = given_lint(front + wrapped, True, "f:31: it goes on with the base64 of the line before, which was wrapped", "bin/letter")
    if told(seen) != ["refused line 2 unknown-word"]:
        seen.fail("one fault is wanted")
    given_lint(front + b"tick alfa 9\ntick beta 8\ntick alfa 8\n", False, "f:32: note: the moment 8 is before 9")
    given_lint(front + submit.replace(b" alice@", b" nobody@", 1) + b"\n", False, "nobody@alfa.example is no account of alfa")
    gamma = "f:32: word 2, `gamma`, is no provider of the directory: alfa, beta"
    given_lint(front + b"# x\n\ntick gamma 1\nrond 1\n", True, gamma, "f:33: `rond` is no command")
    wrong = "f:32: it isn't the base64 of one letter [refused line 3 bad-base64 1]"
    given_lint(front + b"\nAAA=\nAA\n", True, wrong, words=["--dossier"])
    given_lint(DIRECTORY, True, "[refused no-script]", words=["--dossier"])
    companion("lint", "-", given=DELIVERY).must(0, exact=b"")
    companion("lint", "-", given=DIRECTORY.replace(b"alfa.example\"]", b"\\u0061lfa.example\"]")).must(0, exact=b"")
    for name in ("archives", "crash", "registry", "virus"):
        given_lint(example(name + ".pec"), False)


def changed(chance, text):
    """The text with a piece put at a place, in another's place, or a line gone, doubled or moved."""
    for _ in range(chance.choice([1, 1, 1, 2])):
        lines = text.split(b"\n")
        at = chance.randrange(len(lines))
        what = chance.randrange(5)
        if what == 0:
            del lines[at]
        elif what == 1:
            lines.insert(chance.randrange(len(lines) + 1), lines[at])
        else:
            line = lines[at]
            begin = chance.randrange(len(line) + 1)
            end = min(len(line), begin + (chance.randrange(12) if what > 2 else 0))
            lines[at] = line[:begin] + chance.choice(PIECES) + line[end:]
        text = b"\n".join(lines)
    return text


def same(text, program, what):
    """The first fault that lint tells is the program's, or both have none."""
    seen = companion("lint", "-", given=text, env=ALONE)
    said = told(seen)
    if said[:1] != program or (seen.status == 1) != bool(program):
        seen.fail(f"the program says {program} of {what}:\n{text!r}")
    return bool(program)


def of_directories(chance, count):
    refused = 0
    for _ in range(count):
        text = changed(chance, chance.choice(TEXTS))
        run = ran([PROGRAM, "ldif"], text)
        refused += same(text, run.text().split("\n")[:1] if run.status else [], "a directory")
    return refused


def of_zones():
    for zone in ZONES:
        text = DIRECTORY.replace(b"CET-1CEST,M3.5.0,M10.5.0/3", zone.encode(), 1)
        run = ran([PROGRAM, "ldif"], text)
        same(text, run.text().split("\n")[:1] if run.status else [], f"the zone {zone}")


def of_lines(chance, count):
    """Scripts of a few lines, played in a folder of their own."""
    refused = 0
    lines = SCRIPT.rstrip(b"\n").split(b"\n")
    lines += [b"tick alfa 1704186001", b"lose alfa beta 0", b"inject alfa beta QUFB", b"crash alfa", b"screen alfa 0"]
    lines += [b"archive bob@beta.example 1704186001 0", b"show bob@beta.example 0"]
    for _ in range(count):
        script = changed(chance, b"\n".join(chance.sample(lines, 4)))
        text = DIRECTORY + b"%%\n" + script
        with tempfile.TemporaryDirectory() as folder:
            run = ran([PROGRAM, "run"], text, folder)
        said = run.text().rstrip("\n").split("\n")[-1:] if run.status else []
        refused += same(text, said, "a script")
    return refused


def play(count=150, seed=1):
    of_places()
    of_newer_toml()
    of_scripts()
    of_zones()
    chance = random.Random(seed)
    directories, lines = of_directories(chance, count), of_lines(chance, count)
    refused = f"{directories} and {lines} of them refused"
    print(f"lint: {count} directories and {count} scripts from seed {seed}, {refused}: the program says the same of each")
