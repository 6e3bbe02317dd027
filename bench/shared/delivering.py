"""Messages on their way from submission to acknowledged receipts over two providers on real files, and raw appends of as many
entries, each by a write, a sync, a write of one byte and a sync."""

import base64
import os
import subprocess
import sys
import tempfile
import time


def provider(name, account, key):
    return (
        f'[[provider]]\nname = "{name}"\nmailReceipt = "ricevute@{name}.example"\nmanagedDomains = ["{name}.example"]\n'
        f'key = "{key}"\nzone = "UTC0"\n'
        f'[[provider.account]]\naddress = "{account}@{name}.example"\nquota = 1000000\nkey = "{account}"\n'
    )


def script(messages):
    """Fifty messages at a time, and four rounds behind them; six rounds at the end."""
    text = [provider("alfa", "alice", "00" * 16) + provider("beta", "bob", "11" * 16) + "%%\n"]
    head = b"From: alice@alfa.example\r\nTo: bob@beta.example\r\nSubject: Ciao\r\n\r\nSalve\r\n"
    message, moment = base64.b64encode(head).decode(), 1704186000
    for number in range(messages):
        text.append(f"submit alfa {moment} alice@alfa.example bob@beta.example {message}\n")
        if number % 50 == 49:
            text += [f"round {moment + more}\n" for more in range(1, 5)]
            moment += 5
    text += [f"round {moment + more}\n" for more in range(1, 7)]
    return "".join(text + ["mailbox bob@beta.example\n"]).encode()


def raw(folder, entries):
    at = os.open(os.path.join(folder, "raw"), os.O_CREAT | os.O_RDWR)
    begin = time.monotonic()
    for number in range(entries):
        os.pwrite(at, b"x" * 600, number * 605 + 1)
        os.fsync(at)
        os.pwrite(at, b"\1", number * 605)
        os.fsync(at)
    os.close(at)
    return time.monotonic() - begin


def played(program, folder, messages):
    """Seconds, seconds of processor time, and peak memory in MB of one run of the program in a folder."""
    with tempfile.TemporaryFile() as given, tempfile.TemporaryFile() as written:
        given.write(script(messages))
        given.seek(0)
        begin = time.monotonic()
        child = subprocess.Popen([program, "run"], cwd=folder, stdin=given, stdout=written)
        _, status, usage = os.wait4(child.pid, 0)
        seconds = time.monotonic() - begin
        written.seek(0)
        if status != 0 or not written.read().endswith(f"mailbox {messages}\n".encode()):
            sys.exit("not all messages came to their end")
    return seconds, usage.ru_utime + usage.ru_stime, usage.ru_maxrss / 1024


def entries(folder):
    """How many entries the journals have: each has a gate, a length and its bytes."""
    count = 0
    for provider in (0, 1):
        with open(os.path.join(folder, f"pec-{provider}.journal"), "rb") as file:
            text, at = file.read(), 8
        while text[at] == 1:
            at += 5 + int.from_bytes(text[at + 1 : at + 5], "big")
            count += 1
    return count


def turn(program, messages, place):
    """What `played` says of one run in a folder of its own, how many entries its journals have, and the seconds of raw
    appends of as many."""
    with tempfile.TemporaryDirectory(dir=place) as folder:
        ran = played(program, folder, messages)
        count = entries(folder)
        return *ran, count, raw(folder, count)
