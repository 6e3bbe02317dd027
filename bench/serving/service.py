"""The program as a service on its port, and requests to it."""

import atexit
import os
import socket
import subprocess
import sys
import time

TOP = os.path.dirname(os.path.dirname(os.path.dirname(os.path.realpath(__file__))))
PROGRAM = os.path.realpath(os.environ.get("PEC", os.path.join(TOP, "crates", "pec", "out", "pec")))
PORT = 8125
LIMIT = 10  # seconds that the program gives a connection


def provider(name, people):
    text = (
        f'[[provider]]\nname = "{name}"\nmailReceipt = "ricevute@{name}.example"\n'
        f'managedDomains = ["{name}.example"]\nkey = "{name.encode().hex() * 8}"\nzone = "UTC0"\n'
    )
    for one in people:
        text += f'[[provider.account]]\naddress = "{one}@{name}.example"\nquota = 1000000\nkey = "k-{one}"\n'
    return text


DIRECTORY = provider("alfa", ["alice", "anna"]) + provider("beta", ["bob", "carl"])
PEOPLE = ["alice@alfa.example", "anna@alfa.example", "bob@beta.example", "carl@beta.example"]


def key(address):
    return "k-" + address.split("@")[0]


def port_is_free():
    with socket.socket() as door:
        door.setsockopt(socket.SOL_SOCKET, socket.SO_REUSEADDR, 1)
        try:
            door.bind(("127.0.0.1", PORT))
            door.listen()
        except OSError:
            return False
    return True


class Service:
    """A run of the program in a folder, for so many connections. Its lines go to a file."""

    def __init__(self, folder, connections, directory=DIRECTORY):
        if not os.path.exists(PROGRAM):
            sys.exit("bin/build first")
        if not port_is_free():
            sys.exit(f"another program listens on the port {PORT}")
        self.path = os.path.join(folder, "lines")
        with open(self.path, "wb") as lines:
            self.child = subprocess.Popen(
                [PROGRAM, "serve", str(connections)], cwd=folder, stdin=subprocess.PIPE, stdout=lines
            )
        atexit.register(self.child.kill)
        try:
            self.child.stdin.write(directory.encode())
            self.child.stdin.close()
        except BrokenPipeError:
            pass

    def runs(self):
        return self.child.poll() is None

    def kill(self):
        self.child.kill()
        return self.child.wait()

    def ended(self, patience=30):
        """The status with which it ends by itself, or None where it goes on."""
        try:
            return self.child.wait(patience)
        except subprocess.TimeoutExpired:
            return None

    def lines(self):
        with open(self.path, encoding="ascii") as lines:
            return lines.read().split("\n")[:-1]

    def outcomes(self):
        """What became of each connection, in order."""
        return [line[5:] for line in self.lines() if line.startswith("http ")]

    def connected(self, patience=60):
        """A connection; it waits for the port to be opened. None where the program ends before."""
        until = time.monotonic() + patience
        while time.monotonic() < until:
            try:
                return socket.create_connection(("127.0.0.1", PORT), patience)
            except OSError:
                if not self.runs():
                    return None
                time.sleep(0.002)
        return None

    def asked(self, text):
        """What is answered to these bytes: a status and a body. None where no whole answer came."""
        link = self.connected()
        if link is None:
            return None
        with link:
            try:
                link.sendall(text)
                return answer(to_the_end(link))
            except OSError:
                return None


def to_the_end(link):
    """All that comes over a connection until its end."""
    text = b""
    while piece := link.recv(65536):
        text += piece
    return text


def answer(text):
    """The status and the body of a whole answer, or None."""
    head, end, body = text.partition(b"\r\n\r\n")
    lines = head.split(b"\r\n")
    words = lines[0].split(b" ")
    if not end or words[0] != b"HTTP/1.1" or not words[1].isdigit():
        return None
    fields = dict(line.split(b": ", 1) for line in lines[1:])
    if fields[b"connection"] != b"close" or int(fields[b"content-length"]) != len(body):
        return None
    return int(words[1]), body


def look(address, what):
    return f"GET /mail/{address}/{what} HTTP/1.1\r\nhost: localhost\r\nx-key: {key(address)}\r\n\r\n".encode()


def submission(sender, path, message):
    head = (
        f"POST /mail/{sender}/submit HTTP/1.1\r\nhost: localhost\r\nx-key: {key(sender)}\r\n"
        f"x-path: {','.join(path)}\r\ncontent-length: {len(message)}\r\n\r\n"
    )
    return head.encode() + message


def message(number, size=0):
    """A message of its own from one of four people to two others: its sender, its path and its bytes."""
    sender, to, copy = PEOPLE[number % 4], PEOPLE[(number + 1) % 4], PEOPLE[(number + 3) % 4]
    head = f"From: {sender}\r\nTo: {to}\r\nCc: {copy}\r\nSubject: {number}\r\n\r\n"
    lines = "Salve\r\n" * max(1, (size - len(head)) // 7)
    return sender, [to, copy], (head + lines).encode()
