"""Keeps `serve` running: one process and one loop, over the program's lines, knocks at its port, requests of its control
socket, and signals."""

import datetime
import os
import selectors
import signal
import socket
import time

import store
from child import PORT, Child, played, with_script
from links import Links

KNOCK = b"GET / HTTP/1.1\r\nhost: localhost\r\n\r\n"
SOON, LATEST = 1, 60  # seconds to the next knock while letters move, and at most to the next start
FIRST_WAIT = 0.25  # seconds before it is started again for the first time
ANSWERS_WITHIN = 120  # seconds in which a knock has to be answered
STOPS_WITHIN = 30  # seconds that it waits for a connection as it stops
PAUSES_FOR = 30  # seconds that a copy may have the program stand still
FATAL = {
    2: "the words are no form",
    3: "the directory is refused",
    8: "a file that is no journal stands in a journal's place",
    9: "the journals don't fit the directory",
    12: "the directory is too long",
}
REASONS = {
    0: "it has served its number",
    4: "its input couldn't be read",
    5: "its output couldn't be written",
    6: "memory was wanting",
    7: "a journal couldn't be opened: its disk failed, the folder can't be written, or another program has it",
    10: "the clock failed",
    11: f"port {PORT} is taken",
}


class Keeper:
    def __init__(self, program, directory, providers, folder, log, requests, knock):
        self.program, self.directory, self.folder, self.log = program, directory, folder, log
        self.requests, self.between = requests, knock
        self.links = Links(providers)
        self.child = self.trouble = self.status = None
        self.wait, self.starts, self.served, self.since = FIRST_WAIT, 0, 0, time.monotonic()
        self.next_start = self.next_knock = 0.0
        self.knocking = self.knock_begin = self.answered = None
        self.own = 0  # knocks whose lines haven't come yet
        self.pausing = self.paused_until = None
        self.select = selectors.DefaultSelector()

    # What comes in.

    def run(self):
        """Goes on until a signal ends it, or what can't be mended; the status."""
        self.listen()
        for number in (signal.SIGTERM, signal.SIGINT, signal.SIGHUP):
            signal.signal(number, self.signalled)
        try:
            while self.status is None:
                self.turn()
        finally:
            self.end()
        return self.status

    def listen(self):
        here, there = socket.socketpair()
        there.setblocking(False)
        signal.set_wakeup_fd(there.fileno())
        self.wake = (here, there)
        self.select.register(here, selectors.EVENT_READ, lambda: here.recv(64))
        door = socket.socket(socket.AF_UNIX)
        place = os.path.join(self.folder, "control")
        if os.path.exists(place):
            os.unlink(place)
        door.bind(place)
        door.listen()
        self.select.register(door, selectors.EVENT_READ, lambda: self.controlled(door.accept()[0]))

    def signalled(self, number, _):
        if number == signal.SIGHUP:
            self.log.again()
        else:
            self.status = 0

    def turn(self):
        now = time.monotonic()
        if self.paused_until and now > self.paused_until:
            self.log.say("a copy took too long: the service goes on without it")
            self.go_on()
        if self.child is None and now >= self.next_start:
            self.start()
        if self.child and self.knocking is None and not self.paused_until and now >= self.next_knock:
            self.knock()
        if self.knocking and not self.paused_until and now > self.knock_begin + ANSWERS_WITHIN:
            self.fails(f"a knock wasn't answered in {ANSWERS_WITHIN} s")
        for key, _ in self.select.select(0.25):
            # (what came before in this batch may have closed it)
            if self.select.get_map().get(key.fd) is key:
                key.data()

    # The program.

    def start(self):
        """Makes the journals where there are none, and starts the program."""
        if not os.path.isdir(store.folder_of(self.folder)):
            status, written = self.tried(lambda: store.make(self.program, self.folder, self.directory))
            if status != 0:
                self.ended(status, written)
                return
            self.log.say("made the journals")
        self.child = Child(self.program, self.requests, store.folder_of(self.folder), self.directory)
        self.select.register(self.child.lines, selectors.EVENT_READ, self.hear)
        self.starts, self.begin, self.next_knock, self.own = self.starts + 1, time.monotonic(), 0.0, 0
        self.log.say(f"started the program, process {self.child.process.pid}, at 127.0.0.1:{PORT}")

    def tried(self, play):
        try:
            return play()
        except OSError as why:
            return 7, str(why)

    def hear(self):
        lines, more = self.child.read()
        for line in lines:
            self.line(line)
            if self.child is None:
                return
        if not more:
            self.ended(self.child.process.wait(), "")

    def line(self, line):
        self.tell(line)
        if line in ("round", "http 201"):
            self.goes_well()
        if line == "round":
            self.round_is_over()
        elif line == "fault disk" or line.endswith((" fault disk", " down")) or "changed" in line.split(" ")[:2]:
            # (of a fault within a submission or a look only the answer says why, and then that a provider is down)
            self.fails(f"the program told: {line}")

    def tell(self, line):
        """Writes a line to the log, where it isn't of an own knock and says more than that a clock was looked at."""
        self.links.hear(line)
        self.served += line.startswith("http ")
        if line == "http 404" and self.own:
            self.own -= 1
        elif line not in ("round", "ticked"):
            self.log.say(line)

    def goes_well(self):
        """A message was stored, or a round went by, of which a fault would have been told before its end."""
        self.wait = FIRST_WAIT
        if self.trouble:
            self.trouble = None
            self.log.say("all is well again")

    def round_is_over(self):
        if self.links.moved():
            self.next_knock = min(self.next_knock, time.monotonic() + SOON)
        if self.links.only_repeat():
            self.settle()

    def fails(self, why):
        """Stops the program, and starts it again later."""
        self.trouble = why
        self.log.say(f"{why}; the program is stopped, and started again in {self.wait:g} s")
        self.leave()
        self.next_start = time.monotonic() + self.wait
        self.wait = min(LATEST, 2 * self.wait)

    def ended(self, status, written):
        """The program has ended by itself."""
        said = f"{(written or self.last_line()).strip()} ".lstrip() + f"(status {status})"
        self.leave()
        if status in FATAL:
            self.log.say(f"{FATAL[status]}: {said}; this can't be mended by another start")
            self.status = status
        elif status == 0:
            self.log.say(f"the program ended: {REASONS[0]}")
        else:
            self.fails(f"the program ended: {REASONS.get(status, 'it was killed' if status < 0 else 'unknown')} {said}")

    def last_line(self):
        return next((one for one in reversed(self.links.block) if one), "")

    def leave(self):
        """Nothing of the program is left."""
        if self.knocking:
            self.select.unregister(self.knocking)
            self.knocking.close()
            self.knocking = None
        if self.child:
            self.go_on()
            calm = self.child.stop(STOPS_WITHIN)
            for line in self.child.read()[0]:
                self.tell(line)
            self.select.unregister(self.child.lines)
            self.child.lines.close()
            self.child = None
            if not calm:
                self.log.say(f"a connection that had no end in {STOPS_WITHIN} s was cut")

    def settle(self):
        """Has one provider let a round pass, where links only repeat themselves."""
        moment = int(time.time())
        name, script = self.links.settling(moment)
        self.log.say(f"links only repeat themselves: {name} lets a round pass")
        self.leave()
        given, folder = with_script(self.directory, script), store.folder_of(self.folder)
        status, written = self.tried(lambda: played(self.program, ["resume"], folder, given))
        learned = sum(" learned " in line or " acked " in line for line in written.split("\n"))
        self.log.say(f"settled: status {status}, {learned} outcomes learned or acknowledged")
        # Before the moment that was used the clocks would be told as going back.
        self.next_start = time.monotonic() + max(0.0, moment + 2 - time.time())

    # Knocks, so that clocks are looked at and letters move though nobody asks.

    def knock(self):
        link = socket.socket()
        link.setblocking(False)
        link.connect_ex(("127.0.0.1", PORT))
        self.knocking, self.knock_begin = link, time.monotonic()
        self.select.register(link, selectors.EVENT_WRITE, self.knocks)

    def knocks(self):
        link = self.knocking
        try:
            if self.select.get_key(link).events == selectors.EVENT_WRITE:
                link.sendall(KNOCK)
                self.select.modify(link, selectors.EVENT_READ, self.knocks)
                return
            if link.recv(1 << 16).startswith(b"HTTP/1.1 404"):
                self.own += 1
                self.knocked(self.between)
                if self.answered is None:
                    self.log.ready()
                self.answered = time.monotonic()
                return
        except OSError:
            pass
        # it isn't open yet, or no more
        self.knocked(0.05 if time.monotonic() < self.begin + 5 else SOON)

    def knocked(self, seconds):
        self.select.unregister(self.knocking)
        self.knocking.close()
        self.knocking, self.next_knock = None, time.monotonic() + seconds

    # The control socket.

    def controlled(self, link):
        link.settimeout(5)
        try:
            asked = link.recv(64).decode("ascii", "replace").strip()
            if asked == "pause" and self.child and not self.paused_until:
                self.pause(link)
                return
            link.sendall((self.health() if asked == "health" else "failing: not now").encode())
        except OSError:
            pass
        link.close()

    def health(self):
        """One line: `well` or `failing`, and what there is to say."""
        ago = None if self.answered is None else time.monotonic() - self.answered
        late = ago is None or ago > self.between + ANSWERS_WITHIN
        why = self.trouble or ("no knock was answered" + ("" if ago is None else f" for {ago:.0f} s") if late else None)
        up = datetime.timedelta(seconds=int(time.monotonic() - self.since))
        facts = f"up {up}, {self.served:,} connections, {self.starts} starts"
        facts += "" if ago is None else f", a knock was answered {ago:.0f} s ago"
        return f"failing: {why}; {facts}" if why else f"well: {facts}"

    def pause(self, link):
        """Has the program stand still until this connection ends."""
        if not self.child.stand_still(PAUSES_FOR):
            link.sendall(b"failing: a connection has no end")
            link.close()
            return
        self.pausing, self.paused_until = link, time.monotonic() + PAUSES_FOR
        self.select.register(link, selectors.EVENT_READ, self.go_on)
        link.sendall(b"paused")

    def go_on(self):
        if self.pausing:
            self.child.signal(signal.SIGCONT)
            self.select.unregister(self.pausing)
            self.pausing.close()
        self.pausing = self.paused_until = None

    def end(self):
        self.log.stopping()
        if self.child:
            self.leave()
        os.unlink(os.path.join(self.folder, "control"))
        self.log.say("stopped")
