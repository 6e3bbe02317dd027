"""Rows that are played with the program, each in a folder of its own."""

import os
import re
import shlex
import socket
import subprocess
import tempfile
import time

import journals
from reading import Step, Texts, Wrong, bytes_of

# The status words by the program's numbers.
STATUSES = {
    0: "done", 2: "usage", 3: "refused", 4: "read-fault", 5: "write-fault", 6: "no-memory", 7: "start-fault", 8: "not-empty",
    9: "not-fit", 10: "clock-fault", 11: "door-fault", 12: "input-too-long", 13: "disk-fault", 14: "changed",
}  # fmt: skip
# Seconds: a run, and a connection, may take so long on a machine with other work.
PORT, SECONDS, WAIT = 8125, 110, 60
# Keys of rows that only devices in memory can play.
MEMORY = {
    "screens", "spares", "piece", "keeps", "fails-disk", "each-disk", "fails-read", "each-read", "fails-write", "each-write",
    "fails-clock", "fails-door", "fails-connection",
}  # fmt: skip


def directory_of(row, step, folder):
    """The bytes of a run's directory."""
    names = [step.directory] if step.directory else row.key("directory")
    if len(names) != 1:
        raise Wrong("a row has one directory, or an input")
    if not re.fullmatch(r"[a-z-]+\.(toml|ldif)", names[0]):
        raise Wrong(f"`{names[0]}` is no file of a directory")
    try:
        with open(os.path.join(folder, names[0]), "rb") as file:
            text = file.read()
    except OSError as why:
        raise Wrong(str(why)) from None
    for change in row.key("replace"):
        old, arrow, new = change.partition(" -> ")
        if not arrow or bytes_of(old) not in text:
            raise Wrong(f"`@replace {change}`: the directory has no such text")
        text = text.replace(bytes_of(old), bytes_of(new), 1)
    for more in row.key("add"):
        text += bytes_of(more)
    return text


def journals_of(row, folder, texts):
    """The journals that a row lays, each with the number of its provider: `@journal 0 ENTRIES`, or `@journal 0 file TEXT` for
    the very bytes."""
    for value in row.key("journal"):
        provider, _, said = value.partition(" ")
        if not provider.isdigit():
            raise Wrong(f"`@journal {value}` names no provider")
        if said.startswith("file "):
            yield provider, bytes_of(said[5:])
        else:
            yield provider, journals.journal(said, directory_of(row, Step(""), folder), texts)


def input_of(row, step, folder, texts):
    """What a run is given on standard input."""
    if row.key("input"):
        text = b"".join(texts.filled(one) if one else b"" for one in row.key("input"))
    else:
        text = directory_of(row, step, folder)
        form = step.words.split(" ")[0]
        if form not in ("ldif", "extract", "serve"):
            text += b"%%\n"
    text += b"".join(texts.script(line) + b"\n" for line in step.lines)
    if row.key("ends") == ["crlf"]:
        text = text.replace(b"\n", b"\r\n")
    elif row.key("ends") == ["cut"]:
        text = text.removesuffix(b"\n")
    elif row.key("ends"):
        raise Wrong("`@ends` is `crlf` or `cut`")
    return text


def request_of(lines, texts):
    """A request: each line with its end, but a line that is a text in braces has no other end than its own."""
    whole = b""
    for line in lines:
        found = re.fullmatch(r"\{([^{}]*)\}", line)
        whole += texts.text(found[1]) if found else bytes_of(texts.words(line)) + b"\r\n"
    return whole


def reply_of(lines, texts):
    """A pattern of a reply: the lines of its head and the empty one end with CRLF, those of its body with LF."""
    head, pattern = True, ""
    for line in lines:
        found = re.fullmatch(r"\{([^{}]*)\}", line)
        if found and not head:
            pattern += re.escape(texts.text(found[1]).decode("latin-1"))
        else:
            pattern += pattern_of(line, texts, set()) + ("\r\n" if head else "\n")
        head = head and line != ""
    return pattern


def pattern_of(line, texts, kept):
    """A pattern of a line that is written (`...` is any lines, and a `\\` at its end says that it has none): `{NAME}` is the base64 of a text, or keeps what comes; `{moment}` is a moment
    and `{digest}` a digest, whatever they are; behind `\\` the line stands as it is."""
    line = line[1:] if line.startswith("\\") else line
    pattern = ""
    for piece in re.split(r"(\{[^{}]*\})", texts.words(line)):
        if not piece.startswith("{"):
            pattern += re.escape(piece)
        elif piece in ("{moment}", "{digest}"):
            pattern += r"\d{10}" if piece == "{moment}" else "[0-9a-f]{64}"
        elif piece[1:-1].partition(" ")[0] in texts.known:
            pattern += re.escape(texts.script(piece).decode())
        elif piece[1:-1] in kept:
            pattern += f"(?P={piece[1:-1]})"
        else:
            kept.add(piece[1:-1])
            pattern += f"(?P<{piece[1:-1]}>[A-Za-z0-9+/=]*)"
    return pattern


class Letters:
    """What has to be written, as a pattern, with the lines that letters have which are kept on the way."""

    def __init__(self, step, texts):
        self.pattern, self.kept, self.lines, last = "", set(), {}, None
        for line in step.wanted:
            if line == "|" or line.startswith(("| ", "|! ")):
                if last is None:
                    raise Wrong(f"`{line}` stands behind no letter")
                self.lines.setdefault(last, []).append(line)
                continue
            found = re.search(r"\{([A-Z][A-Z0-9-]*)\}", line)
            last = found[1] if found else None
            if line == "...":
                self.pattern += r"(?:.*\n)*"
            elif line.endswith("\\") and line != "\\":
                self.pattern += pattern_of(line[:-1], texts, self.kept)
            else:
                self.pattern += pattern_of(line, texts, self.kept) + "\n"


def lettered(lines, text, texts):
    """Whether a letter has these lines: `|! text` in no line, `| ...` for any lines, and each other line as it stands."""
    wanted = ""
    for line in lines:
        if line.startswith("|! "):
            if bytes_of(line[3:]) in text:
                return False
        elif line == "| ...":
            wanted += "(?:.*\r\n)*"
        else:
            wanted += re.escape(bytes_of(texts.words(line[2:])).decode("latin-1")) + "\r\n"
    return not wanted or re.fullmatch(wanted, text.decode("latin-1")) is not None


def compared(step, texts, wrote):
    """What is wrong about what a run wrote: nothing, where it is as it has to be. What is kept is known behind it."""
    import base64
    import binascii

    wanted = Letters(step, texts)
    found = re.fullmatch(wanted.pattern, wrote.decode("latin-1"))
    if found is None:
        return "wrote otherwise"
    for name in wanted.kept:
        try:
            texts.known[name] = base64.b64decode(found[name], validate=True)
        except binascii.Error:
            return f"{name} is no base64"
    for name, lines in wanted.lines.items():
        if not lettered(lines, texts.known[name], texts):
            return f"the letter {name} is otherwise:\n{texts.known[name].decode('latin-1')}"
    return ""


def met(meetings, texts):
    """The replies to requests, one connection each."""
    replies = []
    for request, _ in meetings:
        end = time.monotonic() + WAIT
        while True:
            try:
                client = socket.create_connection(("127.0.0.1", PORT), timeout=WAIT)
                break
            except ConnectionRefusedError:
                if time.monotonic() > end:
                    raise Wrong(f"nobody serves at port {PORT}") from None
                time.sleep(0.01)
        with client:
            client.sendall(request_of(request, texts))
            client.shutdown(socket.SHUT_WR)
            reply = b""
            while piece := client.recv(65536):
                reply += piece
        replies.append((False, reply))
    return replies


def run_step(program, row, step, folder, home, texts):
    """What a run writes, its status, and its replies."""
    words = shlex.split(step.words)
    given = input_of(row, step, folder, texts)
    with tempfile.TemporaryFile() as source, tempfile.TemporaryFile() as sink:
        source.write(given)
        source.seek(0)
        child = subprocess.Popen([program, *words], cwd=home, stdin=source, stdout=sink, stderr=subprocess.DEVNULL)
        try:
            replies = met(step.meetings, texts)
            status = child.wait(SECONDS)
        finally:
            if child.poll() is None:
                child.kill()
                child.wait()
        sink.seek(0)
        return sink.read(), STATUSES.get(status, str(status)), replies


def wrong_reply(step, replies, texts):
    """What is wrong about replies, each of which comes with whether its connection failed. `<! unmet` stands for a request
    that nobody takes, `<! nothing` for one that isn't answered, and `<! front` before a reply that is cut."""
    met = [wanted for _, wanted in step.meetings if wanted != ["<! unmet"]]
    if len(met) != len(replies):
        return f"{len(replies)} replies"
    for place, (wanted, (failed, came)) in enumerate(zip(met, replies), 1):
        came, kind = came.decode("latin-1"), wanted[0] if wanted else "<! nothing"
        if kind == "<! front":
            whole = re.sub(r"\\(.)", r"\1", reply_of(wanted[1:], texts))
            right = failed and whole.startswith(came) and (not whole or came != whole)
        elif kind == "<! nothing":
            right = came == ""
        else:
            right = not failed and re.fullmatch(reply_of(wanted, texts), came) is not None
        if not right:
            return f"reply {place} is otherwise:\n{came}"
    return ""


def steps_wrong(row, file_texts, ran):
    """What is wrong with a row whose runs are played by `ran`; nothing where all is as it has to be."""
    texts = Texts(file_texts)
    for step in row.steps:
        if not isinstance(step, Step):
            texts.let(step)
            continue
        wrote, status, replies = ran(step, texts)
        why = compared(step, texts, wrote) or wrong_reply(step, replies, texts)
        if status != step.status:
            why = f"status {status}"
        if why:
            return told(step, texts, wrote, status, why)
    return ""


def told(step, texts, wrote, status, why):
    """A wrong run, with what was wanted and what came."""
    lines = [line for line in step.wanted if not line.startswith("|")]
    wanted = "".join(f"  {texts.words(line)}\n" for line in lines) + f"  [{step.status}]\n"
    came = "".join(f"  {line}\n" for line in wrote.decode("latin-1").split("\n")[:-1])
    rest = wrote.decode("latin-1").split("\n")[-1]
    return f"$ {step.words}: {why}\nwanted:\n{wanted}came:\n{came}{'  ' + rest + chr(10) if rest else ''}  [{status}]"


def lay(row, home, folder, texts):
    """Makes a folder new, with the journals that the row lays in it."""
    for name in os.listdir(home):
        os.remove(os.path.join(home, name))
    for provider, content in journals_of(row, folder, texts):
        with open(os.path.join(home, f"pec-{provider}.journal"), "wb") as file:
            file.write(content)


def played(program, row, texts, folder):
    """What is wrong with a row that the program plays."""
    with tempfile.TemporaryDirectory(prefix="pec-row-") as home:

        def ran(step, known):
            if step.is_new or step is row.first():
                lay(row, home, folder, known)
            return run_step(program, row, step, folder, home, known)

        return steps_wrong(row, texts, ran)
