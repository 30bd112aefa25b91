"""Refuses each single allocation of the built program in turn, and checks how every run ends. Called by tools/fail_alloc.sh.

What a run may come to, where the right replies are those of a run in which nothing is refused:

    out of memory     it ends with status 5 and its line on the error output, and wrote a beginning of the right output
    no-memory         one reply is no-memory, and all others are those of a run in which that request isn't made
    no-memory ticket  one reply is no-memory with a ticket, finish with that ticket follows and is done, or pending where the update is held
                      back, and all other replies are those of a run in which the update is started and then finished
    cut short         a connection ended early and got a beginning of the right replies, and the server went on to its end (frames alone)
    unharmed          everything is right, as the program could do without

Anything else is wrong: another status, another reply, a run that doesn't end.
"""
import os
import select
import socket
import struct
import subprocess
import sys
import tempfile
import threading
from concurrent.futures import ThreadPoolExecutor

sys.dont_write_bytecode = True
sys.path.insert(0, os.path.join(os.path.dirname(os.path.dirname(os.path.abspath(__file__))), "clients", "python"))
from helpers import free_port  # noqa: E402

SECONDS = 60
MOST_WRONG = 20
STARVED = "blobseer: out of memory\n"
# Of 3 workers, 20 operations and the seed 7: no byte of a cell is past 255, and their mean is 7 + 2 + 9.5 + 7.5 = 26, of 960 bytes.
LOADED = "load workers 3 ops 20 seed 7\nlog size 960 versions 60 in-order 3\ngrid size 960 versions 61 sum 24960\n"
WATCHED = "watch readers 3 ops 20 seed 7\nblob size 320 versions 20 agree 3\n"
WORDS = ["--page", "4", "--providers", "3", "--replicas", "2"]

SCRIPTS = {
    "pages": "create; append 1 616263646566; append 1 5859; write 1 3 ffff; read 1 3 0 8; read 1 1 0 6; read 1 1 0 7; size 1 2; recent 1",
    "tickets": "create; start-append 1 aa; start-append 1 bb; start-write 1 0 cccc; finish 2; status 1; read 1 2 0 2; finish 3; finish 1; "
    "read 1 3 0 2; finish 1",
    "branch": "create; append 1 616263646566; append 1 5859; branch 1 1; append 2 5a; read 1 2 0 8; read 2 2 0 7; branch 2 2; write 3 0 00; "
    "read 3 3 0 7; branch 9 0",
    "sync": "create; start-append 1 aa; start-append 1 bb; finish 2; sync 1 2; sync 1 3; finish 1; sync 1 2; finish 1",
    "wide": "create; append 1 %s; start-write 1 100 %s; append 1 00; finish 1; read 1 3 0 401" % ("5a" * 400, "a5" * 200),
    "refused": "append 1 00; create; append 1 -; write 1 1 00; create; append 2 0102030405; read 2 1 1 3; append 1 01; status 2",
    # The sixteenth small write to the first page stores the page anew; the one that comes while version 18 waits is held back.
    "folds": "create; append 1 61626364; %s; read 1 16 0 4; read 1 17 0 4; start-append 1 5858; %s; write 1 2 7a; finish 1; finish 2; "
    "read 1 34 0 6" % ("; ".join("write 1 %d %02x" % (at % 4, at) for at in range(16)),
                       "; ".join("write 1 %d %02x" % (at % 3, 16 + at) for at in range(15))),
    "repairs": "create; start-append 1 aa; append 1 bbcc; start-write 1 0 dd; repair 1 1; repair 1 1; finish 1; status 1; repair 1 3; "
    "repair 1 4; repair 2 1; repair 1 0; read 1 3 0 3",
}

FILE_SCRIPTS = {
    "names": "make /a; append /a 616263646566; where /a 1 0 6; mkdir /d; make /d/b; list /; stat /a; make /a; append /d 00; read /x 0 0 0; "
    "list /a",
    "logs": "mkdir /logs; make /logs/one; make /logs/two; append /logs/one aa; append /logs/two bbcc; append /logs/one dd; "
    "read /logs/one 2 0 2; read /logs/two 1 1 1; stat /logs/one; stat /logs; list /logs; where /logs/one 2 0 2",
    "bytes": "make /a; %s; read /a 17 0 17; where /a 17 3 9; stat /a" % "; ".join("append /a %02x" % at for at in range(17)),
    "refused": "mkdir /x/y; make /x/y; mkdir /; append /a -; make /a; append /a -; read /a 1 0 1; finish 1; mkdir /..; list /",
}


# ---- requests and replies as lines and as frames

ASKS = {"create": (1, "", 0), "append": (2, "n", 1), "write": (3, "nn", 1), "start-append": (4, "n", 1), "start-write": (5, "nn", 1),
        "finish": (6, "n", 0), "read": (7, "nnnn", 0), "recent": (8, "n", 0), "size": (9, "nn", 0), "sync": (10, "nn", 0),
        "status": (11, "n", 0), "branch": (12, "nn", 0), "repair": (16, "nn", 0)}
HELLO = bytes.fromhex("000000090e0000000000000002")
GREETED = bytes.fromhex("000000098e0000000000000002")
SAYS = {129: "blob %d", 130: "version %d at %d size %d", 131: "version %d at %d size %d", 132: "ticket %d version %d at %d size %d",
        133: "ticket %d version %d at %d size %d", 134: "published %d", 136: "recent %d size %d", 137: "size %d", 138: "synced %d",
        139: "status assigned %d published %d held %d", 140: "blob %d", 144: "published %d"}
REFUSES = {1: "no-blob %d", 2: "not-published %d %d", 3: "offset-past-size %d %d", 4: "blob-too-big %d %d", 5: "too-many-versions %d",
           6: "too-many-open %d", 7: "too-many-blobs %d", 8: "already %d", 9: "no-memory", 10: "empty-update", 11: "update-too-long %d",
           13: "no-ticket %d", 14: "too-many-tickets %d", 15: "page-fault %d", 16: "pending %d held %d", 19: "bad-frame",
           20: "read-too-long %d", 22: "no-memory ticket %d"}


def frame_of(line):
    name, *fields = line.split(" ")
    operation, numbers, has_bytes = ASKS[name]
    body = struct.pack(">B%dQ" % len(numbers), operation, *map(int, fields[:len(numbers)]))
    if has_bytes and fields[-1] != "-":
        body += bytes.fromhex(fields[-1])
    return struct.pack(">I", len(body)) + body


def line_of(body):
    operation, fields = body[0], body[1:]
    if operation == 135:
        return "data " + (fields.hex() or "-")
    numbers = [int.from_bytes(fields[at:at + 8], "big") for at in range(0, len(fields), 8)]
    if operation != 255:
        return SAYS[operation] % tuple(numbers)
    if numbers[0] == 12:
        return "error range-past-size %d %d" % (int.from_bytes(fields[8:24], "big"), numbers[3])
    return "error " + REFUSES[numbers[0]] % tuple(numbers[1:])


# ---- one run

class Run:
    """The program with these words, of which one allocation is refused."""

    def __init__(self, tried, words, refused):
        self.report = tempfile.NamedTemporaryFile(dir=tried.work, delete=False).name
        environment = dict(os.environ, FAIL_ALLOC_AT=str(refused), FAIL_ALLOC_REPORT=self.report, LD_PRELOAD=tried.work + "/fail_alloc.so")
        self.process = subprocess.Popen([tried.program, *words], stdin=subprocess.PIPE, stdout=subprocess.PIPE, stderr=subprocess.PIPE,
                                        env=environment, bufsize=0)
        self.watch = threading.Timer(SECONDS, self.process.kill)
        self.watch.start()

    def ends(self):
        """Its status, and what more it wrote on both outputs, once nothing more comes in."""
        out, err = self.process.communicate()
        self.watch.cancel()
        return self.process.returncode, out.decode(), err.decode()

    def refused(self):
        """Whether one allocation was refused. A program that didn't come to its own end has told nothing, and is taken for one."""
        with open(self.report) as report:
            told = report.read().split()
        os.unlink(self.report)
        return not told or told[1] != "0"


class Lines:
    """A script of lines: each line is sent once the reply to the one before has come."""

    command = "run"

    def __init__(self, tried, refused):
        self.run = Run(tried, [self.command, "--settings", tried.settings], refused)
        self.rest = b""

    def ask(self, line):
        try:
            self.run.process.stdin.write(line.encode() + b"\n")
        except BrokenPipeError:
            pass
        while b"\n" not in self.rest:
            piece = os.read(self.run.process.stdout.fileno(), 65536)
            if not piece:
                return None
            self.rest += piece
        reply, self.rest = self.rest.split(b"\n", 1)
        return reply.decode()

    def ends(self):
        status, out, err = self.run.ends()
        return status, self.rest.decode() + out, err

    right_end = ""


class Files(Lines):
    """A script of lines about folders and files."""

    command = "files"


class Frames:
    """The same requests as frames of version 2 to a server that serves one connection."""

    def __init__(self, tried, refused):
        port = free_port()
        self.run = Run(tried, ["serve", *WORDS, "--listen", "127.0.0.1:%d" % port, "--workers", "2", "--connections", "1"], refused)
        self.socket = None
        while self.socket is None and self.run.process.poll() is None:
            try:
                self.socket = socket.create_connection(("127.0.0.1", port))
            except OSError:
                select.select([], [], [], 0.002)
        self.greeted = self.says(HELLO, len(GREETED)) == GREETED

    def says(self, frame, count):
        """Sends a frame, and takes so many bytes of what comes back; None where the connection ends before."""
        if self.socket is None:
            return None
        try:
            self.socket.sendall(frame)
            return self.take(count)
        except OSError:
            return None

    def take(self, count):
        taken = b""
        while len(taken) < count:
            piece = self.socket.recv(count - len(taken))
            if not piece:
                return None
            taken += piece
        return taken

    def ask(self, line):
        length = self.greeted and self.says(frame_of(line), 4)
        body = length and self.says(b"", struct.unpack(">I", length)[0])
        return line_of(body) if body else None

    def ends(self):
        if self.socket is not None:
            self.socket.close()
        return self.run.ends()

    right_end = "served 1\n"


# ---- what a run came to

class Wrong(Exception):
    """A run that came to nothing that is allowed."""


def judged(check, refused):
    try:
        return check()
    except Wrong as wrong:
        return "wrong, allocation %d: %s" % (refused, wrong)


def converse(talk, lines):
    """The requests that were made with their replies, and how the program ended. A ticket that is left for want of memory is finished
    at once."""
    told = []
    lines = list(lines)
    while lines:
        line = lines.pop(0)
        reply = talk.ask(line)
        if reply is None:
            break
        told.append((line, reply))
        if reply.startswith("error no-memory ticket "):
            lines.insert(0, "finish " + reply.split(" ")[-1])
    return told, talk.ends()


class Script:
    """One script over one form of talk, and the replies to it and to its variants in which nothing is refused."""

    def __init__(self, tried, talk, text):
        self.tried, self.talk, self.lines = tried, talk, text.split("; ")
        self.known = {}

    def right(self, lines):
        key = tuple(lines)
        if key not in self.known:
            told, end, _ = self.talked(0, lines)
            if len(told) != len(lines) or end != (0, self.talk.right_end, ""):
                raise Wrong("nothing was refused, and it came to %s and %s" % (told, end))
            self.known[key] = [reply for _, reply in told]
        return self.known[key]

    def check(self, told, end):
        status, out, err = end
        replies = [reply for _, reply in told]
        right = self.right(self.lines)
        begins = replies == right[:len(replies)]
        if status == 5:
            rest = self.talk.right_end if self.talk is Frames else "".join(reply + "\n" for reply in right[len(replies):])
            if begins and err == STARVED and rest.startswith(out):
                return "out of memory"
        elif end == (0, self.talk.right_end, ""):
            if replies == right:
                return "unharmed"
            if begins and self.talk is Frames:
                return "cut short"
            return self.check_reply(replies, right)
        raise Wrong("%s and %s, where %s is right" % (told, end, right))

    def check_reply(self, replies, right):
        at = next(i for i in range(len(replies)) if i == len(right) or replies[i] != right[i])
        line = self.lines[at] if at < len(self.lines) else ""
        if replies[at] == "error no-memory":
            kind, instead, wanted = "no-memory", [], []
        elif replies[at].startswith("error no-memory ticket "):
            ticket = replies[at].split(" ")[-1]
            start = line if line.startswith("start-") else "start-" + line
            kind, instead, wanted = "no-memory ticket", [start, "finish " + ticket], [replies[at]]
        else:
            raise Wrong("%s in place of %s" % (replies[at], right[at]))
        others = self.right(self.lines[:at] + instead + self.lines[at + 1:])
        if instead and not others[at].startswith("ticket %s version " % ticket):
            raise Wrong("ticket %s in place of %s" % (ticket, others[at]))
        if instead and not others[at + 1].startswith(("published ", "error pending ")):
            raise Wrong("finish answered %s" % others[at + 1])
        wanted = others[:at] + (wanted or [replies[at]]) + others[at + len(wanted):]
        if replies != wanted:
            raise Wrong("%s in place of %s" % (replies, wanted))
        return kind

    def talked(self, refused, lines):
        """The requests with their replies, how the program ended, and whether an allocation was refused."""
        for _ in range(5):
            talk = self.talk(self.tried, refused)
            told, end = converse(talk, lines)
            was_refused = talk.run.refused()
            # Somebody else may have taken the port meanwhile. What comes of the refused allocation comes again.
            if self.talk is not Frames or told or end[0] != 6:
                break
        return told, end, was_refused

    def one(self, refused):
        told, end, was_refused = self.talked(refused, self.lines)
        return judged(lambda: self.check(told, end), refused), was_refused


class FileScript(Script):
    """A script about files. An append has no form in which it is started: one that is held, and finished at once, leaves what the append
    itself would have left."""

    def check_reply(self, replies, right):
        at = next(i for i in range(len(replies)) if i == len(right) or replies[i] != right[i])
        if not replies[at].startswith("error no-memory ticket "):
            return super().check_reply(replies, right)
        version = right[at].split(" ")[1] if right[at].startswith("version ") else "of no append"
        if replies != right[:at] + ["error no-memory ticket 1", "published " + version] + right[at + 1:]:
            raise Wrong("%s, where %s is right" % (replies, right))
        return "no-memory ticket"


class Measure:
    """A load of three workers, or a watch of three readers."""

    def __init__(self, tried, words, lines):
        self.tried, self.words, self.lines = tried, words, lines

    def check(self, end):
        if end == (0, self.lines, ""):
            return "unharmed"
        if end[0] == 5 and end[2] == STARVED and self.lines.startswith(end[1]):
            return "out of memory"
        raise Wrong("%r in place of %r" % (end, self.lines))

    def one(self, refused):
        run = Run(self.tried, self.words + ["--seed", "7", "--ops", "20"], refused)
        end = run.ends()
        return judged(lambda: self.check(end), refused), run.refused()


# ---- all of them

class Tried:
    def __init__(self, program, work, jobs):
        self.program, self.work, self.jobs = os.path.abspath(program), work, jobs
        self.settings = work + "/settings.toml"
        with open(self.settings, "w") as settings:
            settings.write("# Small pages, so that short updates lie on several.\npage = 4\nproviders = 3\nreplicas = 2\n")
        self.wrong = 0

    def each(self, name, case):
        """Refuses no allocation, and then 1, 2, 3 and so on, until a run has none of that number any more."""
        ends, first, goes_on = {}, 0, True
        with ThreadPoolExecutor(self.jobs) as pool:
            while goes_on:
                numbers = range(first, first + 1 if first == 0 else first + 4 * self.jobs)
                goes_on = first == 0
                first = numbers.stop
                for kind, was_refused in pool.map(case.one, numbers):
                    if kind.startswith("wrong"):
                        print("    " + kind[:400])
                        kind = "wrong"
                        self.wrong += 1
                    if was_refused or kind == "wrong":
                        ends[kind] = ends.get(kind, 0) + 1
                    goes_on |= was_refused
                goes_on &= ends.get("wrong", 0) < MOST_WRONG
        told = ", ".join("%s %d" % end for end in sorted(ends.items()))
        print("%-16s %5d runs: %s" % (name, sum(ends.values()), told), flush=True)


def main():
    program, work, *words = sys.argv[1:]
    jobs = os.cpu_count() or 1
    if "--jobs" in words:
        at = words.index("--jobs")
        jobs = int(words[at + 1])
        del words[at:at + 2]
    forms = {"lines": (Script, Lines, SCRIPTS), "frames": (Script, Frames, SCRIPTS), "files": (FileScript, Files, FILE_SCRIPTS)}
    wanted = words or ["load", "watch", *forms]
    if not set(wanted) <= {"load", "watch", *forms}:
        sys.exit("fail_alloc: lines, files, load, watch or frames, and --jobs N")
    tried = Tried(program, work, jobs)
    for form, (script, talk, texts) in forms.items():
        if form in wanted:
            for name, text in texts.items():
                tried.each("%s %s" % (form, name), script(tried, talk, text))
    if "load" in wanted:
        tried.each("load", Measure(tried, ["load", "--workers", "3"], LOADED))
    if "watch" in wanted:
        tried.each("watch", Measure(tried, ["watch", "--readers", "3"], WATCHED))
    if tried.wrong:
        sys.exit("fail_alloc: %d runs ended in no way that is allowed" % tried.wrong)


main()
