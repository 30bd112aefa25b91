"""The program: `blobseer [HOST:PORT] COMMAND ...`."""
from __future__ import annotations

import argparse
import contextlib
import json
import os
import re
import stat
import sys
from typing import Any, Callable, Dict, Iterator, List, NoReturn, Optional, Sequence, Tuple

from . import __version__
from .client import Client, connect
from .errors import Already, Error, Refused
from .session import address_of, seconds
from .terminal import Input, Interrupts, Progress
from .values import LONGEST_UPDATE, PIECE, Appended, Blob

_EPILOG = """Exit statuses: 0 done, 1 refused by the store, 2 wrong words, 3 no connection, a lost one or a wait given up, 4 a local file failed,
130 ended by Ctrl-C. The variable BLOBSEER of the environment is the address where none is given."""

_COMMANDS: Dict[str, Tuple[str, str]] = {
    "create": ("", "make an empty blob; prints its id"),
    "append": ("blob", "append the standard input, in updates of one MiB; prints the versions, the bytes and the size. What has come is appended "
                       "after a second, and at Ctrl-C"),
    "write": ("blob offset", "write the standard input at an offset; prints the version. More than 16 MiB are several versions"),
    "read": ("blob version? offset? length?", "write bytes of a version, the most recent one unless said otherwise, to the standard output"),
    "follow": ("blob", "write the bytes of a log to the standard output, and go on as they are published, until Ctrl-C"),
    "branch": ("blob version?", "make a blob that shares the versions up to one, the most recent unless said otherwise; prints its id"),
    "status": ("blob", "print how far the updates of a blob are"),
    "log": ("blob", "print the published versions of a blob, a line each: the version and its size"),
    "versions": ("blob", "print the numbered versions of a blob, a line each: also what they added at its end, and which of them wait"),
    "blobs": ("", "print all blobs, a line each, with the most recent version and its size"),
    "tree": ("", "draw all blobs; the server doesn't tell which of them are branches, and of which blob"),
    "wait": ("blob version", "wait until a version is published"),
    "repair": ("blob version?", "finish an update that its writer left unfinished, the least one unless said otherwise; prints the last published version"),
}
# These print bytes, and have no fields; those read bytes.
_BYTES = ("read", "follow")
_READERS = ("append", "write")


class _Wrong(Exception):
    """The words are wrong."""


class _Parser(argparse.ArgumentParser):
    def error(self, message: str) -> NoReturn:
        raise _Wrong(message)

    def print_help(self, file: Any = None) -> None:
        # That of argparse says nothing where the output can't be written.
        (file or sys.stdout).write(self.format_help())


def _number(text: str) -> int:
    if not re.fullmatch("0|[1-9][0-9]{0,19}", text) or int(text) >= 1 << 64:
        raise argparse.ArgumentTypeError("%r isn't a number from 0 to 18446744073709551615" % text)
    return int(text)


def _seconds(least: str) -> Callable[[str], Optional[float]]:
    def parse(text: str) -> Optional[float]:
        try:
            return seconds(float(text), least)
        except ValueError:
            raise argparse.ArgumentTypeError("%r isn't a number of seconds %s 0, and at most a million" % (text, least)) from None

    return parse


def _address(text: str) -> Tuple[str, int]:
    try:
        return address_of(text)
    except ValueError as error:
        raise argparse.ArgumentTypeError(str(error)) from None


def _options(default: Any, fields: bool = True) -> _Parser:
    """The options that may stand before the command and behind it, with --json where the command prints fields."""
    options = _Parser(add_help=False, allow_abbrev=False, argument_default=default)
    options.add_argument("--timeout", type=_seconds("above"), metavar="SECONDS", help="give up a wait for the server or for another client after so long")
    options.add_argument("--repair-after", type=_seconds("from"), metavar="SECONDS",
                         help="finish another client's update for it, where a version has waited for it for so long")
    if fields:
        options.add_argument("--json", action="store_true", default=default or False, help="print each line as a JSON object")
    options.add_argument("--quiet", action="store_true", default=default or False, help="no line of progress, and no remarks")
    return options


def _parser() -> _Parser:
    whole = _Parser(prog="blobseer", description="Asks a BlobSeer server.", epilog=_EPILOG, allow_abbrev=False, parents=[_options(None)])
    whole.add_argument("--version", action="version", version="blobseer " + __version__)
    whole.add_argument("address", metavar="HOST:PORT", type=_address, help="where the server listens; an IPv6 host stands in brackets")
    commands = whole.add_subparsers(dest="command", metavar="COMMAND", required=True)
    for name, (numbers, told) in _COMMANDS.items():
        one = commands.add_parser(name, help=told, description=told, allow_abbrev=False, parents=[_options(argparse.SUPPRESS, name not in _BYTES)])
        for number in numbers.split():
            optional: Dict[str, Any] = {"nargs": "?"} if number.endswith("?") else {}
            one.add_argument(number.strip("?"), type=_number, **optional)
        if name == "read":
            one.add_argument("--last", type=_number, metavar="N", help="the last N bytes of the version, or all where it has fewer")
        if name == "tree":
            one.add_argument("--dot", action="store_true", help="print a graph for graphviz")
        if name == "follow":
            begin = one.add_mutually_exclusive_group()
            begin.add_argument("--from", type=_number, metavar="VERSION", dest="first", help="begin with the bytes of this version, and not with the first")
            begin.add_argument("--last", type=_number, metavar="N", help="begin with the last N bytes that are published")
    return whole


def _with_address(words: Sequence[str]) -> List[str]:
    """The words with the address of the environment before the command, where they have none."""
    words = list(words)
    at = 0
    while at < len(words) and words[at].startswith("-"):
        at += 2 if words[at] in ("--timeout", "--repair-after") else 1
    if at < len(words) and words[at] in _COMMANDS:
        default = os.environ.get("BLOBSEER") or ("localhost:1" if {"-h", "--help"} & set(words) else None)
        if default is None:
            raise _Wrong("no address is given, and the variable BLOBSEER has none")
        words.insert(at, default)
    return words


def _parsed(words: Sequence[str]) -> argparse.Namespace:
    parsed = _parser().parse_args(_with_address(words))
    if parsed.json and parsed.command in _BYTES:
        raise _Wrong("%s has no fields for --json" % parsed.command)
    if parsed.command == "read" and parsed.last is not None and parsed.offset is not None:
        raise _Wrong("--last has an offset and a length of its own")
    return parsed


class _Run:
    """One command, over one client."""

    def __init__(self, words: argparse.Namespace, store: Client) -> None:
        self._words, self._store = words, store
        # How far updates are, for what is said where they end early.
        self.done = Appended(None, None, 0, None)
        self.progress: Optional[Progress] = None

    def run(self) -> int:
        """Runs the command: its exit status."""
        command: Callable[[], Optional[int]] = getattr(self, "_" + self._words.command)
        return command() or 0

    def _print(self, text: str, **fields: Any) -> None:
        print(json.dumps(fields) if self._words.json else text)

    def _progress(self, what: str, total: Optional[int]) -> Progress:
        # Bytes that go to the terminal themselves leave no line for it.
        self.progress = Progress(what, total, self._words.quiet or what == "read" and sys.stdout.isatty())
        return self.progress

    def _remark(self, text: str) -> None:
        if not self._words.quiet:
            _say(text)

    def _version(self) -> int:
        """The version that the words name, or the most recent one."""
        words = self._words
        return self._store.recent(words.blob).version if words.version is None else int(words.version)

    # ---- commands

    def _create(self) -> None:
        blob = self._store.create()
        self._print("blob %d" % blob, blob=blob)

    def _append(self) -> int:
        blob = self._words.blob
        with Interrupts() as interrupts:
            source = Input(0, PIECE, lambda: self._store.status(blob), interrupts)
            progress = self._progress("appended", _size_of(0))
            for update in self._store.append_each(blob, source):
                self.done = self.done.then(update, update.size - update.offset)
                progress(self.done.bytes)
            progress.end()
            if self.done.first is None:
                self.done = self.done._replace(size=self._store.recent(blob).size)
            self._print(_told(self.done), **self.done._asdict())
            return 130 if interrupts.count else 0

    def _write(self) -> None:
        blob, offset = self._words.blob, self._words.offset
        progress = self._progress("written", _size_of(0))
        done = self.done = self._store.write_from(blob, offset, sys.stdin.buffer, progress=progress)
        progress.end()
        if done.first == done.last:
            text = "version %s at %d size %s" % (done.last, offset, done.size)
        else:
            text = "versions %s to %s at %d bytes %d size %s" % (done.first, done.last, offset, done.bytes, done.size)
            self._remark("this isn't one version: one update has %d bytes at most, and each of these is published by itself" % LONGEST_UPDATE)
        self._print(text, offset=offset, **done._asdict())

    def _read(self) -> None:
        words, version = self._words, self._version()
        size = self._store.size(words.blob, version)
        offset, length = words.offset or 0, words.length
        if words.last is not None:
            offset = max(0, size - words.last)
        progress = self._progress("read", size - offset if length is None else length)
        self._store.read_to(sys.stdout.buffer, words.blob, version, offset, length, progress=progress)

    def _follow(self) -> None:
        words, out = self._words, sys.stdout.buffer
        first = 1 if words.first is None else words.first
        if words.last is not None:
            version, size = self._store.recent(words.blob)
            self._store.read_to(out, words.blob, version, max(0, size - words.last))
            out.flush()
            first = version + 1
        for _, data in self._store.follow(words.blob, first):
            out.write(data)
            out.flush()

    def _branch(self) -> None:
        blob = self._store.branch(self._words.blob, self._version())
        self._print("blob %d" % blob, blob=blob)

    def _status(self) -> None:
        status = self._store.status(self._words.blob)
        self._print("assigned %d published %d held %d" % status, **status._asdict())

    def _log(self) -> None:
        for version, size in self._store.log(self._words.blob):
            self._print("%d %d" % (version, size), version=version, size=size)

    def _versions(self) -> None:
        for one in self._store.versions(self._words.blob):
            told = one.state if one.size is None else "size %d grew %d" % (one.size, one.grown or 0)
            self._print("%d %s" % (one.version, told), **one._asdict())

    def _blobs(self) -> None:
        for one in self._store.blobs():
            self._print("blob %d version %d size %d" % one, **one._asdict())

    def _tree(self) -> None:
        if self._words.json:
            self._blobs()
            return
        blobs = list(self._store.blobs())
        for line in _dotted(blobs) if self._words.dot else _drawn(_spelled(self._words.address), blobs):
            print(line)
        self._remark("the server doesn't tell which blobs are branches, and of which blob: so all stand side by side")

    def _wait(self) -> None:
        version = self._store.wait_published(self._words.blob, self._words.version)
        self._print("published %d" % version, published=version)

    def _repair(self) -> None:
        blob, version = self._words.blob, self._words.version
        if version is not None:
            self._repaired(version, self._store.repair(blob, version))
            return
        while True:
            status = self._store.status(blob)
            if not status.held:
                self._print("nothing waits, published %d" % status.published, repaired=None, published=status.published)
                return
            with contextlib.suppress(Already):
                self._repaired(status.held, self._store.repair(blob, status.held))
                return

    def _repaired(self, version: int, published: int) -> None:
        self._print("published %d" % published, repaired=version, published=published)


def _told(done: Appended) -> str:
    """How far updates are, as a line."""
    return "bytes 0 size %s" % done.size if done.first is None else "versions %s to %s bytes %d size %s" % done


def _size_of(number: int) -> Optional[int]:
    """How many bytes an open file still has, where that is known."""
    told = os.fstat(number)
    return max(0, told.st_size - os.lseek(number, 0, os.SEEK_CUR)) if stat.S_ISREG(told.st_mode) else None


def _spelled(address: Tuple[str, int]) -> str:
    return ("[%s]:%d" if ":" in address[0] else "%s:%d") % address


def _drawn(root: str, blobs: Sequence[Blob]) -> Iterator[str]:
    """A picture of the blobs, in lines of text."""
    yield root
    for one in blobs:
        yield "%s blob %d version %d size %d" % ("`--" if one is blobs[-1] else "|--", *one)


def _dotted(blobs: Sequence[Blob]) -> Iterator[str]:
    """The blobs as a graph for graphviz. Its edges would be the branches, which the server doesn't tell."""
    yield "digraph blobs {"
    yield "    node [shape=box];"
    for one in blobs:
        yield '    blob%d [label="blob %d\\nversion %d\\nsize %d"];' % (one.blob, *one)
    yield "}"


# ---- the ends

def _say(text: str) -> None:
    """A line on the error output, if there is one."""
    if sys.stderr is not None:
        with contextlib.suppress(OSError):
            print("blobseer: " + " ".join(text.splitlines()), file=sys.stderr)


def _failed(error: BaseException, done: Appended) -> int:
    """Says what went wrong, and how far updates were: the exit status."""
    before = getattr(error, "done", None) or done
    behind = "" if before.first is None else "; done before: " + _told(before)
    if isinstance(error, KeyboardInterrupt):
        if behind:
            _say("ended by Ctrl-C" + behind)
        return 130
    if isinstance(error, Refused):
        _say("refused: %s%s" % (error, behind))
        return 1
    if isinstance(error, Error):
        _say("%s%s" % (error, behind))
        return 3
    _say("%s%s" % ("nobody reads the standard output any more" if isinstance(error, BrokenPipeError) else error, behind))
    return 2 if isinstance(error, ValueError) else 4


def _flushed() -> None:
    """Writes the rest of the output. Where that fails, nothing is said of it once more at the end of Python."""
    try:
        sys.stdout.flush()
    except OSError:
        os.dup2(os.open(os.devnull, os.O_WRONLY), sys.stdout.fileno())
        raise


def _ran(words: argparse.Namespace, store: Client) -> int:
    run = _Run(words, store)
    try:
        try:
            status = run.run()
        finally:
            if run.progress is not None:
                run.progress.end()
        _flushed()
        return status
    except (Error, OSError, ValueError, KeyboardInterrupt) as error:
        status = _failed(error, run.done)
        with contextlib.suppress(OSError):
            _flushed()
        return status
    finally:
        store.close()


def _main(arguments: Sequence[str]) -> int:
    words = _parsed(arguments)
    if words.command in _READERS and sys.stdin is None:
        raise OSError("the standard input is closed")
    try:
        store = connect(words.address, words.timeout, repair_after=words.repair_after)
    except OSError as error:
        _say("no connection to %s: %s" % (_spelled(words.address), error))
        return 3
    return _ran(words, store)


def main(arguments: Optional[Sequence[str]] = None) -> int:
    """Runs the program, with the words of the command line unless others are given: its exit status."""
    try:
        if sys.stdout is None:
            raise OSError("the standard output is closed")
        try:
            return _main(sys.argv[1:] if arguments is None else arguments)
        except SystemExit as told:
            _flushed()
            return int(told.code or 0)
    except _Wrong as wrong:
        _say("%s (--help tells the words)" % wrong)
        return 2
    except (OSError, KeyboardInterrupt) as error:
        return _failed(error, Appended(None, None, 0, None))
