"""What the tests have in common: the built server, servers that answer what a test says, and a relay between a client and a server."""
import contextlib
import functools
import os
import pathlib
import random
import re
import shlex
import signal
import socket
import struct
import subprocess
import sys
import threading
import time

HERE = pathlib.Path(__file__).resolve().parent
PROGRAM = shlex.split(os.environ.get("BLOBSEER_PROGRAM", str(HERE.parent.parent / "crates/blobseer/out/blobseer")))
CLIENT = [sys.executable, str(HERE / "blobseer.py")]
# The clients of the tests have no address but the one that they are given.
os.environ.pop("BLOBSEER", None)


def free_port():
    """A port that nobody has, below those that the system gives to clients: a client may be given the very port of a server that is about to listen,
    and then the server finds it taken."""
    while True:
        port = random.randrange(10_000, 30_000)
        with socket.socket() as free, contextlib.suppress(OSError):
            # A process that another thread begins has a copy of this socket until it runs its program: with the option a server may bind beside that.
            free.setsockopt(socket.SOL_SOCKET, socket.SO_REUSEADDR, 1)
            free.bind(("127.0.0.1", port))
            return port


class Server:
    """A server on a port of its own, which is killed at the end of the block."""

    def __init__(self, *words):
        self.address = "127.0.0.1:%d" % free_port()
        self.process = subprocess.Popen([*PROGRAM, "serve", "--listen", self.address, *words], stdout=subprocess.DEVNULL)

    def __enter__(self):
        for _ in range(600):
            with contextlib.suppress(ConnectionRefusedError):
                socket.create_connection(host_and_port(self)).close()
                return self
            time.sleep(0.05)
        raise RuntimeError("the server doesn't listen")

    def __exit__(self, *_):
        self.process.kill()
        self.process.wait()

    def memory(self):
        """The bytes of memory that the server has now."""
        status = pathlib.Path("/proc/%d/status" % self.process.pid).read_text()
        return 1024 * int(re.search(r"^VmRSS:\s*(\d+) kB$", status, re.MULTILINE).group(1))


def host_and_port(server):
    host, port = server.address.split(":")
    return host, int(port)


@contextlib.contextmanager
def played(*replies):
    """A server that takes one connection, sends these bytes for whatever comes, and closes once the client has: else what it left unread would
    make the system reset the connection."""
    with socket.create_server(("127.0.0.1", 0)) as listener:
        def serve():
            peer, _ = listener.accept()
            with peer:
                for reply in replies:
                    peer.recv(65536)
                    peer.sendall(reply)
                with contextlib.suppress(OSError):
                    peer.shutdown(socket.SHUT_WR)
                    while peer.recv(65536):
                        pass

        thread = threading.Thread(target=serve)
        thread.start()
        yield listener.getsockname()
        thread.join()


def frame(operation, *numbers, data=b""):
    body = struct.pack(">B%dQ" % len(numbers), operation, *numbers) + data
    return struct.pack(">I", len(body)) + body


class Relay:
    """A relay between clients and a server, frame by frame. It keeps what went through: `frames` has the number of the connection, the time,
    the operation and the length of each frame of the clients. A connection ends, both ways, before a frame of which `cuts(connection,
    operation)` is true, where requests have operations below 128 and replies those above, and after a silence of `patience` seconds."""

    def __init__(self, server, cuts=lambda connection, operation: False, patience=None):
        self.frames = []
        self._server, self._cuts, self._patience = host_and_port(server), cuts, patience
        self._peers, self._threads, self._over = [], [], False
        self._listener = socket.create_server(("127.0.0.1", 0))
        self.address = "127.0.0.1:%d" % self._listener.getsockname()[1]

    def __enter__(self):
        self._start(self._accept)
        return self

    def __exit__(self, *_):
        self._over = True
        self._listener.shutdown(socket.SHUT_RDWR)
        self._listener.close()
        for peer in self._peers:
            self._end(peer)
        for thread in self._threads:
            thread.join()
        for peer in self._peers:
            peer.close()

    def operations(self):
        return [one[2] for one in self.frames]

    def sent(self):
        """The bytes that each connection sent."""
        counts = {}
        for connection, _, _, length in self.frames:
            counts[connection] = counts.get(connection, 0) + length
        return list(counts.values())

    def _start(self, run, *arguments):
        thread = threading.Thread(target=run, args=arguments)
        self._threads.append(thread)
        thread.start()

    def _accept(self):
        for number in range(1000):
            try:
                client = self._listener.accept()[0]
            except OSError:
                return
            server = socket.create_connection(self._server)
            self._peers += [client, server]
            client.settimeout(self._patience)
            if self._over:
                self._end(client)
                self._end(server)
            self._start(self._pass, number, client, server)
            self._start(self._pass, number, server, client)

    def _pass(self, number, source, target):
        """Passes frames on, until the source ends or a frame is cut."""
        with contextlib.suppress(OSError), source.makefile("rb") as stream:
            while True:
                head = stream.read(5)
                if len(head) < 5:
                    break
                length, operation = struct.unpack(">IB", head)
                body = stream.read(length - 1)
                if operation < 128:
                    self.frames.append((number, time.monotonic(), operation, 4 + length))
                if self._cuts(number, operation) or len(body) < length - 1:
                    break
                target.sendall(head + body)
        self._end(source)
        self._end(target)

    @staticmethod
    def _end(peer):
        with contextlib.suppress(OSError):
            peer.shutdown(socket.SHUT_RDWR)


class ProgramCase:
    """For tests that run the client's program."""

    def ran(self, address, *words, data=b"", status=0, **environment):
        """What the program prints; or what it says, where it is to end with another status."""
        done = subprocess.run([*CLIENT, *([address] if address else []), *words], input=data, capture_output=True, timeout=300,
                              env={**os.environ, **environment})
        self.assertEqual(done.returncode, status, done.stderr)
        return done.stdout if status == 0 else done.stderr.decode()

    @contextlib.contextmanager
    def running(self, address, *words, **streams):
        """The program while it runs, as a Popen, with pipes unless said otherwise. A shell that runs the tests in the background makes them pass over
        Ctrl-C; the program shall not."""
        pipes = {name: subprocess.PIPE for name in ("stdin", "stdout", "stderr")}
        hears = functools.partial(signal.signal, signal.SIGINT, signal.SIG_DFL)
        with subprocess.Popen([*CLIENT, address, *words], preexec_fn=hears, **{**pipes, **streams}) as process:
            try:
                yield process
            finally:
                process.kill()


def eventually(holds, limit=30):
    """Waits until something holds, and tells whether it came to that."""
    end = time.monotonic() + limit
    while not holds() and time.monotonic() < end:
        time.sleep(0.02)
    return holds()
