#!/usr/bin/env python3
"""Measures how a server gets on with peers that keep it waiting, over the loopback alone.

    slow_peers.py [--program PATH] [--port N] PART..

The parts are these, and `quick` is those that take less than five minutes. Each starts a server of its own, opens at most 1,100
connections, is over after at most 800 seconds, and ends what it started.

    halves4, halves16   all workers but the first are held by half frames: a new client is served once a read's timeout passed
    crush               15 workers and 64 places are held, and one more connection holds the first worker; all but that one leave:
                        a new client is served at the latest when that one's timeout passed
    killed              a client is killed inside a frame: the next one is served at once
    deaf                a client never reads its replies: the next one is served once the system's buffers are full and a write's
                        timeout passed
    idle                1,024 connections that say nothing: 80 are taken, what the server holds then, and when a client is served
                        once they left
"""
import argparse
import os
import resource
import signal
import socket
import subprocess
import sys
import time

READ_TIMEOUT = 300
WRITE_TIMEOUT = 60
MARGIN = 20
CREATE = bytes([0, 0, 0, 1, 1])
HALF = bytes([0, 0, 0, 9, 9, 0])


class Server:
    """A server of so many workers, which is ended with the `with`."""

    def __init__(self, program, port, workers):
        self.port = port
        words = [program, "serve", "--listen", f"127.0.0.1:{port}", "--workers", str(workers)]
        self.process = subprocess.Popen(words, stdin=subprocess.DEVNULL, stdout=subprocess.DEVNULL)

    def __enter__(self):
        deadline = time.monotonic() + 10
        while time.monotonic() < deadline:
            if self.served(1) is not None:
                return self
            time.sleep(0.05)
        self.__exit__()
        raise SystemExit("slow_peers: the server doesn't answer")

    def __exit__(self, *_):
        self.process.kill()
        self.process.wait()

    def connect(self, within=5):
        """A new connection."""
        return socket.create_connection(("127.0.0.1", self.port), timeout=within)

    def served(self, within):
        """After how many seconds a new client is answered, or None if it isn't within so many."""
        start = time.monotonic()
        try:
            with self.connect(within) as peer:
                peer.sendall(CREATE)
                answer = b""
                while len(answer) < 13:
                    peer.settimeout(max(0.01, start + within - time.monotonic()))
                    piece = peer.recv(13 - len(answer))
                    if not piece:
                        return None
                    answer += piece
        except OSError:
            return None
        return time.monotonic() - start

    def memory(self):
        """The memory that it holds, in MB."""
        with open(f"/proc/{self.process.pid}/status") as status:
            for line in status:
                if line.startswith("VmRSS:"):
                    return int(line.split()[1]) / 1024
        return 0.0


def tell(part, took, most):
    """Tells of a part, and whether it went as it has to."""
    good = took is not None and took <= most
    said = "no client was served" if took is None else f"a client was served after {took:.2f} s"
    print(f"{part}: {said}, at most {most} s are right: {'good' if good else 'WRONG'}", flush=True)
    return good


def halves(program, port, workers):
    with Server(program, port, workers) as server:
        held = [server.connect() for _ in range(workers - 1)]
        for peer in held:
            peer.sendall(HALF)
        time.sleep(0.5)
        took = server.served(READ_TIMEOUT + MARGIN)
        good = tell(f"halves{workers}", took, READ_TIMEOUT + MARGIN)
        for _ in range(3):
            good = tell(f"halves{workers}, later", server.served(5), 5) and good
        return good


def crush(program, port):
    with Server(program, port, 16) as server:
        held = [server.connect() for _ in range(79)]
        time.sleep(1)
        still = server.connect()
        time.sleep(1)
        for peer in held:
            peer.close()
        good = tell("crush", server.served(READ_TIMEOUT + MARGIN), READ_TIMEOUT + MARGIN)
        still.close()
        return good


def killed(program, port):
    with Server(program, port, 2) as server:
        code = f"import socket, time; p = socket.create_connection(('127.0.0.1', {port})); p.sendall({HALF!r}); print('sent', flush=True); time.sleep(60)"
        client = subprocess.Popen([sys.executable, "-c", code], stdout=subprocess.PIPE)
        client.stdout.readline()
        time.sleep(0.5)
        held = server.served(2) is None
        client.send_signal(signal.SIGKILL)
        client.wait()
        client.stdout.close()
        return tell("killed", server.served(5), 5) and held


def frame(operation, *fields, body=b""):
    rest = bytes([operation]) + b"".join(field.to_bytes(8, "big") for field in fields) + body
    return len(rest).to_bytes(4, "big") + rest


def deaf(program, port):
    with Server(program, port, 2) as server:
        peer = server.connect()
        peer.sendall(CREATE + frame(2, 1, body=b"d" * (1 << 20)))
        # Reads of 64 MB in all, none of whose replies is read.
        for _ in range(64):
            peer.sendall(frame(7, 1, 1, 0, 1 << 20))
        time.sleep(1)
        # A write of which a part went out before its timeout is no fault, and the system's buffers grow with each. One of which
        # nothing goes out is.
        most = 4 * WRITE_TIMEOUT + MARGIN
        good = tell("deaf", server.served(most), most)
        peer.close()
        return good


def idle(program, port):
    soft, hard = resource.getrlimit(resource.RLIMIT_NOFILE)
    resource.setrlimit(resource.RLIMIT_NOFILE, (max(soft, min(hard, 4096)), hard))
    with Server(program, port, 16) as server:
        before = server.memory()
        held = []
        for _ in range(1024):
            peer = socket.socket()
            peer.setblocking(False)
            peer.connect_ex(("127.0.0.1", port))
            held.append(peer)
        time.sleep(5)
        # Three streams and the listener, 15 workers' connections, 64 that wait, and the first worker's own.
        files = len(os.listdir(f"/proc/{server.process.pid}/fd"))
        took_all = files == 4 + 15 + 64 + 1
        print(f"idle: {files} files are open, 84 are right: {'good' if took_all else 'WRONG'}", flush=True)
        print(f"idle: {server.memory() - before:.1f} MB more are held", flush=True)
        for peer in held:
            peer.close()
        return tell("idle", server.served(30), 30) and took_all


PARTS = {
    "halves4": lambda program, port: halves(program, port, 4),
    "halves16": lambda program, port: halves(program, port, 16),
    "crush": crush,
    "killed": killed,
    "deaf": deaf,
    "idle": idle,
}
QUICK = ["killed", "deaf", "idle"]


def main():
    parser = argparse.ArgumentParser(description=__doc__, formatter_class=argparse.RawDescriptionHelpFormatter)
    parser.add_argument("--program", default="crates/blobseer/out/blobseer")
    parser.add_argument("--port", type=int, default=7462)
    parser.add_argument("parts", nargs="+", choices=[*PARTS, "quick", "all"])
    words = parser.parse_args()
    names = []
    for part in words.parts:
        names += {"quick": QUICK, "all": list(PARTS)}.get(part, [part])
    good = True
    for place, name in enumerate(names):
        good = PARTS[name](words.program, words.port + place) and good
    return 0 if good else 1


if __name__ == "__main__":
    sys.exit(main())
