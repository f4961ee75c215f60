"""Starts and ends the programs under test: `kcp all`, or `kcp serve` with `kcp control` beside it."""
import json
import os
import pathlib
import queue
import re
import socket
import subprocess
import threading

from waiting import Limit, Wrong, check

LISTENING = re.compile(rb"listening 127\.0\.0\.1:(\d+)\n")
PORT_RANGE = pathlib.Path("/proc/sys/net/ipv4/ip_local_port_range")
LOWEST_PORT = 20_000
WINDOW = 65_536
THREADS = 48
WORKERS = 8
# The most that there may be.
MOST_THREADS, MOST_WORKERS = 128, 64


class Lines:
    """The lines that a program writes to a stream, read as they come."""

    def __init__(self, stream):
        self.waiting, self.last = queue.Queue(), b""
        threading.Thread(target=self.read, args=(stream,), daemon=True).start()

    def read(self, stream):
        for line in stream:
            self.last = line
            self.waiting.put(line)
        self.waiting.put(b"")

    def next(self):
        """Returns the next line, an empty one at the end of the stream; nothing where none comes within the limit."""
        try:
            return self.waiting.get(timeout=Limit.seconds)
        except queue.Empty:
            return None


class Program:
    """A program that runs until it is killed; some run until their standard input ends."""

    ends_with_input = False

    def __init__(self, words, settings=None):
        self.words, pipes = [str(word) for word in words], {"stdin": subprocess.PIPE, "stdout": subprocess.PIPE, "stderr": subprocess.PIPE}
        self.started = subprocess.Popen(self.words, env={**os.environ, **(settings or {})}, **pipes)
        self.output, self.errors = Lines(self.started.stdout), Lines(self.started.stderr)

    def told(self):
        return " ".join(["kcp", *self.words[1:]])

    def next_line(self, lines):
        """Returns the next line of a stream, which has to come."""
        line = lines.next()
        if line is None:
            self.kill()
            raise Wrong(f"{self.told()} wrote nothing in {Limit.seconds:g} s")
        return line

    def await_error(self, text):
        """Waits until standard error has a line with a text."""
        while text not in (line := self.next_line(self.errors)):
            check(line, f"{self.told()} ended and did not say {text!r}")

    def check_running(self):
        """Checks that it has not ended by itself."""
        if self.started.poll() is not None:
            raise Wrong(f"{self.told()} ended with status {self.started.returncode}; it said last {self.errors.last!r}")

    def kill(self):
        """Ends it at once, as a fault of the machine would."""
        self.started.kill()
        self.started.wait()

    def end(self):
        """Checks that it still runs, and, where it is to end with its standard input, that it does."""
        self.check_running()
        if not self.ends_with_input:
            return self.kill()
        self.started.stdin.close()
        self.await_end(f"{Limit.seconds:g} s after the end of its standard input")

    def await_end(self, late):
        """Waits until it ends by itself, which is to go well; the text says when it still runs if it does not end."""
        try:
            status = self.started.wait(Limit.seconds)
        except subprocess.TimeoutExpired:
            raise Wrong(f"{self.told()} still runs {late}") from None
        check(status == 0, f"{self.told()} ended with status {status}; it said last {self.errors.last!r}")


class Listener(Program):
    """A program that says first where it listens: `kcp serve` on standard output, `kcp all` on standard error."""

    def __init__(self, words, says_on="output"):
        super().__init__(words)
        line = self.next_line(getattr(self, says_on))
        found = LISTENING.fullmatch(line)
        if not found:
            self.kill()
            raise Wrong(f"{self.told()} wrote {line!r}, not where it listens; it said last {self.errors.last!r}")
        self.port = int(found[1])


class AllInOne(Listener):
    """A `kcp all`, which answers request lines on standard output, and ends with its input."""

    ends_with_input = True

    def __init__(self, words):
        super().__init__(words, says_on="errors")

    def answered(self, line):
        """Returns the code and the value that a request line is answered."""
        self.started.stdin.write(line.encode() + b"\n")
        self.started.stdin.flush()
        code, _, text = self.next_line(self.output).partition(b" ")
        return int(code), json.loads(text)


def all_in_one(program, threads=THREADS, workers=WORKERS):
    """Starts `kcp all` on a free port."""
    return AllInOne([program, "all", "--port", 0, "--window", WINDOW, "--threads", threads, "--workers", workers])


def server(program, port=0):
    """Starts `kcp serve` on a port, a free one if none is said."""
    return Listener([program, "serve", "--port", port, "--window", WINDOW, "--threads", THREADS])


def control(program, port, workers=WORKERS, settings=None, more=()):
    """Starts `kcp control` at a server, with more words after the others."""
    return Program([program, "control", "--server", f"127.0.0.1:{port}", "--workers", workers, *more], settings)


def lasting_port():
    """Returns a free port that no connection takes as its own while nobody listens there: one below those that the system gives out."""
    for port in range(LOWEST_PORT, int(PORT_RANGE.read_text().split()[0])):
        try:
            socket.create_server(("127.0.0.1", port)).close()
            return port
        except OSError:
            continue
    raise Wrong("no port is free")


class Ending:
    """Ends programs when a scenario is over: they have to be there still where it went well, and are killed where it did not."""

    def __init__(self, *programs):
        self.programs = list(programs)

    def __enter__(self):
        return self

    def __exit__(self, kind, *_):
        try:
            for it in reversed(self.programs) if kind is None else ():
                it.end()
        finally:
            for it in self.programs:
                it.kill()
