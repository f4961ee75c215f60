#!/usr/bin/env python3
"""Sends the bytes of each case to `kcp serve` over sockets, and compares what comes back, byte for byte.

A case is a file cases/NAME.http. The program begins with nothing and serves the connections of one case, one after another. A line is

    > "text"         bytes to send, as a JSON string; `> 16000 * "a"` sends a text so many times
    pieces 7         what is sent goes out in pieces of so many bytes
    slowly           each piece is sent a while after the one before, so that the server reads it alone
    end              nothing more is sent: that half of the connection is closed
    < 200 {..}       the whole reply: this code and this body, `{time}` in it being the moment of the request
    < refused 400 BadRequest bad request: head
                     the whole reply: the Status with this code, reason and message
    < watch          the head of a watch, each line `| {..}` below it as a chunk, and the last chunk
    < nothing        the connection is closed without a reply
    # ..             a comment

and an empty line stands between two connections. The names of cases begin with, or have: head, field, length, type, transfer-coding, method;
body, pieces, byte-by-byte, half-; watch, streamed.
Usage: run.py --program PATH [WORD]      WORD: only cases whose name has it
"""
import argparse
import concurrent.futures
import datetime
import json
import pathlib
import re
import socket
import subprocess
import sys
import time

HERE = pathlib.Path(__file__).resolve().parent
SECONDS = 60
AT_ONCE = 8
BETWEEN_PIECES = 0.02
TIME = re.compile(rb"\d{4}-\d\d-\d\dT\d\d:\d\d:\d\dZ")
SOME_TIME = "2026-01-01T00:00:00Z"

PHRASES = {
    200: "OK", 201: "Created", 202: "Accepted", 400: "Bad Request", 404: "Not Found", 405: "Method Not Allowed", 409: "Conflict",
    410: "Gone", 411: "Length Required", 413: "Payload Too Large", 415: "Unsupported Media Type", 422: "Unprocessable Entity",
    503: "Service Unavailable", 504: "Gateway Timeout", 507: "Insufficient Storage",
}


def head(code, framing):
    """Returns the head of a reply."""
    return f"HTTP/1.1 {code} {PHRASES[code]}\r\nContent-Type: application/json\r\n{framing}\r\nConnection: close\r\n\r\n".encode()


def reply(code, body):
    """Returns a whole reply."""
    return head(code, f"Content-Length: {len(body)}") + body


def status(code, reason, message):
    """Returns the body of a refusal that names no object."""
    return (
        f'{{"apiVersion":"v1","code":{code},"kind":"Status","message":{json.dumps(message)},"metadata":{{}},'
        f'"reason":"{reason}","status":"Failure"}}'
    ).encode()


def watch(frames):
    """Returns the bytes of a watch that shows these frames and ends."""
    chunks = b"".join(f"{len(frame):x}\r\n".encode() + frame + b"\r\n" for frame in frames)
    return head(200, "Transfer-Encoding: chunked") + chunks + b"0\r\n\r\n"


def with_time(text):
    """Returns the bytes of a text, with a moment in the place of each `{time}`."""
    return text.replace("{time}", SOME_TIME).encode()


def without_time(written, begun):
    """Returns what was written with the same moment everywhere, and whether each that it had lies between the begin and now."""
    ended = datetime.datetime.now(datetime.timezone.utc)
    found = [datetime.datetime.fromisoformat(it.decode()[:-1] + "+00:00") for it in TIME.findall(written)]
    return TIME.sub(SOME_TIME.encode(), written), all(begun.replace(microsecond=0) <= it <= ended for it in found)


class Connection:
    """What is sent over one connection, and what has to come back."""

    def __init__(self, lines):
        self.sent, self.is_ended, self.pieces, self.between, self.wanted, frames = b"", False, None, 0, None, None
        for line in lines:
            if line.startswith("> "):
                times, text = re.fullmatch(r"> (?:(\d+) \* )?(\".*\")", line).groups()
                self.sent += json.loads(text).encode("utf-8", "surrogateescape") * int(times or 1)
            elif line == "end":
                self.is_ended = True
            elif line.startswith("pieces "):
                self.pieces = int(line.removeprefix("pieces "))
            elif line == "slowly":
                self.between = BETWEEN_PIECES
            elif line == "< nothing":
                self.wanted = b""
            elif line == "< watch":
                frames = []
            elif line.startswith("| "):
                frames.append(with_time(line.removeprefix("| ")) + b"\n")
            elif found := re.fullmatch(r"< refused (\d+) (\w+) (.*)", line):
                self.wanted = reply(int(found[1]), status(int(found[1]), found[2], found[3]))
            elif found := re.fullmatch(r"< (\d+) (.*)", line):
                self.wanted = reply(int(found[1]), with_time(found[2]))
            elif not line.startswith("#"):
                sys.exit(f"not a line of a case: {line}")
        if frames is not None:
            self.wanted = watch(frames)
        if self.wanted is None:
            sys.exit(f"a connection that wants no answer: {lines}")

    def answered(self, port):
        """Returns all that the server writes."""
        with socket.create_connection(("127.0.0.1", port), timeout=SECONDS) as stream:
            stream.setsockopt(socket.IPPROTO_TCP, socket.TCP_NODELAY, 1)
            try:
                for at in range(0, len(self.sent), self.pieces or len(self.sent) or 1):
                    stream.sendall(self.sent[at : at + (self.pieces or len(self.sent))])
                    time.sleep(self.between)
                if self.is_ended:
                    stream.shutdown(socket.SHUT_WR)
            except (BrokenPipeError, ConnectionResetError):
                pass
            return read_all(stream)


def read_all(stream):
    """Returns what comes up to the end. A server that closes with bytes unread may reset the connection after its reply."""
    parts = []
    try:
        while part := stream.recv(65536):
            parts.append(part)
    except ConnectionResetError:
        pass
    return b"".join(parts)


def connections(path):
    """Returns the connections of a case."""
    groups = path.read_text(encoding="utf-8").split("\n\n")
    groups = [[line for line in group.split("\n") if line] for group in groups]
    return [Connection(lines) for lines in groups if any(not line.startswith("#") for line in lines)]


def serve(program, count):
    """Starts the program for so many connections, and returns it with its port."""
    words = [program, "serve", "--port", "0", "--window", "1024", "--threads", "1", "--requests", str(count)]
    started = subprocess.Popen(words, stdout=subprocess.PIPE, stderr=subprocess.PIPE)
    line = started.stdout.readline().decode()
    found = re.fullmatch(r"listening 127\.0\.0\.1:(\d+)\n", line)
    if not found:
        started.kill()
        sys.exit(f"the program wrote {line!r}, not where it listens")
    return started, int(found[1])


def differences(program, path):
    """Returns what is wrong in a case, a line each."""
    wrong, asked, begun = [], connections(path), datetime.datetime.now(datetime.timezone.utc)
    started, port = serve(program, len(asked))
    for number, connection in enumerate(asked, 1):
        written, is_now = without_time(connection.answered(port), begun)
        if written != connection.wanted or not is_now:
            wrong.append(f"connection {number}\n    wanted  {connection.wanted[:600]!r}\n    written {written[:600]!r}")
    try:
        code = started.wait(timeout=SECONDS)
    except subprocess.TimeoutExpired:
        started.kill()
        code = "none: it goes on"
    if code != 0:
        wrong.append(f"exit {code}: {started.stderr.read()!r}")
    return wrong


def main():
    parser = argparse.ArgumentParser(description=__doc__.splitlines()[0])
    parser.add_argument("--program", required=True)
    parser.add_argument("word", nargs="?", default="")
    asked = parser.parse_args()
    paths = sorted(path for path in (HERE / "cases").glob("*.http") if asked.word in path.stem)
    failed = 0
    with concurrent.futures.ThreadPoolExecutor(AT_ONCE) as pool:
        for path, wrong in zip(paths, pool.map(lambda path: differences(asked.program, path), paths)):
            failed += bool(wrong)
            print("".join(f"FAILED {path.stem}: {line}\n" for line in wrong), end="")
    print(f"{len(paths) - failed} passed, {failed} failed")
    sys.exit(1 if failed or not paths else 0)


if __name__ == "__main__":
    main()
