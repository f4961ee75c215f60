"""What scenarios of many connections need: a server of their own, connections to it, what these are told, and how long that may take."""
import contextlib
import json
import os
import pathlib
import re
import resource
import socket
import sys
import time

HERE = pathlib.Path(__file__).resolve().parent
sys.path.insert(0, str(HERE.parent / "controllers"))
from programs import Listener
from waiting import Limit, check

MAPS = "/api/v1/namespaces/default/configmaps"
PODS = "/api/v1/namespaces/default/pods"
GET = f"GET {MAPS}?limit=1 HTTP/1.1\r\nHost: localhost\r\n\r\n".encode()
WATCH = f"GET {MAPS}?watch=true&resourceVersion=1 HTTP/1.1\r\nHost: localhost\r\n\r\n".encode()
# How many seconds after its deadline a connection may be left.
LATE_SECONDS = 3


class Times:
    """By how much what is meant is multiplied, since other work may be done beside."""

    loose = 10


def within(seconds, most, what):
    """Checks that something took no longer than is meant, and returns what is told of it."""
    check(seconds <= most * Times.loose, f"{what} took {seconds:.3f} s, and {most:g} s are meant")
    return f"{what} {seconds * 1000:.1f} ms"


def late_seconds():
    """Returns how many seconds after its deadline a connection may be left here."""
    return LATE_SECONDS * Times.loose


def connected(port, buffer=None):
    """Returns a connection, with so many bytes of room for what comes, if that is said."""
    connection = socket.socket()
    connection.settimeout(Limit.seconds)
    if buffer:
        connection.setsockopt(socket.SOL_SOCKET, socket.SO_RCVBUF, buffer)
    connection.connect(("127.0.0.1", port))
    return connection


def read_to_end(connection):
    """Returns all that comes until the peer closes."""
    came = b""
    while some := connection.recv(65536):
        came += some
    return came


def got(port):
    """Asks for a list, and returns after how many seconds the reply was whole."""
    began = time.monotonic()
    with connected(port) as connection:
        connection.sendall(GET)
        came = read_to_end(connection)
    check(came.startswith(b"HTTP/1.1 200 OK\r\n"), f"a list was answered {came[:200]!r}")
    return time.monotonic() - began


def created(port, name, text=""):
    """Creates a ConfigMap, with a text if there is one."""
    body = json.dumps({"metadata": {"name": name}} | ({"data": {"text": text}} if text else {})).encode()
    with connected(port) as connection:
        connection.sendall(f"POST {MAPS} HTTP/1.1\r\nHost: localhost\r\nContent-Type: application/json\r\nContent-Length: {len(body)}\r\n\r\n".encode() + body)
        came = read_to_end(connection)
    check(came.startswith(b"HTTP/1.1 201 Created\r\n"), f"a create was answered {came[:200]!r}")


def opened_watch(port, buffer=None, path=MAPS):
    """Returns a connection over which a watch has begun, of the maps if nothing else is said."""
    connection = connected(port, buffer)
    connection.sendall(WATCH.replace(MAPS.encode(), path.encode()))
    head = b""
    while b"\r\n\r\n" not in head:
        some = connection.recv(4096)
        check(some, f"a watch was closed after {head!r}")
        head += some
    check(head.startswith(b"HTTP/1.1 200 OK\r\n"), f"a watch was answered {head[:200]!r}")
    return connection


@contextlib.contextmanager
def serving(program, *words):
    server = Listener([program, "serve", "--port", "0", *words])
    try:
        yield server
        server.check_running()
    finally:
        server.kill()


def used_by(server):
    """Returns the processor seconds and the resident bytes of a server."""
    fields = pathlib.Path(f"/proc/{server.started.pid}/stat").read_text().rpartition(")")[2].split()
    resident = int(re.search(r"VmRSS:\s+(\d+) kB", pathlib.Path(f"/proc/{server.started.pid}/status").read_text())[1]) * 1024
    return (int(fields[11]) + int(fields[12])) / os.sysconf("SC_CLK_TCK"), resident


def open_files(server):
    return len(os.listdir(f"/proc/{server.started.pid}/fd"))


def limited(server, most):
    """Lets a server open no descriptor from this number on."""
    resource.prlimit(server.started.pid, resource.RLIMIT_NOFILE, (most, resource.getrlimit(resource.RLIMIT_NOFILE)[1]))
