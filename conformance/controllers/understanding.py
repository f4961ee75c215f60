"""A server of which nothing is understood, which fails, refuses lists or gives no whole reply, and what standard error says of it, once each."""
import contextlib
import json
import socket
import time

from clients import Client
from cutting import CuttingProxy
from objects import replica_set, staying
from programs import Ending, control, server
from waiting import check, until

REPLICAS = 2
# Followers ask again after 0.8 seconds and more, all at once: what one was answered all were by then.
ALL_ANSWERED_SECONDS = 0.3
# How long a refusal lasts: two more of each follower, at least.
ASKED_AGAIN_SECONDS = 4
GARBAGE = b"\x00\x1b[31mno reply\xff\r\n"
NODES = json.dumps({"kind": "NodeList", "apiVersion": "v1", "metadata": {"resourceVersion": "7", "continue": "x" * 100}, "items": []}).encode() + b"\n"
SHOWN = 100
# What an API server answers to HTTP at its port for TLS: no length is said, and the end is that of the connection.
WANTS_TLS = b"HTTP/1.0 400 Bad Request\r\n\r\nClient sent an HTTP request to an HTTPS server.\n"
NO_WHOLE_REPLY = "gives no whole reply, as where its port wants TLS"


def reply(status, body):
    """Returns a reply of HTTP."""
    return f"HTTP/1.1 {status}\r\nContent-Type: application/json\r\nContent-Length: {len(body)}\r\nConnection: close\r\n\r\n".encode() + body


def stream(line):
    """Returns a reply of HTTP as a watch is answered, with one line, and its end."""
    head = b"HTTP/1.1 200 OK\r\nContent-Type: application/json\r\nTransfer-Encoding: chunked\r\n\r\n"
    return head + b"%x\r\n%s\r\n0\r\n\r\n" % (len(line), line)


class Pretender(CuttingProxy):
    """Answers each request with the same bytes, and relays connections once it is told to."""

    def __init__(self, port):
        self.answer_all = GARBAGE
        super().__init__(port, seed=1, cuts_requests=False)
        self.is_quiet = True

    def relay(self, taken):
        """Answers one request, or relays its connection."""
        if self.answer_all is None:
            return super().relay(taken)
        with contextlib.suppress(OSError), taken:
            if taken.recv(65536):
                taken.sendall(self.answer_all)
                taken.shutdown(socket.SHUT_WR)
        return None


def check_told(controlling, port, texts):
    """Checks that the next lines of standard error say just this of a server, in any order: several followers speak."""
    expected = sorted(f"kcp: the server at 127.0.0.1:{port} {it}\n".encode() for it in texts)
    lines = sorted(controlling.next_line(controlling.errors) for _ in texts)
    check(lines == expected, f"standard error has {lines!r}, not {expected!r}")


def check_silent(controlling):
    """Checks that standard error says nothing more."""
    check(controlling.errors.waiting.empty(), f"standard error says more: {controlling.errors.last!r}")


def check_works(client, controlling, texts=()):
    """Checks that the controllers work, and that standard error says no more than this of the server meanwhile."""
    client.create("replicasets", replica_set("web", REPLICAS))
    until(lambda: len(staying(client.present("pods"))) == REPLICAS, "the set has not got its pods")
    check_told(controlling, client.port, texts)
    check_silent(controlling)


def lists_refused(program, statuses):
    """What listens is another server of HTTP, which refuses all with some status: that is told of once, and once more when lists are answered."""
    for status in statuses:
        serving = server(program)
        pretender = Pretender(serving.port)
        pretender.answer_all = reply(status, b"{}")
        with Ending(serving, control(program, pretender.port)) as running:
            controlling = running.programs[1]
            check_told(controlling, pretender.port, [f"answers {status.split()[0]}"])
            time.sleep(ASKED_AGAIN_SECONDS)
            check_silent(controlling)
            pretender.answer_all = None
            check_told(controlling, pretender.port, ["answers again"])
            check_works(Client(serving.port), controlling)
            pretender.close()
    return f"{', '.join(it.split()[0] for it in statuses)} are told of once each, and that lists are answered again"


def no_whole_reply(program):
    """What listens answers as an API server at its port for TLS: that is told of once, and once more when whole replies come, as those to commands."""
    serving = server(program)
    pretender = Pretender(serving.port)
    pretender.answer_all = WANTS_TLS
    with Ending(serving, control(program, pretender.port)) as running:
        controlling, began = running.programs[1], time.monotonic()
        check_told(controlling, pretender.port, [NO_WHOLE_REPLY])
        told = time.monotonic() - began
        time.sleep(ASKED_AGAIN_SECONDS)
        check_silent(controlling)
        pretender.answer_all = None
        check_works(Client(pretender.port), controlling, ["answers again"])
        pretender.close()
        return f"told of once, after {told:.1f} s, and that whole replies come"


def not_understood(program):
    """What comes is no HTTP, then a failure, then a list of something else in the place of initial events, and then it is a server's."""
    serving = server(program)
    pretender = Pretender(serving.port)
    with Ending(serving, control(program, pretender.port)) as running:
        controlling = running.programs[1]
        for answer, texts in (
            (GARBAGE, ["is not understood: \\x00\\x1b[31mno reply\\xff\\x0d\\x0a"]),
            (reply("503 Service Unavailable", b"{}"), ["answers 503"]),
            (stream(NODES), ["answers again", f"is not understood: {NODES.decode()[:SHOWN]}"]),
            (None, ["is understood again"]),
        ):
            pretender.answer_all = answer
            check_told(controlling, pretender.port, texts)
            time.sleep(ALL_ANSWERED_SECONDS)
        check_works(Client(serving.port), controlling)
        pretender.close()
        return "garbage, a failure and another kind are told of once each, and that all is well again"
