"""What controllers begin with: streams of initial events, and lists at a server that refuses these, of which standard error says nothing."""
import contextlib
import socket

from clients import Client
from cutting import CuttingProxy
from losing import whole_request
from objects import replica_set
from programs import Ending, control, server
from restarting import settle
from waiting import check

# Beside the proxies, which put its folder where it is found.
from asking import LIST, STREAM, WATCH, asked_for, refusal

REPLICAS = 3
PLURALS = ["configmaps", "pods", "replicasets", "deployments"]


class NotingProxy(CuttingProxy):
    """Relays connections, and notes what is asked of collections. Where a status code is given, it answers streams by itself with that."""

    def __init__(self, port, refusal_code=None):
        super().__init__(port, seed=1, cuts_requests=False)
        self.is_quiet, self.refusal_code, self.noted = True, refusal_code, {plural: [] for plural in PLURALS}

    def note(self, request):
        """Notes what a request asks of a collection, if it asks of one, and returns that."""
        target = request.split(b" ")[1].decode()
        plural, what = target.split("?")[0].rpartition("/")[2], asked_for(request)
        if not request.startswith(b"GET ") or plural not in self.noted:
            return None
        with self.lock:
            self.noted[plural].append(what)
        return what

    def relay(self, taken):
        """Relays one connection, or refuses what is asked."""
        with contextlib.suppress(OSError), taken:
            if not (request := whole_request(taken)):
                return
            if self.note(request) == STREAM and self.refusal_code:
                taken.sendall(refusal(self.refusal_code))
                return taken.shutdown(socket.SHUT_WR)
            with socket.create_connection(("127.0.0.1", self.upstream)) as upstream:
                upstream.sendall(request)
                self.pump(upstream, taken, None)


def run(program, refuses, wanted):
    """Declares a set at a server that refuses streams with a status code, or gives them, and checks that what is asked of each collection begins as
    it is to, that the set gets its pods, and that standard error says nothing."""
    serving = server(program)
    proxy = NotingProxy(serving.port, refuses)
    with Ending(serving, control(program, proxy.port)) as running:
        client = Client(serving.port)
        client.create("replicasets", replica_set("web", REPLICAS))
        settle(client, "web", REPLICAS)
        for plural, asked in proxy.noted.items():
            check(asked[: len(wanted)] == wanted[: len(asked)] != [], f"of {plural} is asked {asked}, not first {wanted}")
            check(set(asked[len(wanted) :]) <= {WATCH}, f"of {plural} is asked {asked}")
        said = running.programs[1].errors
        check(said.waiting.empty(), f"standard error says {said.last!r}")
        proxy.close()


def streamed(program):
    """The controllers take in all by streams of initial events, and list nothing."""
    run(program, None, [STREAM])
    return "a set as declared, and nothing was listed"


def streams_refused(program, codes):
    """A server refuses streams of initial events, with each of the codes by which servers do: the controllers list, and say nothing of it."""
    for code in codes:
        run(program, code, [STREAM, LIST, WATCH])
    return f"lists after {' and '.join(map(str, codes))}, and nothing was said"
