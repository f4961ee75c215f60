"""A server that refuses the first commands of the controllers, for want of memory or as conflicts, fails at them, or refuses to say what is there under
one name: each is tried again, and what was declared is there all the same."""
import contextlib
import itertools
import socket
import threading
import time

from clients import Client
from losing import LosingProxy, asks, await_all, whole_request
from objects import controller, owners, pod, replica_set, staying, uid
from programs import Ending, control, server
from restarting import settle
from understanding import ALL_ANSWERED_SECONDS, check_silent, check_told, reply
from waiting import check, until

REFUSED, REPLICAS, WORKERS = 8, 5, 4
NO_MEMORY = reply("503 Service Unavailable", b'{"kind":"Status","apiVersion":"v1","status":"Failure","code":503}')
CONFLICTS, SETS = 60, 20
CONFLICT = reply("409 Conflict", b'{"kind":"Status","apiVersion":"v1","status":"Failure","reason":"Conflict","code":409}')
FAILED = reply("500 Internal Server Error", b'{"kind":"Status","apiVersion":"v1","status":"Failure","code":500}')
FAILURES = 120
AGAIN_AND_AGAIN = "refuses writes as conflicts again and again, as where another controller manager works"
# What says neither what is there nor that nothing is: a refusal, a failure, a body that is no object, and an object that has not the name.
UNSAID = [
    reply("403 Forbidden", b'{"kind":"Status","apiVersion":"v1","status":"Failure","reason":"Forbidden","code":403}'),
    FAILED,
    reply("200 OK", b"no object"),
    reply("200 OK", b"{}"),
]
HELD, HELD_REPLICAS = "held", 2
# A reply that ends before it is whole says nothing of what it is to.
CUT_SHORT, CUT_READS = reply("200 OK", b"{}")[:-1], 3


class RefusingProxy(LosingProxy):
    """Relays connections, and answers some requests by itself."""

    def refusal(self, request):
        """Returns what a request is answered that is to be refused, and nothing for any other."""
        raise NotImplementedError

    def relay(self, taken):
        """Relays one connection, or refuses what is asked."""
        with contextlib.suppress(OSError), taken:
            if not (request := whole_request(taken)):
                return
            if refusal := self.refusal(request):
                taken.sendall(refusal)
                return taken.shutdown(socket.SHUT_WR)
            with socket.create_connection(("127.0.0.1", self.upstream)) as upstream:
                upstream.sendall(request)
                self.pump(upstream, taken, None)


class CommandsRefused(RefusingProxy):
    """Answers the first so many commands by itself, all alike."""

    def __init__(self, port, refusals, answer):
        self.refusals, self.answer_first = refusals, answer
        super().__init__(port)

    def refusal(self, request):
        with self.lock:
            is_refused = self.refusals > 0 and not request.startswith(b"GET ")
            self.refusals -= is_refused
            return self.answer_first if is_refused else None


class CreatesFailed(RefusingProxy):
    """Answers each create by itself that the server has failed, as where an admission webhook does not answer, until it is told not to."""

    def __init__(self, port):
        self.fails, self.failed, self.relays = True, 0, threading.Event()
        super().__init__(port)

    def refusal(self, request):
        if not request.startswith(b"POST "):
            return None
        with self.lock:
            self.failed += self.fails
            if self.fails:
                return FAILED
        self.relays.wait()
        return None

    def mend(self):
        """Relays creates from now on, the first once those that failed are heard of."""
        self.fails = False
        time.sleep(ALL_ANSWERED_SECONDS)
        self.relays.set()


class ReadsRefused(RefusingProxy):
    """Does not say what is there under the name of a set, each time otherwise, until it is told to."""

    def __init__(self, port, name):
        self.is_read = asks(b"GET ", f"/replicasets/{name} ".encode())
        self.says, self.refused, self.unsaid = False, 0, itertools.cycle(UNSAID)
        super().__init__(port)

    def refusal(self, request):
        with self.lock:
            if self.says or not self.is_read(request):
                return None
            self.refused += 1
            return next(self.unsaid)


def refused_for_now(program):
    """The first commands of several workers are answered 503."""
    serving = server(program)
    proxy = CommandsRefused(serving.port, REFUSED, NO_MEMORY)
    with Ending(serving, control(program, proxy.port, WORKERS)):
        client, began = Client(serving.port), time.monotonic()
        client.create("replicasets", replica_set("web", REPLICAS))
        settle(client, "web", REPLICAS)
        check(proxy.refusals == 0, f"{proxy.refusals} of {REFUSED} commands were never refused")
        proxy.close()
        return f"{REFUSED} commands refused for now, as declared after {time.monotonic() - began:.1f} s"


class ReadsCutShort(RefusingProxy):
    """Cuts the replies to the first reads short of what is there under the name of a set."""

    def __init__(self, port, name):
        self.is_read, self.to_cut = asks(b"GET ", f"/replicasets/{name} ".encode()), CUT_READS
        super().__init__(port)

    def refusal(self, request):
        with self.lock:
            if not self.to_cut or not self.is_read(request):
                return None
            self.to_cut -= 1
            return CUT_SHORT


def reads_cut_short(program):
    """The first live reads of a set have no whole reply: its worker makes each again in its turn, and the pod is adopted that it is read for."""
    serving = server(program)
    proxy = ReadsCutShort(serving.port, HELD)
    with Ending(serving, control(program, proxy.port, workers=1)):
        client, began = Client(serving.port), time.monotonic()
        client.create("pods", pod("lone", {"set": HELD}))
        held = uid(client.create("replicasets", replica_set(HELD, HELD_REPLICAS)))
        until(lambda: controller(client.get("pods", "lone")) == held, "the pod was not adopted")
        check(not proxy.to_cut, f"{proxy.to_cut} of {CUT_READS} reads were never cut short")
        await_all(client, [HELD], more=0)
        proxy.close()
        return f"{CUT_READS} live reads cut short, all as declared after {time.monotonic() - began:.1f} s"


def reads_refused(program):
    """What is there under the name of a set is not said while the one worker makes and scales another set. Once it is said, the first set adopts the
    pod that it is read for."""
    serving = server(program)
    proxy = ReadsRefused(serving.port, HELD)
    with Ending(serving, control(program, proxy.port, workers=1)):
        client, began = Client(serving.port), time.monotonic()
        client.create("pods", pod("lone", {"set": HELD}))
        held = uid(client.create("replicasets", replica_set(HELD, HELD_REPLICAS)))
        until(lambda: proxy.refused >= len(UNSAID), lambda: f"{proxy.refused} live reads were refused, not {len(UNSAID)}")
        client.create("replicasets", replica_set("web", 1))
        await_all(client, ["web"], more=0)
        client.patch("replicasets", "web", {"spec": {"replicas": REPLICAS}})
        await_all(client, ["web"], more=0)
        check(not owners(client.get("pods", "lone")), "a pod was adopted by a set that was not read")
        refused, proxy.says = proxy.refused, True
        until(lambda: controller(client.get("pods", "lone")) == held, "the pod was not adopted once its set could be read")
        await_all(client, [HELD, "web"], more=0)
        proxy.close()
        return f"{refused} live reads refused, another set scaled meanwhile, all as declared after {time.monotonic() - began:.1f} s"


def conflicts(program):
    """The first commands of many sets are refused as conflicts, as where another controller manager writes the same objects."""
    serving = server(program)
    proxy = CommandsRefused(serving.port, CONFLICTS, CONFLICT)
    with Ending(serving, control(program, proxy.port, WORKERS)) as running:
        client, controlling = Client(serving.port), running.programs[1]
        for number in range(SETS):
            client.create("replicasets", replica_set(f"web-{number}", 1))
        line = controlling.next_line(controlling.errors)
        check(line == f"kcp: the server at 127.0.0.1:{proxy.port} {AGAIN_AND_AGAIN}\n".encode(), f"standard error has {line!r}")
        until(lambda: len(staying(client.present("pods"))) == SETS, "a set has not got its pod")
        check(controlling.errors.waiting.empty(), f"standard error says more: {controlling.errors.last!r}")
        proxy.close()
        return f"{CONFLICTS} conflicts told once, and all sets have their pods"


def creates_fail(program):
    """The creates for many sets are answered 500, again and again, and all else as ever: that is told of once, and once more when they are answered."""
    serving = server(program)
    proxy = CreatesFailed(serving.port)
    with Ending(serving, control(program, proxy.port, WORKERS)) as running:
        client, controlling = Client(serving.port), running.programs[1]
        for number in range(SETS):
            client.create("replicasets", replica_set(f"web-{number}", 1))
        until(lambda: proxy.failed >= FAILURES, lambda: f"{proxy.failed} creates have failed, not {FAILURES}")
        check_told(controlling, proxy.port, ["answers 500"])
        check_silent(controlling)
        proxy.mend()
        until(lambda: len(staying(client.present("pods"))) == SETS, "a set has not got its pod")
        check_told(controlling, proxy.port, ["answers again"])
        check_silent(controlling)
        proxy.close()
        return f"{proxy.failed} creates failed, told once, and once that all sets have their pods"
