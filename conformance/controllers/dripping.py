"""A server that sends a byte now and then, and comes to no end: it is never silent for long, and yet nobody waits for it for ever."""
import contextlib
import socket
import tempfile
import time

from clients import Client
from hurried import SOURCE, built
from losing import LosingProxy, asks, await_all, whole_request
from objects import controller, pod, replica_set, uid
from programs import Ending, control, server
from waiting import check, until

# By a clock that is so many times as fast the five minutes of a reply are a second, and the half hour of a watch is six.
HURRIED = 300
HELD, REPLICAS = "held", 2
BETWEEN_SECONDS = 0.1
HEAD = b"HTTP/1.1 200 OK\r\nContent-Type: application/json\r\n"
# How a reply and a watch begin of which then only spaces come.
REPLY = HEAD + b"Content-Length: 60000\r\n\r\n"
WATCH = HEAD + b"Transfer-Encoding: chunked\r\n\r\nFFFF\r\n"


class DrippingProxy(LosingProxy):
    """Relays connections, but the first watch of pods and the first live read of a set, which it answers by a space now and then."""

    def __init__(self, port, name):
        self.is_watch, self.is_read = asks(b"GET ", b"/pods?"), asks(b"GET ", f"/replicasets/{name} ".encode())
        self.dripping, self.left = set(), {}
        super().__init__(port)

    def beginning(self, request):
        """Returns how that which is answered by drops begins."""
        if self.is_read(request):
            return REPLY
        return WATCH if self.is_watch(request) and b"watch=true" in request else None

    def relay(self, taken):
        """Relays one connection, or answers by drops."""
        with contextlib.suppress(OSError), taken:
            if not (request := whole_request(taken)):
                return
            beginning = self.beginning(request)
            with self.lock:
                drips = beginning and beginning not in self.dripping
                self.dripping.add(beginning)
            if drips:
                return self.drip(taken, beginning)
            with socket.create_connection(("127.0.0.1", self.upstream)) as upstream:
                upstream.sendall(request)
                self.pump(upstream, taken, None)

    def drip(self, taken, beginning):
        """Answers by drops until who asked has left the connection, and notes after how many seconds that was."""
        began = time.monotonic()
        with contextlib.suppress(OSError):
            taken.sendall(beginning)
            while True:
                taken.sendall(b" ")
                time.sleep(BETWEEN_SECONDS)
        self.left[beginning] = time.monotonic() - began


def drops_are_left(program):
    """A watch and a live read by the one worker drip: both are given up, and what was declared is there once they are asked for again."""
    serving = server(program)
    proxy = DrippingProxy(serving.port, HELD)
    with tempfile.TemporaryDirectory() as room:
        hurried = {"LD_PRELOAD": str(built(SOURCE, room)), "HURRIED": str(HURRIED)}
        with Ending(serving, control(program, proxy.port, 1, hurried)):
            client = Client(serving.port)
            client.create("pods", pod("lone", {"set": HELD}))
            held = uid(client.create("replicasets", replica_set(HELD, REPLICAS)))
            until(lambda: controller(client.get("pods", "lone")) == held, "the pod was not adopted by the set whose read dripped")
            await_all(client, [HELD], more=0)
            until(lambda: len(proxy.left) == 2, lambda: f"{len(proxy.left)} of 2 were left that dripped")
            check(proxy.left[REPLY] < proxy.left[WATCH], f"the reply was left after {proxy.left[REPLY]:.1f} s, the watch after {proxy.left[WATCH]:.1f} s")
            proxy.close()
            return f"a reply that dripped was left after {proxy.left[REPLY]:.1f} s, a watch after {proxy.left[WATCH]:.1f} s, with a clock {HURRIED} times as fast"
