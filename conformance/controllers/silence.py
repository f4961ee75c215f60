"""Watches that fall silent, as where a machine between is gone: nothing comes of them any more, no end either."""
import contextlib
import socket
import threading
import time

from clients import Client
from cutting import PIECE, CuttingProxy
from losing import whole_request
from objects import replica_set, staying
from programs import Ending, control, server
from waiting import check, until

BEFORE, AFTER = 2, 3
# Each kind is followed by a watch of its own.
WATCHES = 4


class SilentProxy(CuttingProxy):
    """Relays connections. Those that are there when it is told to fall silent are held, and nothing more is relayed over them."""

    def __init__(self, port):
        self.silence, self.held = threading.Event(), 0
        super().__init__(port, seed=1, cuts_requests=False)

    def fall_silent(self):
        """Relays nothing more over the connections that are there."""
        self.silence.set()
        self.silence = threading.Event()

    def relay(self, taken):
        """Relays one connection; once it is silent it is held until the peer leaves it."""
        silence = self.silence
        with contextlib.suppress(OSError), taken:
            if not (request := whole_request(taken)):
                return
            with socket.create_connection(("127.0.0.1", self.upstream)) as upstream:
                upstream.sendall(request)
                while (got := upstream.recv(PIECE)) and not silence.is_set():
                    taken.sendall(got)
            if silence.is_set():
                with self.lock:
                    self.held += 1
                while taken.recv(PIECE):
                    pass


def silent_watches(program):
    """All watches fall silent, and a set is declared that nobody hears of: who follows gives the silent watches up, and asks again."""
    serving = server(program)
    proxy = SilentProxy(serving.port)
    with Ending(serving, control(program, proxy.port)):
        client = Client(serving.port)

        def pods():
            return len(staying(client.present("pods")))

        client.create("replicasets", replica_set("heard", BEFORE))
        until(lambda: pods() == BEFORE, "the first set has not got its pods")
        proxy.fall_silent()
        began = time.monotonic()
        client.create("replicasets", replica_set("unheard", AFTER))
        until(lambda: pods() == BEFORE + AFTER, lambda: f"there are {pods()} pods")
        check(proxy.held >= WATCHES, f"{proxy.held} connections fell silent, not those of {WATCHES} watches")
        proxy.close()
        return f"{proxy.held} watches fell silent, and what was declared then was heard of after {time.monotonic() - began:.0f} s"
