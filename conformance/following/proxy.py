"""A proxy before a server that cuts connections, and at times takes none."""
import collections
import contextlib
import random
import socket
import threading

from asking import LIST, STREAM, WATCH, asked_for, refusal

PIECE = 4096
# What a reply says where what was asked for is no longer known, in its head or in an event.
EXPIRED = (b"HTTP/1.1 410 ", b'"code":410')


class Proxy:
    """Relays connections to a port in pieces of random sizes, the first few lists and streams of initial events but in part. It counts what is
    asked over it, and the expiries. Where a status code is given, it answers streams by itself with that, as a server that refuses them."""

    def __init__(self, port, seed, cut_lists, refusal_code=None):
        self.cut_lists, self.refusal_code, self.upstream, self.is_down = cut_lists, refusal_code, port, False
        self.rolls, self.lock = random.Random(seed), threading.Lock()
        self.open, self.asked, self.expiries, self.cuts = {}, collections.Counter(), 0, 0
        self.listener = socket.create_server(("127.0.0.1", 0))
        self.port = self.listener.getsockname()[1]
        threading.Thread(target=self.accept, daemon=True).start()

    def accept(self):
        """Takes connections until the listener is closed."""
        with contextlib.suppress(OSError):
            while True:
                taken, _ = self.listener.accept()
                if self.is_down:
                    taken.close()
                else:
                    threading.Thread(target=self.relay, args=(taken,), daemon=True).start()

    def relay(self, taken):
        """Relays one request and its reply."""
        with contextlib.suppress(OSError), taken:
            request = taken.recv(65536)
            what = asked_for(request)
            with self.lock:
                self.asked[what] += 1
            if what == STREAM and self.refusal_code:
                return taken.sendall(refusal(self.refusal_code))
            with socket.create_connection(("127.0.0.1", self.upstream)) as server:
                server.sendall(request)
                self.answer(taken, server, what)
        with self.lock:
            self.open.pop(taken, None)
        return None

    def answer(self, taken, server, what):
        """Relays what a server answers, in pieces of random sizes."""
        relayed, last, is_expired = 0, b"", False
        while (got := server.recv(self.rolls.choice((1, 7, 100, PIECE)))) and not self.is_down:
            last = last[-16:] + got
            if not is_expired and any(it in last for it in EXPIRED):
                is_expired, self.expiries = True, self.expiries + 1
            taken.sendall(got)
            relayed += len(got)
            if what in (LIST, STREAM) and self.cut_lists and relayed > 100:
                self.cut_lists, self.cuts = self.cut_lists - 1, self.cuts + 1
                break
            # The head of a watch takes fewer bytes: past these it has shown a change.
            if what in (WATCH, STREAM) and relayed > 600:
                with self.lock:
                    self.open[taken] = server

    def cut(self):
        """Cuts a watch that has shown a change, if one is open, wherever it is. Returns whether one was."""
        with self.lock:
            if not self.open:
                return False
            taken, server = self.open.popitem()
            self.cuts += 1
        for end in (taken, server):
            with contextlib.suppress(OSError):
                end.shutdown(socket.SHUT_RDWR)
        return True

    def go_down(self):
        """Takes no connections until it comes up again, and cuts those that are there: what is open at once, another with its next piece."""
        self.is_down = True
        while self.cut():
            pass

    def come_up(self):
        """Takes connections again."""
        self.is_down = False

    def close(self):
        self.listener.close()
