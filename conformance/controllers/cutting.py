"""A proxy that relays both ways, and cuts connections at random: in the midst of a request, of a reply, of a watch, or before any."""
import contextlib
import pathlib
import socket
import sys
import threading

sys.path[1:1] = [str(pathlib.Path(__file__).resolve().parent.parent / "following")]
from proxy import PIECE, Proxy

# Which part of the connections that are no watches is cut, and after how many bytes of a reply, or of a watch, at the most.
PART = 0.2
REPLY_BYTES = 1500
WATCH_BYTES = 30_000


class CuttingProxy(Proxy):
    """Relays connections to a port, and cuts each watch sooner or later, and some of the others, until it is told to be quiet.

    A request that is cut was not carried out, and who sent it cannot know: it may have been. A controller that loses the answer to a create
    goes on expecting the pod, makes no others of that set meanwhile, and looks again after 300 seconds; where the request had arrived, it sees
    the pod at once. So requests are cut only where there is time to wait for that, and where not, only what is answered: each request then
    arrives, and some are not known to have.
    """

    def __init__(self, port, seed, cuts_requests):
        self.connections, self.is_quiet, self.cuts_requests = 0, False, cuts_requests
        super().__init__(port, seed, cut_lists=0)

    def limits(self, request):
        """Returns after how many bytes of a request and of what is answered its connection is cut, if it is."""
        with self.lock:
            self.connections += 1
            if self.is_quiet:
                return None, None
            if b"watch=true" in request.split(b"\r\n", 1)[0]:
                return None, self.rolls.randrange(WATCH_BYTES)
            if self.rolls.random() >= PART:
                return None, None
            if self.cuts_requests and self.rolls.random() < 0.5:
                return self.rolls.randrange(len(request)), None
            return None, self.rolls.randrange(REPLY_BYTES)

    def relay(self, taken):
        """Relays one connection; one over which nothing is asked is left."""
        with contextlib.suppress(OSError), taken:
            if request := taken.recv(PIECE):
                asked, answered = self.limits(request)
                with socket.create_connection(("127.0.0.1", self.upstream)) as server:
                    self.relay_both(taken, server, request, asked, answered)

    def relay_both(self, taken, server, request, asked, answered):
        """Relays what is asked, of which the first bytes have come, and what is answered."""
        if asked is not None:
            server.sendall(request[:asked])
            return self.cut(taken, server)
        server.sendall(request)
        asking = threading.Thread(target=self.pump, args=(taken, server, None), daemon=True)
        asking.start()
        self.pump(server, taken, answered)
        close(taken, server)
        asking.join()

    def pump(self, source, sink, limit):
        """Relays bytes one way, to their end or to a limit, where both ways are cut."""
        left = limit
        with contextlib.suppress(OSError):
            while got := source.recv(PIECE):
                if left is not None and len(got) > left:
                    sink.sendall(got[:left])
                    return self.cut(source, sink)
                left = None if left is None else left - len(got)
                sink.sendall(got)
            sink.shutdown(socket.SHUT_WR)

    def cut(self, *ends):
        """Cuts a connection, and counts it."""
        with self.lock:
            self.cuts += 1
        close(*ends)


def close(*ends):
    """Ends both ways of connections."""
    for end in ends:
        with contextlib.suppress(OSError):
            end.shutdown(socket.SHUT_RDWR)
