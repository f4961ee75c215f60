"""Many watchers on one thread, each of which is to see every event of a kind once, in order, from the first write on."""
import selectors
import socket

WATCH = "GET {}?watch=true&resourceVersion=1 HTTP/1.1\r\nHost: localhost\r\n\r\n"
MOST = 1 << 20


class One:
    """The connection of one watcher, and the bytes that came over it."""

    def __init__(self, port, path):
        self.came = bytearray()
        self.connection = socket.create_connection(("127.0.0.1", port))
        self.connection.sendall(WATCH.format(path).encode())
        self.connection.setblocking(False)

    def lines(self):
        """Returns the lines of the whole chunks that came."""
        _, _, rest = bytes(self.came).partition(b"\r\n\r\n")
        lines = []
        while True:
            size, mark, more = rest.partition(b"\r\n")
            if not mark or len(more) < int(size, 16) + 2:
                return lines
            lines.append(more[: int(size, 16)])
            rest = more[int(size, 16) + 2 :]


class Crowd:
    """Watchers that began at one time."""

    def __init__(self, port, path, count):
        self.is_over, self.selector = False, selectors.DefaultSelector()
        self.all = [One(port, path) for _ in range(count)]
        for one in self.all:
            self.selector.register(one.connection, selectors.EVENT_READ, one)

    def run(self):
        """Takes in what comes, until it is over."""
        while not self.is_over:
            for key, _ in self.selector.select(0.05):
                some = key.fileobj.recv(MOST)
                key.data.came += some
                if not some:
                    self.selector.unregister(key.fileobj)

    def faults(self, events):
        """Returns what is wrong, a line for each watcher that did not see as many events, in the order of the first one's."""
        first = self.all[0].lines()
        wrong = [] if len(first) == events else [f"the first of {len(self.all)} watchers saw {len(first)} of {events} events"]
        return wrong + [f"watcher {number} saw {len(it.lines())} events, and not the first one's {len(first)}" for number, it in enumerate(self.all) if it.lines() != first]
