"""Scenarios of connections that are left, or end, once a time is over; each starts a server of its own."""
import socket
import threading
import time

from peers import GET, MAPS, connected, created, late_seconds, open_files, opened_watch, read_to_end, serving
from waiting import check, until


def heads_in_time(program, asked):
    """A head that is not whole after ten seconds, and a request that is not after thirty, are left without a reply."""
    with serving(program) as server, connected(server.port) as head, connected(server.port) as body:
        began = time.monotonic()
        head.sendall(GET[:20])
        body.sendall(f"POST {MAPS} HTTP/1.1\r\nHost: localhost\r\nContent-Type: application/json\r\nContent-Length: 100\r\n\r\n{{".encode())
        check(read_to_end(head) == b"", "half a head was replied to")
        of_head = time.monotonic() - began
        check(9 < of_head < 10 + late_seconds(), f"half a head was left after {of_head:.1f} s")
        check(read_to_end(body) == b"", "half a request was replied to")
        of_body = time.monotonic() - began
        check(29 < of_body < 30 + late_seconds(), f"half a request was left after {of_body:.1f} s")
        return f"left after {of_head:.1f} s and {of_body:.1f} s"


def replies_never_read(program, asked):
    """A watcher that reads nothing of what may be left unwritten, and a peer that reads nothing of a long list: both are left half a minute after they
    last took something, and not before."""
    with serving(program) as server:
        alone = open_files(server)
        with opened_watch(server.port, 4096), connected(server.port, 4096) as listing:
            # As much as the system does not take of it, and less than may be left unwritten of a watch.
            for number in range(40):
                created(server.port, f"map-{number:02}", "x" * 100_000)
            listing.sendall(GET.replace(b"?limit=1", b""))
            until(lambda: open_files(server) == alone + 2, "connections that are over are held")
            began = time.monotonic()
            time.sleep(10)
            check(open_files(server) == alone + 2, "a peer that took something some seconds ago was left")
            until(lambda: open_files(server) == alone, "a peer that takes nothing is held", more=40)
            took = time.monotonic() - began
            check(took < 30 + late_seconds(), f"peers that take nothing were left after {took:.1f} s")
            return f"left after {took:.1f} s"


def peers_that_never_read(program, asked):
    """A watcher that reads nothing, of an object that changes until what is unwritten of it is far too much, is left; others see each event."""
    with serving(program, "--window", "65536") as server, opened_watch(server.port) as idle, opened_watch(server.port) as reading:
        idle.setsockopt(socket.SOL_SOCKET, socket.SO_RCVBUF, 4096)
        before, seen, is_over = open_files(server), [0], threading.Event()

        def read():
            while not is_over.is_set() and (some := reading.recv(1 << 20)):
                seen[0] += some.count(b'"type":"ADDED"')

        reader = threading.Thread(target=read, daemon=True)
        reader.start()
        text = "x" * 200_000
        for number in range(80):
            created(server.port, f"map-{number}", text)
        until(lambda: open_files(server) < before, "a watcher that reads nothing is held", more=40)
        until(lambda: seen[0] == 80, lambda: f"the other watcher saw {seen[0]} of 80 events")
        is_over.set()
        reading.shutdown(socket.SHUT_RDWR)
        reader.join()
        return "left, and the other saw 80 events"


def idle_watches_end(program, asked):
    """A watch that is told nothing ends by itself."""
    with serving(program) as server, opened_watch(server.port) as watch:
        began = time.monotonic()
        check(read_to_end(watch) == b"0\r\n\r\n", "a watch did not end with its last chunk")
        took = time.monotonic() - began
        check(9 < took < 60, f"an idle watch ended after {took:.1f} s")
        return f"an idle watch ended after {took:.1f} s"
