#!/usr/bin/env python3
"""Has one `kcp serve` hold many connections at once, slow ones among them, and checks that nobody waits for them.

Each scenario starts a server of its own. Times are told, and are wrong only where they are far from what is meant, since other work may be
done beside: `--strict` takes them as they are meant.
Usage: many.py --program PATH [--strict] [--watches N] [--limit SECONDS] [WORD]      WORD: only scenarios whose name has it
"""
import argparse
import concurrent.futures
import contextlib
import json
import pathlib
import resource
import select
import statistics
import sys
import threading
import time

sys.dont_write_bytecode = True
import deadlines
from peers import GET, MAPS, PODS, Times, connected, created, got, limited, open_files, opened_watch, read_to_end, serving, used_by, within
from programs import AllInOne, Listener
from waiting import Limit, check, until

# For how long a watch is told nothing. It looks by itself, too, every 30 ms.
IDLE_SECONDS = 0.05
# How many descriptors are left to a server that has few.
FEW = 6


def beside_slow_peers(program, asked):
    """200 connections that send half a head, and 100 that send a byte a second: another client's 1,000 lists."""
    with serving(program) as server, contextlib.ExitStack() as held:
        for _ in range(200):
            held.enter_context(connection := connected(server.port))
            connection.sendall(GET[:20])
        dripping, is_over = [held.enter_context(connected(server.port)) for _ in range(100)], threading.Event()

        def drip():
            for at in range(len(GET)):
                for connection in dripping:
                    with contextlib.suppress(OSError):
                        connection.sendall(GET[at : at + 1])
                if is_over.wait(1):
                    return

        threading.Thread(target=drip, daemon=True).start()
        began, times = time.monotonic(), [got(server.port) for _ in range(1000)]
        is_over.set()
        return within(time.monotonic() - began, 2, "1,000 lists") + f", the slowest {max(times) * 1000:.1f} ms"


def all_at_once(program, asked):
    """1,000 connections are open at once, and then each asks."""
    with serving(program) as server, contextlib.ExitStack() as held:
        connections = [held.enter_context(connected(server.port)) for _ in range(1000)]
        began = time.monotonic()
        for connection in connections:
            connection.sendall(GET)
        for connection in connections:
            came = read_to_end(connection)
            check(came.startswith(b"HTTP/1.1 200 OK\r\n"), f"a list was answered {came[:200]!r}")
        return within(time.monotonic() - began, 2, "1,000 replies")


def idle_watches(program, asked):
    """Thousands of watches of which none has anything to be told, and then one event to all; then they are closed."""
    with serving(program) as server, contextlib.ExitStack() as held:
        before = open_files(server)
        connections = [held.enter_context(opened_watch(server.port)) for _ in range(asked.watches)]
        began, (used, _) = time.monotonic(), used_by(server)
        time.sleep(5)
        more, resident = used_by(server)
        part = (more - used) / (time.monotonic() - began)
        check(part <= 0.02 * Times.loose, f"{asked.watches} idle watches take {part:.1%} of a processor")
        check(resident <= 60e6 * min(Times.loose, 2), f"{asked.watches} idle watches take {resident / 1e6:.0f} MB")
        began = time.monotonic()
        created(server.port, "a")
        for connection in connections:
            check(b'"type":"ADDED"' in connection.recv(65536), "a watch did not tell an event")
        told = within(time.monotonic() - began, 0.1, f"an event to {asked.watches} watches")
        began = time.monotonic()
        held.close()
        until(lambda: open_files(server) <= before + 1, "closed watches are held")
        return f"{part:.2%} of a processor, {resident / 1e6:.0f} MB, {told}, {within(time.monotonic() - began, 1, 'closing them')}"


def events_to_watchers(program, asked):
    """An event to 1,000 watchers, again and again: when the last of them has it."""
    with serving(program) as server, contextlib.ExitStack() as held:
        connections = [held.enter_context(opened_watch(server.port)) for _ in range(min(asked.watches, 1000))]
        times = []
        for number in range(20):
            began = time.monotonic()
            created(server.port, f"map-{number}")
            for connection in connections:
                check(b'"type":"ADDED"' in connection.recv(65536), "a watch did not tell an event")
            times.append(time.monotonic() - began)
        return within(statistics.median(times), 0.03, f"the last of {len(connections)} watchers, at the median, read in Python,")


def one_thread(program, asked):
    """A server of one thread, and 100 watches."""
    with serving(program, "--threads", "1") as server, contextlib.ExitStack() as held:
        for _ in range(100):
            held.enter_context(opened_watch(server.port))
        return within(statistics.median(got(server.port) for _ in range(100)), 0.01, "a list beside 100 watches, at the median,")


def beside_a_silent_peer(program, asked):
    """A server of one thread, and a peer that sends half a head and then nothing: another client is answered."""
    with serving(program, "--threads", "1") as server, connected(server.port) as silent:
        silent.sendall(GET[:20])
        return f"a list after {got(server.port):.1f} s"


def beside_an_idle_watch(program, asked):
    """A server of one thread, and a watch that has nothing to be told: another client is answered."""
    with serving(program, "--threads", "1") as server, opened_watch(server.port):
        return f"a list after {got(server.port):.1f} s"


def handed_on(program, asked):
    """Two loops, of which the one that accepts hands lists to the other: they are answered at once, too."""
    with serving(program, "--threads", "2") as server:
        return within(statistics.median(got(server.port) + got(server.port) for _ in range(20)), 0.01, "two lists, handed to the other loop, at the median,")


def long_lists(program, asked):
    """One loop, and a list that is written in many pieces: peers that take it at once or little by little read the same whole text, while one that
    reads nothing is waited for, and others are answered."""
    names = [f"map-{number:02}" for number in range(40)]
    with serving(program, "--threads", "1") as server, connected(server.port) as silent:
        for name in names:
            created(server.port, name, "x" * 100_000)
        whole = GET.replace(b"?limit=1", b"")
        silent.sendall(whole)

        def read(most):
            with connected(server.port) as connection:
                connection.sendall(whole)
                came = bytearray()
                while some := connection.recv(most):
                    came += some
                    time.sleep(0 if most > 65536 else 0.001)
                return bytes(came)

        with concurrent.futures.ThreadPoolExecutor(6) as pool:
            reading = [pool.submit(read, most) for most in [1 << 20, 16384, 65536] * 2]
            slowest = max(got(server.port) for _ in range(20))
            texts = [it.result() for it in reading]
        head, _, body = texts[0].partition(b"\r\n\r\n")
        check(all(text == texts[0] for text in texts), "two peers read another list")
        check(f"Content-Length: {len(body)}\r\n".encode() in head + b"\r\n", f"a list of {len(body)} bytes has the head {head!r}")
        check([it["metadata"]["name"] for it in json.loads(body)["items"]] == names, "a list does not name each object once, in order")
        return within(slowest, 0.1, f"six lists of {len(body):,} bytes, and another's slowest")


def long_bodies(program, asked):
    """Peers that write a body which is much too long, before they read anything: each gets its refusal."""
    body = json.dumps({"metadata": {"name": "a"}, "data": {"text": "x" * 8_000_000}}).encode()
    head = f"POST {MAPS} HTTP/1.1\r\nHost: localhost\r\nContent-Type: application/json\r\nContent-Length: {len(body)}\r\n\r\n".encode()
    with serving(program) as server:
        for _ in range(20):
            with connected(server.port) as connection:
                connection.sendall(head + body)
                came = read_to_end(connection)
                check(came.startswith(b"HTTP/1.1 413 "), f"a body of {len(body):,} bytes was answered {came[:200]!r}")
    return f"20 bodies of {len(body):,} bytes refused"


def lists_pause(program, asked):
    """One loop, and two peers that take long lists as fast as these come: others are answered between the pieces, and each list comes to its end."""
    over = threading.Event()
    with serving(program, "--threads", "1") as server:
        for name, text in [("first", "x"), *((f"map-{number:03}", "x" * 100_000) for number in range(160))]:
            created(server.port, name, text)

        def read_list():
            began = time.monotonic()
            with connected(server.port) as connection:
                connection.sendall(GET.replace(b"?limit=1", b""))
                while connection.recv(1 << 20):
                    pass
            return time.monotonic() - began

        def read_lists():
            times = []
            while not over.is_set():
                times.append(read_list())
            return times

        # Nothing else wakes the loop then.
        within(read_list(), 0.3, "a list of 16 MB alone")
        with concurrent.futures.ThreadPoolExecutor(2) as pool:
            reading = [pool.submit(read_lists) for _ in range(2)]
            time.sleep(0.1)
            others = [got(server.port) for _ in range(60)]
            over.set()
            lists = [it for reader in reading for it in reader.result()]
        within(statistics.median(lists), 0.5, "a list of 16 MB, at the median,")
        return within(statistics.median(others), 0.1, "beside two that take lists of 16 MB, another's short list, at the median,")


def writes_wake_watches(program, asked):
    """A watch that nothing was told for a while hears of a write at once, again and again: not only at its next turn."""
    with serving(program) as server, opened_watch(server.port) as watch:
        times = []
        for number in range(20):
            time.sleep(IDLE_SECONDS)
            began = time.monotonic()
            created(server.port, f"map-{number}")
            check(b'"type":"ADDED"' in watch.recv(65536), "a watch did not tell an event")
            times.append(time.monotonic() - began)
        return within(statistics.median(times), 0.01, "an event to an idle watch, at the median,")


def large_changes(program, asked):
    """A peer that reads nothing for a while, and then all that comes: each change is told, however many bytes a look takes in."""
    count, event, came, told = 150, b'"type":"ADDED"', b"", 0
    with serving(program) as server, opened_watch(server.port, 65536) as watch:
        for number in range(count):
            created(server.port, f"map-{number:03}", "x" * 100_000)
        while told < count:
            some = watch.recv(1 << 20)
            check(some, f"a watch was cut after {told} of {count} events")
            told += (came + some).count(event)
            came = (came + some)[-len(event) + 1 :]
    return f"{count} events of 100 KB"


def crowd(server):
    """Makes many connections at once, and closes them."""
    with contextlib.ExitStack() as held:
        for _ in range(10 * FEW):
            held.enter_context(connected(server.port))
        time.sleep(1)


def out_of_descriptors(program, asked):
    """More connections at once than a server has descriptors, which are closed; and then one for which there is none, until there is."""
    with serving(program, "--threads", "16") as server:
        few = open_files(server) + FEW
        limited(server, few)
        crowd(server)
        told = within(got(server.port), 1, "a list once they are closed")
        limited(server, 0)
        # A thread that waits for a connection has the descriptor for it already: these are used up.
        crowd(server)
        with connected(server.port) as late:
            late.sendall(GET)
            time.sleep(1)
            check(not select.select([late], [], [], 0)[0], "a connection was answered without a descriptor")
            limited(server, few)
            began = time.monotonic()
            check(read_to_end(late).startswith(b"HTTP/1.1 200 OK\r\n"), "a connection that had waited for a descriptor was not answered")
        return f"{told}, {within(time.monotonic() - began, 1, 'and one that waited for a descriptor')}"


def ends_after_requests(program, asked):
    """A server that ends after so many connections: watches get their last chunk."""
    server = Listener([program, "serve", "--port", "0", "--requests", "3"])
    try:
        watches = [opened_watch(server.port) for _ in range(2)]
        got(server.port)
        began = time.monotonic()
        for watch in watches:
            check(read_to_end(watch).endswith(b"0\r\n\r\n"), "a watch did not get its last chunk")
        status = server.started.wait(Limit.seconds)
        check(status == 0, f"kcp serve ended with status {status}")
        return within(time.monotonic() - began, 2, "ended with two watches")
    finally:
        server.kill()


def ends_with_input(program, asked):
    """A `kcp all` whose input ends, beside 100 watches."""
    server = AllInOne([program, "all", "--port", "0"])
    try:
        watches = [opened_watch(server.port) for _ in range(100)]
        began = time.monotonic()
        server.started.stdin.close()
        for watch in watches:
            check(read_to_end(watch).endswith(b"0\r\n\r\n"), "a watch did not get its last chunk")
        status = server.started.wait(Limit.seconds)
        check(status == 0, f"kcp all ended with status {status}")
        return within(time.monotonic() - began, 2, "ended with 100 watches")
    finally:
        server.kill()


def cut_at_a_stop(program, asked):
    """A `kcp all` whose input ends, beside a watch whose peer reads nothing of what is to be told: it is cut without its last chunk, as events are left
    out, and a watch that was told all has its own."""
    count, event, last = 60, b'"type":"ADDED"', b"0\r\n\r\n"
    server = AllInOne([program, "all", "--port", "0"])
    try:
        told = opened_watch(server.port, path=PODS)
        for number in range(count):
            created(server.port, f"map-{number:03}", "x" * 100_000)
        behind = opened_watch(server.port, 65536)
        time.sleep(IDLE_SECONDS)
        server.started.stdin.close()
        check(read_to_end(told).endswith(last), "a watch that was told all did not get its last chunk")
        came = read_to_end(behind)
        check(came.count(event) < count, "a watch whose peer read nothing was told all events")
        check(not came.endswith(last), f"a watch that was told {came.count(event)} of {count} events got its last chunk")
        status = server.started.wait(Limit.seconds)
        check(status == 0, f"kcp all ended with status {status}")
        return f"cut after {came.count(event)} of {count} events"
    finally:
        server.kill()


SCENARIOS = {
    "beside-slow-peers": beside_slow_peers,
    "all-at-once": all_at_once,
    "idle-watches": idle_watches,
    "events-to-watchers": events_to_watchers,
    "one-thread": one_thread,
    "heads-in-time": deadlines.heads_in_time,
    "replies-never-read": deadlines.replies_never_read,
    "peers-that-never-read": deadlines.peers_that_never_read,
    "beside-a-silent-peer": beside_a_silent_peer,
    "beside-an-idle-watch": beside_an_idle_watch,
    "handed-on": handed_on,
    "long-lists": long_lists,
    "long-bodies": long_bodies,
    "lists-pause": lists_pause,
    "idle-watches-end": deadlines.idle_watches_end,
    "writes-wake-watches": writes_wake_watches,
    "large-changes": large_changes,
    "out-of-descriptors": out_of_descriptors,
    "ends-after-requests": ends_after_requests,
    "ends-with-input": ends_with_input,
    "cut-at-a-stop": cut_at_a_stop,
}
# These wait for what comes after a long time.
LONG = {"heads-in-time", "idle-watches-end", "peers-that-never-read", "replies-never-read"}


def run(name, scenario, program, asked):
    """Runs a scenario, says what came of it, and returns whether it went well."""
    began = time.monotonic()
    try:
        told = scenario(program, asked)
    except Exception as fault:
        print(f"FAILED {name}: {type(fault).__name__}: {fault}, {time.monotonic() - began:.1f} s", flush=True)
        return False
    print(f"{name}: {told}, {time.monotonic() - began:.1f} s", flush=True)
    return True


def main():
    parser = argparse.ArgumentParser(description=__doc__.splitlines()[0])
    parser.add_argument("--program", required=True)
    parser.add_argument("--strict", action="store_true")
    parser.add_argument("--watches", type=int, default=5000)
    parser.add_argument("--limit", type=float, default=60)
    parser.add_argument("word", nargs="?", default="")
    asked = parser.parse_args()
    Times.loose, Limit.seconds = 1 if asked.strict else Times.loose, asked.limit
    _, most = resource.getrlimit(resource.RLIMIT_NOFILE)
    resource.setrlimit(resource.RLIMIT_NOFILE, (most, most))
    # Each watch takes a descriptor here and one there.
    asked.watches = min(asked.watches, most - 500)
    program = str(pathlib.Path(asked.program).resolve())
    wanted = {name: scenario for name, scenario in SCENARIOS.items() if asked.word in name}
    # Those that wait for half a minute do so at one time, before the others.
    with concurrent.futures.ThreadPoolExecutor(len(LONG)) as pool:
        went_well = list(pool.map(lambda name: run(name, wanted[name], program, asked), LONG & wanted.keys()))
    went_well += [run(name, scenario, program, asked) for name, scenario in wanted.items() if name not in LONG]
    print(f"{sum(went_well)} passed, {len(went_well) - sum(went_well)} failed")
    sys.exit(0 if went_well and all(went_well) else 1)


if __name__ == "__main__":
    main()
