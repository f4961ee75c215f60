#!/usr/bin/env python3
"""Measures what lists cost others at `kcp serve`, over loopback, a connection a request.

With many small ConfigMaps: how long a patch of one of them takes, alone, and beside clients that page through all of them by 500, each page after the
first from the list that its first one began, which is an earlier one as soon as something is patched.

With few large ones: how much memory the server takes beside what it has before, while so many clients take the whole list at once, and how long
that takes; and how long a get of a small object takes another meanwhile.

Usage: lists.py --program PATH [--threads N] [--objects N] [--pagers N] [--lists N] [--megabytes N]
  --program PATH   the executable of kcp
  --threads N      threads of the server, 16 if left out
  --objects N      how many small objects there are, 60000 if left out
  --pagers N       how many page through them, 4 if left out
  --lists N        how many take the whole list of large ones at once, 8 if left out
  --megabytes N    how long that list is, 104 if left out
It uses loopback alone, and writes nothing.
"""
import argparse
import importlib.util
import json
import multiprocessing
import pathlib
import socket
import statistics
import time

HERE = pathlib.Path(__file__).resolve().parent
SPEC = importlib.util.spec_from_file_location("bench_http", HERE / "http.py")
http = importlib.util.module_from_spec(SPEC)
SPEC.loader.exec_module(http)

# How many patches are timed, and gets beside lists; and how long a large object's text is.
ASKED, LARGE = 300, 800_000


def took(port, text, code=b"200"):
    """Asks, and returns how many milliseconds the reply took."""
    began = time.monotonic()
    with socket.create_connection(("127.0.0.1", port)) as asked:
        asked.sendall(text)
        came = asked.recv(http.PIECE)
        while asked.recv(http.PIECE):
            pass
    if not came.startswith(b"HTTP/1.1 " + code):
        raise SystemExit(f"{text[:80]!r}: {came[:200]!r}")
    return (time.monotonic() - began) * 1e3


def page_on(port, pages):
    """Pages through all objects, again and again, and counts the pages."""
    while True:
        token = b""
        while token is not None:
            last = b""
            with socket.create_connection(("127.0.0.1", port)) as asked:
                asked.sendall(http.request("GET", f"{http.MAPS}?limit={http.PAGE}" + (f"&continue={token.decode()}" if token else "")))
                while got := asked.recv(http.PIECE):
                    last = (last + got)[-http.LAST:]
            found = http.CONTINUE.search(last)
            token = found[1] if found else None
            with pages.get_lock():
                pages.value += 1


def take_list(port, least, seconds):
    """Takes the whole list, of so many bytes at least, and tells how many seconds that took; nothing where fewer came."""
    began, count = time.monotonic(), 0
    with socket.create_connection(("127.0.0.1", port)) as asked:
        asked.sendall(http.request("GET", http.MAPS))
        while got := asked.recv(http.PIECE):
            count += len(got)
    seconds.put(time.monotonic() - began if count >= least else None)


def shown(times):
    """Returns what is told of some times."""
    return f"{statistics.median(times):.2f} ms at the median, {sorted(times)[len(times) * 99 // 100]:.2f} at the 99th percentile, {max(times):.2f} at most"


def patches(port, objects):
    """Returns how many milliseconds some patches of objects all over the store took."""
    body = json.dumps({"data": {"text": "y" * 100}})
    merge = "Content-Type: application/merge-patch+json"
    times = []
    for number in range(ASKED):
        text = http.request("PATCH", f"{http.MAPS}/map-{number * 37 % objects:05}", body).replace(b"Content-Type: application/json", merge.encode())
        times.append(took(port, text))
        time.sleep(0.005)
    return times


def measure_patches(asked):
    """Prints how long patches take beside others that page."""
    with http.filled(asked.program, asked.threads, asked.objects) as server:
        print(f"a patch among {asked.objects:,} objects: {shown(patches(server.port, asked.objects))}", flush=True)
        pages = multiprocessing.Value("q", 0)
        pagers = [multiprocessing.Process(target=page_on, args=(server.port, pages), daemon=True) for _ in range(asked.pagers)]
        for it in pagers:
            it.start()
        time.sleep(0.5)
        began, before = time.monotonic(), pages.value
        times = patches(server.port, asked.objects)
        rate = (pages.value - before) / (time.monotonic() - began)
        for it in pagers:
            it.kill()
        print(f"beside {asked.pagers} that page by {http.PAGE}, {rate:,.0f} pages a second: {shown(times)}", flush=True)


def measure_memory(asked):
    """Prints how much memory whole lists take that are asked for at once."""
    with http.filled(asked.program, asked.threads, 1) as server:
        count = asked.megabytes * 1_000_000 // LARGE
        for number in range(count):
            server.ask("POST", http.MAPS, {"metadata": {"name": f"x-{number:05}"}, "data": {"text": "x" * LARGE}})
        server.forget_peak()
        before, seconds = server.memory(), multiprocessing.Queue()
        readers = [multiprocessing.Process(target=take_list, args=(server.port, count * LARGE, seconds)) for _ in range(asked.lists)]
        for it in readers:
            it.start()
        times = []
        while any(it.is_alive() for it in readers):
            times.append(took(server.port, http.request("GET", f"{http.MAPS}/map-00000")))
        more = server.memory("VmHWM") - before
        took_whole = [seconds.get() for _ in readers]
        if None in took_whole:
            raise SystemExit("a list did not come whole")
        slowest = max(took_whole)
        print(f"{asked.lists} lists of {asked.megabytes} MB at once: {more:.1f} MB beside the {before:.0f} MB of the store, {slowest:.2f} seconds")
        print(f"another's get meanwhile: {shown(times)}")


def main():
    parser = argparse.ArgumentParser(description=__doc__.splitlines()[0])
    parser.add_argument("--program", required=True)
    parser.add_argument("--threads", type=int, default=16)
    parser.add_argument("--objects", type=int, default=60_000)
    parser.add_argument("--pagers", type=int, default=4)
    parser.add_argument("--lists", type=int, default=8)
    parser.add_argument("--megabytes", type=int, default=104)
    asked = parser.parse_args()
    measure_patches(asked)
    measure_memory(asked)


if __name__ == "__main__":
    main()
