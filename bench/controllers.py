#!/usr/bin/env python3
"""Measures `kcp all`: how long the controllers take to make the pods of a Deployment, and to collect them.

A Deployment is created, and once all its pods are there it is deleted with `Background`. A watch of the pods shows how long it takes from the
moment at which the request is sent until the last pod is made, or gone. Each run begins with a program of its own that has worked
already, and each figure is the median. Then the program is let alone with the pods of a Deployment, and what it takes of a processor is
measured; and its resident memory is read once it has made many pods.

Usage: controllers.py --program PATH [--replicas N] [--runs N] [--pods N] [--idle S] [--workers N]
  --program PATH   the executable of kcp
  --replicas N     how many pods the Deployment has, 100 if left out
  --runs N         how many runs there are, 10 if left out
  --pods N         with how many pods memory is read, 10000 if left out; with 0 it is not
  --idle S         for how many seconds the program is let alone, 30 if left out
  --workers N      how many workers there are, 4 if left out
It uses loopback alone.
"""
import argparse
import os
import pathlib
import re
import socket
import statistics
import sys
import threading
import time

ROOT = pathlib.Path(__file__).resolve().parent.parent
sys.dont_write_bytecode = True
# A file of this folder has the name of a library that is used, so the folder is not looked into.
sys.path[:1] = [str(ROOT / "conformance" / "controllers")]
from clients import Client, path
from objects import deployment, replica_set
from programs import AllInOne, Ending
from waiting import Limit, Wrong, until

NAME = "web"
SECONDS = 600
PIECE = 65_536
# At most so many pods are asked of one set.
OF_ONE_SET = 500
# For how long the program is let be before it counts as idle: what it was busy with has come to an end.
REST_SECONDS = 2
AIMS = {"all pods made": 10, "all collected after its deletion": 15}


class Counting:
    """Watches pods after a revision, in a thread, until so many frames of a type have come, and notes when the last of them was read."""

    def __init__(self, port, revision, way, count):
        self.mark, self.left, self.at, self.is_over = f'"type":"{way}"}}'.encode(), count, None, threading.Event()
        self.connection = socket.create_connection(("127.0.0.1", port))
        self.connection.sendall(f"GET {path('pods')}?watch=true&resourceVersion={revision} HTTP/1.1\r\nHost: localhost\r\n\r\n".encode())
        threading.Thread(target=self.run, daemon=True).start()

    def run(self):
        tail = b""
        while self.left > 0 and (got := self.connection.recv(PIECE)):
            self.at, text = time.monotonic(), tail + got
            self.left -= text.count(self.mark)
            tail = text[-len(self.mark) + 1 :]
        self.is_over.set()
        self.connection.close()

    def milliseconds_since(self, began):
        """Waits for the last frame, and returns how many milliseconds it came after a moment."""
        if not self.is_over.wait(SECONDS) or self.left > 0:
            raise Wrong(f"{self.left} frames with {self.mark.decode()} have not come")
        return (self.at - began) * 1000


def all_in_one(program, workers):
    """Starts `kcp all` on a free port, with what it records and serves by default."""
    return Ending(AllInOne([program, "all", "--port", 0, "--workers", workers]))


def warmed(port):
    """Has a pod made and collected, and returns a client of the program, in which nothing is left."""
    client = Client(port)
    client.create("replicasets", replica_set("first", 1))
    until(lambda: client.present("pods"), "no pod is made")
    client.delete("replicasets", "first", "Background")
    until(lambda: not client.present("pods"), "a pod is not collected")
    return client


def measure(client, way, count, request):
    """Returns how many milliseconds it takes from a request until so many pods have changed."""
    counting = Counting(client.port, client.list("pods")[1], way, count)
    began = time.monotonic()
    request()
    return counting.milliseconds_since(began)


def run(program, workers, replicas):
    """Returns in how many milliseconds the pods are made, and in how many all is collected."""
    with all_in_one(program, workers) as running:
        client = warmed(running.programs[0].port)
        made = measure(client, "ADDED", replicas, lambda: client.create("deployments", deployment(NAME, replicas, "web:1")))
        gone = measure(client, "DELETED", replicas, lambda: client.delete("deployments", NAME, "Background"))
        until(lambda: not any(client.present(it) for it in ("pods", "replicasets")), "not all is collected")
        return made, gone


def processor_seconds(pid):
    """Returns how long a program has run on processors, in all."""
    fields = pathlib.Path(f"/proc/{pid}/stat").read_text().rsplit(") ", 1)[1].split()
    return (int(fields[11]) + int(fields[12])) / os.sysconf("SC_CLK_TCK")


def count_of(client):
    """Returns how many pods there are: the first, and those that remain."""
    value = client.ask("GET", f"{path('pods')}?limit=1")
    return len(value["items"]) + value["metadata"].get("remainingItemCount", 0)


def idle_share(program, workers, replicas, seconds):
    """Returns what the program takes of a processor while nothing is to do."""
    with all_in_one(program, workers) as running:
        started = running.programs[0]
        client, pid = Client(started.port), started.started.pid
        client.create("deployments", deployment(NAME, replicas, "web:1"))
        until(lambda: count_of(client) == replicas, f"not all of {replicas} pods are there")
        time.sleep(REST_SECONDS)
        before = processor_seconds(pid)
        time.sleep(seconds)
        return (processor_seconds(pid) - before) / seconds


def resident(program, workers, pods):
    """Returns the resident memory in MB with so many pods, and in how many seconds they were made."""
    with all_in_one(program, workers) as running:
        started = running.programs[0]
        client, began = Client(started.port), time.monotonic()
        for first in range(0, pods, OF_ONE_SET):
            client.create("replicasets", replica_set(f"set-{first:06}", min(OF_ONE_SET, pods - first)))
        until(lambda: count_of(client) == pods, f"not all of {pods} pods are there")
        took = time.monotonic() - began
        time.sleep(REST_SECONDS)
        status = pathlib.Path(f"/proc/{started.started.pid}/status").read_text()
        return int(re.search(r"VmRSS:\s+(\d+) kB", status)[1]) / 1000, took


def show(asked, runs, share, memory):
    """Prints the figures."""
    load = ", ".join(f"{number:.2f}" for number in os.getloadavg())
    print(f"{asked.runs} runs, {asked.workers} workers, {os.cpu_count()} processors, load average {load}")
    print(f"| Deployment of {asked.replicas} | milliseconds, median | least | greatest | aim |")
    print("|---|---|---|---|---|")
    for (what, aim), spent in zip(AIMS.items(), zip(*runs)):
        print(f"| {what} | {statistics.median(spent):,.1f} | {min(spent):,.1f} | {max(spent):,.1f} | {aim} |")
    print(f"\nIdle, with these pods: {share:.2%} of a processor over {asked.idle} s; the aim is 1%")
    if memory:
        print(f"Resident memory with {asked.pods:,} pods: {memory[0]:.1f} MB, the aim is 120; they were made in {memory[1]:.1f} s")


def main():
    parser = argparse.ArgumentParser(description=__doc__.splitlines()[0])
    parser.add_argument("--program", required=True)
    for name, default in (("replicas", 100), ("runs", 10), ("pods", 10_000), ("idle", 30), ("workers", 4)):
        parser.add_argument(f"--{name}", type=int, default=default)
    asked = parser.parse_args()
    program, Limit.seconds = str(pathlib.Path(asked.program).resolve()), SECONDS
    try:
        runs = [run(program, asked.workers, asked.replicas) for _ in range(asked.runs)]
        share = idle_share(program, asked.workers, asked.replicas, asked.idle)
        memory = resident(program, asked.workers, asked.pods) if asked.pods else None
    except Wrong as fault:
        sys.exit(f"controllers.py: {fault}")
    show(asked, runs, share, memory)


if __name__ == "__main__":
    main()
