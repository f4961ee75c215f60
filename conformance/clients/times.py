#!/usr/bin/env python3
"""Measures what a test waits for that has a `kcp all` of its own: its start, three pods of a Deployment, and its end.

Usage: times.py --program PATH [--runs N]     the median of N runs, 20 if left out, in milliseconds
"""
import argparse
import http.client
import json
import statistics
import subprocess
import time

DEPLOYMENTS = "/apis/apps/v1/namespaces/default/deployments"
LABELS = {"app": "web"}
TEMPLATE = {"metadata": {"labels": LABELS}, "spec": {"containers": [{"name": "web", "image": "web:1"}]}}
WEB = {"metadata": {"name": "web"}, "spec": {"replicas": 3, "selector": {"matchLabels": LABELS}, "template": TEMPLATE}}
PARTS = ("until it listens", "three pods of a Deployment", "its end")


def asked(port, method, path, body=None):
    """Returns what the server answers."""
    connection = http.client.HTTPConnection("127.0.0.1", port, timeout=60)
    connection.request(method, path, json.dumps(body) if body else None)
    value = json.load(connection.getresponse())
    connection.close()
    return value


def run(program):
    """Returns how long each part took, in seconds."""
    began = time.perf_counter()
    started = subprocess.Popen([program, "all", "--port", "0"], stdin=subprocess.PIPE, stdout=subprocess.DEVNULL, stderr=subprocess.PIPE)
    port = int(started.stderr.readline().rsplit(b":", 1)[1])
    listening = time.perf_counter()
    asked(port, "POST", DEPLOYMENTS, WEB)
    while len(asked(port, "GET", "/api/v1/pods")["items"]) < 3:
        time.sleep(0.0005)
    made = time.perf_counter()
    started.stdin.close()
    started.wait()
    return listening - began, made - listening, time.perf_counter() - made


def main():
    parser = argparse.ArgumentParser(description=__doc__.splitlines()[0])
    parser.add_argument("--program", required=True)
    parser.add_argument("--runs", type=int, default=20)
    asked_for = parser.parse_args()
    times = [run(asked_for.program) for _ in range(asked_for.runs)]
    for part, found in zip(PARTS, zip(*times)):
        print(f"{part}: {statistics.median(found) * 1000:.0f} ms")


if __name__ == "__main__":
    main()
