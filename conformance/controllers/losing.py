"""Commands that are lost on their way, each once: no sign ever comes of some of them, and yet what was declared is there in the end."""
import collections
import contextlib
import random
import re
import socket
import threading
import time

from clients import Client
from cutting import PIECE, CuttingProxy, close
from objects import controller, name, pod, replica_set, staying, uid
from programs import Ending, control, server
from sets import EXPECTED_SECONDS, take_away
from waiting import check, until

# What is lost of a command: it never arrives, or the whole of what it was answered, or the second half of that.
REQUEST, REPLY, HALF = "request", "reply", "half"
LOSSES = [REQUEST, REPLY, HALF]
REPLICAS, FEWER = 5, 3
LENGTH = re.compile(rb"\r\nContent-Length: *(\d+)", re.IGNORECASE)
# Which part of all replies is lost, for how long.
PART, LOSING_SECONDS, BETWEEN_SECONDS = 0.3, 60, 0.2


def asks(method, kind):
    """Returns a test of whether a request is of this method and names an object of this kind, or all of it."""
    return lambda request: request.startswith(method) and kind in request.split(b"\r\n", 1)[0]


# How each kind of command begins: a pod made, taken away and adopted, and the status of a set.
COMMANDS = {
    "create": asks(b"POST ", b"/pods "),
    "delete": asks(b"DELETE ", b"/pods/"),
    "adopt": asks(b"PUT ", b"/pods/"),
    "status": asks(b"PUT ", b"/status "),
}
# One set for each command and each way to lose it, by name, and how many of these commands of the set arrive before: all are lost side by
# side, and waited for once.
SETS = {f"{command}-{loss}": (command, loss, 0) for command in COMMANDS for loss in LOSSES}
# Those of which nothing shows that the command was lost.
SILENT = ["create-request", "delete-request"]


def whole_request(taken):
    """Reads a request to the end of its body."""
    text = b""
    while got := taken.recv(PIECE):
        text += got
        head, _, body = text.partition(b"\r\n\r\n")
        length = LENGTH.search(head)
        if b"\r\n\r\n" in text and len(body) >= (int(length[1]) if length else 0):
            break
    return text


class LosingProxy(CuttingProxy):
    """Relays connections, and loses one command of each set, which one and how it is told; and some of all replies, while it is told so."""

    def __init__(self, port, seed=1, sets=()):
        self.left, self.part, self.lost = dict(sets), 0.0, 0
        super().__init__(port, seed, cuts_requests=False)

    def loss(self, request):
        """Returns what is to be lost of a request, if something is."""
        with self.lock:
            self.connections += 1
            for it, (command, loss, before) in self.left.items():
                if not (COMMANDS[command](request) and it.encode() in request):
                    continue
                if before:
                    self.left[it] = command, loss, before - 1
                    return None
                del self.left[it]
                return loss
            if b"watch=true" not in request.split(b"\r\n", 1)[0] and self.rolls.random() < self.part:
                self.lost += 1
                return REPLY
        return None

    def relay(self, taken):
        """Relays one connection; one over which nothing is asked is left."""
        with contextlib.suppress(OSError), taken:
            if not (request := whole_request(taken)):
                return
            loss = self.loss(request)
            if loss == REQUEST:
                return close(taken)
            with socket.create_connection(("127.0.0.1", self.upstream)) as upstream:
                upstream.sendall(request)
                self.answer(taken, upstream, loss)

    def answer(self, taken, upstream, loss):
        """Relays what is answered, but for what is lost of it."""
        if loss is None:
            return self.pump(upstream, taken, None)
        reply = b""
        while got := upstream.recv(PIECE):
            reply += got
        if loss == HALF:
            taken.sendall(reply[: len(reply) // 2])
        return close(taken)


def declare(client, sets, replicas=REPLICAS):
    """Declares what leads to each command: sets to make pods for, sets to be made smaller, and pods to be adopted."""
    for it in sets:
        if it.startswith("adopt"):
            client.create("pods", pod(f"{it}-lone", {"set": it}))
        client.create("replicasets", replica_set(it, 1 if it.startswith("adopt") else replicas))


def make_smaller(client, sets, replicas=REPLICAS, fewer=FEWER):
    """Makes the sets smaller whose deletes are to be lost, once they have all their pods: before, no delete is commanded."""
    for it in sets:
        if it.startswith("delete"):
            until(lambda it=it: owned(client)[it] == replicas, f"{it} has not got its pods")
            client.patch("replicasets", it, {"spec": {"replicas": fewer}})


def owned(client):
    """Returns how many pods each set has."""
    uids = {uid(it): name(it) for it in client.present("replicasets")}
    return collections.Counter(uids.get(controller(it)) for it in staying(client.present("pods")))


def missing(client, sets):
    """Returns the sets that do not have just the pods that they ask for, or whose status does not say so."""
    found, declared = owned(client), {name(it): it for it in client.present("replicasets")}
    return [it for it in sets if not declared[it]["spec"]["replicas"] == found[it] == declared[it]["status"].get("replicas")]


def await_all(client, sets, more=EXPECTED_SECONDS):
    """Waits until all sets have what they ask for, also those of which a controller expects what never comes."""
    until(lambda: not missing(client, sets), lambda: f"not as declared: {', '.join(missing(client, sets))}", more=more)


def each_lost_once(program, workers, is_short):
    """Each kind of command is lost once in each way. Where a pod's create or delete never arrived, nothing shows that it did not: the set is
    looked at again when the controller no longer expects to see it. In short, these two are left out."""
    sets = {it: how for it, how in SETS.items() if not (is_short and it in SILENT)}
    serving = server(program)
    proxy = LosingProxy(serving.port, sets=sets)
    with Ending(serving, control(program, proxy.port, workers)):
        client, began = Client(serving.port), time.monotonic()
        declare(client, sets)
        make_smaller(client, sets)
        await_all(client, sets)
        check(not proxy.left, f"never commanded: {', '.join(proxy.left)}")
        proxy.close()
        return f"{len(sets)} lost by {workers} workers, as declared after {time.monotonic() - began:.0f} s"


def replies_lost(program, seed):
    """A part of all replies is lost for a minute, while pods are taken away; then none is."""
    serving = server(program)
    proxy = LosingProxy(serving.port, seed)
    with Ending(serving, control(program, proxy.port)):
        client, rolls = Client(serving.port), random.Random(seed)
        declare(client, SETS)
        proxy.part, ended = PART, time.monotonic() + LOSING_SECONDS
        make_smaller(client, SETS)
        while time.monotonic() < ended:
            take_away(client, name(rolls.choice(staying(client.present("pods")))))
            time.sleep(BETWEEN_SECONDS)
        proxy.part = 0.0
        await_all(client, SETS)
        proxy.close()
        return f"{proxy.lost} replies of {proxy.connections} connections lost"


def lost_by(program, counts, is_short):
    """Loses each command once, with each number of workers at once: all wait for the same five minutes."""
    told, faults = {}, []

    def run(workers):
        try:
            told[workers] = each_lost_once(program, workers, is_short)
        except Exception as fault:
            faults.append(fault)

    threads = [threading.Thread(target=run, args=(it,), daemon=True) for it in counts]
    for it in threads:
        it.start()
    for it in threads:
        it.join()
    if faults:
        raise faults[0]
    return "; ".join(told[it] for it in counts)
