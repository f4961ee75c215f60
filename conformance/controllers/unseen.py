"""What comes and goes while nobody is told of it, between two lists of its kind: what it leaves to be done is done all the same."""
import collections
import contextlib
import socket
import threading
import time

from clients import Client
from cutting import close
from losing import LosingProxy, whole_request
from objects import controller, deployment, name, pod, replica_set, staying, uid
from programs import Ending, control, server
from understanding import reply
from waiting import check, until

# Beside the proxies, which put its folder where it is found.
from asking import WATCH, asked_for

EXPIRED = reply("410 Gone", b'{"kind":"Status","apiVersion":"v1","status":"Failure","reason":"Expired","code":410}')
PLURALS = ("configmaps", "pods", "replicasets", "deployments")
REPLICAS, QUIET_SECONDS = 2, 1.0
# An owner that no server here has.
NOBODY = {"apiVersion": "v1", "kind": "ConfigMap", "name": "nobody", "uid": "8a5f1c1e-5b1c-4c5e-9f0e-0c8f6a3b7d21"}


class HidingProxy(LosingProxy):
    """Relays connections. A kind that is hidden is not told of: its watch is cut, and what is asked of all of it then is held. Once it is shown
    again its next watch is answered that the revision has expired. Live reads are relayed, and counted by kind and name."""

    def __init__(self, port):
        self.hidden, self.held, self.open, self.expired = {}, collections.Counter(), {}, set()
        self.asked, self.reads = collections.Counter(), collections.Counter()
        super().__init__(port)

    def hide(self, plural):
        """Cuts the watch of a kind, and waits until the next one is held."""
        with self.lock:
            self.hidden[plural] = threading.Event()
            before, ends = self.held[plural], self.open.pop(plural, [])
        for end in ends:
            with contextlib.suppress(OSError):
                end.shutdown(socket.SHUT_RDWR)
        until(lambda: self.held[plural] > before, f"no watch of {plural} was asked for again")

    def show(self, plural):
        """Hides a kind no longer, and has its next watch expire."""
        with self.lock:
            self.expired.add(plural)
            self.hidden.pop(plural).set()

    def relay(self, taken):
        """Relays one connection, or holds it."""
        with contextlib.suppress(OSError), taken:
            if not (request := whole_request(taken)):
                return
            plural, what = self.noted(request)
            self.hold(plural)
            if what == WATCH and self.has_expired(plural):
                taken.sendall(EXPIRED)
                return close(taken)
            with socket.create_connection(("127.0.0.1", self.upstream)) as upstream:
                if what:
                    with self.lock:
                        self.open[plural] = [taken, upstream]
                upstream.sendall(request)
                self.pump(upstream, taken, None)

    def hold(self, plural):
        """Waits until a kind is not hidden."""
        if hidden := self.hidden.get(plural):
            with self.lock:
                self.held[plural] += 1
            hidden.wait()

    def has_expired(self, plural):
        """Returns whether the watch of a kind is to be answered that its revision has expired: once."""
        with self.lock:
            is_next = plural in self.expired
            self.expired.discard(plural)
            return is_next

    def noted(self, request):
        """Counts what is asked. Returns the kind of which all is asked for, and how, or nothing twice."""
        method, target = request.split(b" ")[:2]
        parts = target.decode().partition("?")[0].split("/")
        with self.lock:
            if method == b"GET" and parts[-1] in PLURALS:
                self.asked[parts[-1]] += 1
                return parts[-1], asked_for(request)
            if method == b"GET":
                self.reads["/".join(parts[-2:])] += 1
            else:
                self.asked[f"{method.decode()} {parts[-1]}"] += 1
        return None, None


def reference(owner):
    """Returns a reference to a ConfigMap."""
    return {"apiVersion": "v1", "kind": "ConfigMap", "name": name(owner), "uid": uid(owner)}


def collected(client, marker):
    """Makes an object whose owner is not there, and waits until it is collected: then all kinds were listed, and what was owed before is done."""
    client.create("configmaps", {"metadata": {"name": marker, "ownerReferences": [NOBODY]}})
    until(lambda: not client.get("configmaps", marker), f"{marker} was not collected")


@contextlib.contextmanager
def hidden_at(program, *plurals):
    """Gives a client, and a proxy before the server at which the controllers work, which hides these kinds once all were listed."""
    serving = server(program)
    proxy = HidingProxy(serving.port)
    with Ending(serving, control(program, proxy.port)):
        client = Client(serving.port)
        collected(client, "first")
        for plural in plurals:
            proxy.hide(plural)
        yield client, proxy
        proxy.close()


def after(began):
    return f"after {time.monotonic() - began:.1f} s"


def settled(proxy):
    """Waits until nothing has been read live for a while, and returns how often anything was."""
    counted, since = -1, time.monotonic()

    def is_quiet():
        nonlocal counted, since
        if (now := proxy.reads.total()) != counted:
            counted, since = now, time.monotonic()
        return time.monotonic() - since > QUIET_SECONDS

    until(is_quiet, "objects are read live again and again")
    return counted


def owner_unseen(program):
    """The owner of a pod is made and deleted while no ConfigMaps are told of; when the collector read it, it was there."""
    with hidden_at(program, "configmaps") as (client, proxy):
        owner = client.create("configmaps", {"metadata": {"name": "owner"}})
        owned = pod("owned", {"app": "owned"})
        owned["metadata"]["ownerReferences"] = [reference(owner)]
        client.create("pods", owned)
        until(lambda: proxy.reads["pods/owned"] and proxy.reads["configmaps/owner"] >= 2, "the pod and its owner were not read")
        settled(proxy)
        client.delete("configmaps", "owner", "Background")
        began = time.monotonic()
        proxy.show("configmaps")
        until(lambda: not client.get("pods", "owned"), "the pod is left, though its owner is gone")
        return f"the pod collected {after(began)}"


def set_unseen(program):
    """The set of a Deployment is deleted before anybody was told of it, and again when it was made again."""
    with hidden_at(program, "replicasets") as (client, proxy):
        client.create("deployments", deployment("web", REPLICAS, "web:1"))
        # The status that the first turn reports is told of: so there is a second, which finds the set's name taken, until it makes it again.
        until(lambda: proxy.asked["POST replicasets"] >= 2, "the set was not made twice")
        for _ in range(2):
            made = until(lambda: client.present("replicasets"), "the set was not made")
            client.delete("replicasets", name(made[0]), "Background")
        time.sleep(QUIET_SECONDS)
        check(not client.present("replicasets"), "the set was made again, though nobody was told that it is gone")
        began = time.monotonic()
        proxy.show("replicasets")
        until(lambda: len(staying(client.present("pods"))) == REPLICAS, lambda: f"the Deployment has {len(client.present('replicasets'))} sets")
        return f"the set and its pods made again {after(began)}"


def pod_unseen(program):
    """A pod is adopted and deleted while no pods are told of. The set's status says one pod before that, so that no other change of the set is due."""
    with hidden_at(program, "replicasets") as (client, proxy):
        client.create("pods", pod("lone", {"set": "web"}))
        owner = client.create("replicasets", replica_set("web", 1))
        status = {"replicas": 1, "readyReplicas": 0, "availableReplicas": 0, "observedGeneration": 1}
        client.update_status("replicasets", "web", {"metadata": {"name": "web"}, "status": status})
        until(lambda: proxy.reads["pods/lone"], "the pod was not told of")
        proxy.hide("pods")
        proxy.show("replicasets")
        until(lambda: controller(client.get("pods", "lone")) == uid(owner), "the pod was not adopted")
        time.sleep(QUIET_SECONDS)
        client.delete("pods", "lone", "Background")
        began = time.monotonic()
        proxy.show("pods")
        until(lambda: client.present("pods"), "the set has no pod, though it asks for one")
        return f"another pod made {after(began)}"


def shown_owners_are_not_read(program, count):
    """Many ConfigMaps have an owner that is shown. A later list of each kind has none of them read live."""
    with hidden_at(program) as (client, proxy):
        owner = client.create("configmaps", {"metadata": {"name": "owner"}})
        for number in range(count):
            client.create("configmaps", {"metadata": {"name": f"owned-{number}", "ownerReferences": [reference(owner)]}})
        first = settled(proxy)
        check(first >= 2 * count, f"{first} objects were read live at first, not {2 * count}")
        for plural in PLURALS:
            proxy.reads.clear()
            proxy.hide(plural)
            proxy.show(plural)
            until(lambda: plural not in proxy.expired and proxy.open.get(plural), f"{plural} were not listed again")
            collected(client, f"marker-{plural}")
            settled(proxy)
            again = proxy.reads.total() - proxy.reads["configmaps/nobody"] - proxy.reads[f"configmaps/marker-{plural}"]
            check(not again, f"{again} objects were read live after a later list of {plural}: {proxy.reads.most_common(5)}")
        return f"{count} objects whose owner is shown: {first} live reads at first, none after a later list of each kind"
