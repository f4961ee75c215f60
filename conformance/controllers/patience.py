"""A server that asks to be left alone (Retry-After): it is asked for what it so refuses no sooner, by workers and by who follows kinds, all else goes on,
and what was declared is there in the end; and one that denies creates by a quota: that is told of once with the object and the reason, and once when
it is over."""
import collections
import itertools
import json
import re
import threading
import time

from clients import Client
from losing import await_all
from objects import replica_set, staying
from programs import Ending, control, server
from refusing import NO_MEMORY, RefusingProxy
from restarting import settle
from streaming import PLURALS
from understanding import ALL_ANSWERED_SECONDS, check_silent, check_told, reply
from unseen import collected
from waiting import check, until

# Beside the proxies, which put its folder where it is found.
from asking import LIST, LOOK, STREAM, WATCH, asked_for, refusal

WORKERS, SETS, HELD = 4, 5, "held"
# For how many seconds the server asks to be left alone, and how often it is asked for each set before it takes creates again.
ASKED_SECONDS, TIMES = 2, 4
# Time passes for the controllers by ticks, which come late where the machine is busy: a wait may be shorter by as much.
TICKS_SECONDS = 0.2
QUOTA = b'{"kind":"Status","apiVersion":"v1","status":"Failure","message":"exceeded quota: pods, used: 0, limited: 0","reason":"Forbidden","code":403}'
DENIED_SECONDS = 3


def asking(status, code):
    """Returns a refusal that asks for so many seconds."""
    body = json.dumps({"kind": "Status", "apiVersion": "v1", "status": "Failure", "code": code}).encode()
    return reply(status, body).replace(b"\r\n", f"\r\nRetry-After: {ASKED_SECONDS}\r\n".encode(), 1)


def owner(request):
    """Returns the name of the first owner of the object that a request creates."""
    return json.loads(request.partition(b"\r\n\r\n")[2])["metadata"]["ownerReferences"][0]["name"]


class CreatesRefused(RefusingProxy):
    """Answers creates by itself, all or those for some sets, until it is told not to, and notes when each came, by the name of the set."""

    def __init__(self, port, answer, names=None):
        self.answer_all, self.names, self.refuses = answer, names, True
        self.moments, self.relays = collections.defaultdict(list), threading.Event()
        super().__init__(port)

    def refusal(self, request):
        if not request.startswith(b"POST ") or (it := owner(request)) not in (self.names or [it]):
            return None
        with self.lock:
            if self.refuses:
                self.moments[it].append(time.monotonic())
                return self.answer_all
        self.relays.wait()
        return None

    def fewest(self, names):
        """Returns how often a set was refused that was refused least."""
        return min(len(self.moments[it]) for it in names)

    def shortest(self):
        """Returns the shortest time between two creates for one set."""
        return min(after - before for moments in self.moments.values() for before, after in itertools.pairwise(moments))

    def mend(self):
        """Relays creates from now on, the first once those that were refused are heard of."""
        self.refuses = False
        time.sleep(ALL_ANSWERED_SECONDS)
        self.relays.set()


class FollowersRefused(RefusingProxy):
    """Answers who follows a kind by itself, once what it asks of each sort, with a time; the second stream as a server that knows none. Notes how
    long after each such answer something is asked of the kind again."""

    def __init__(self, port):
        self.to_refuse = {plural: [STREAM, STREAM, LIST, WATCH, LOOK] for plural in PLURALS}
        self.asked_at, self.waits = {}, []
        super().__init__(port)

    def refusal(self, request):
        plural, what = request.split(b" ")[1].decode().split("?")[0].rpartition("/")[2], asked_for(request)
        if not request.startswith(b"GET ") or plural not in self.to_refuse:
            return None
        with self.lock:
            now, left = time.monotonic(), self.to_refuse[plural]
            if plural in self.asked_at:
                self.waits.append(now - self.asked_at.pop(plural))
            if what not in left:
                return None
            left.remove(what)
            if what == STREAM and STREAM not in left:
                return refusal(400)
            self.asked_at[plural] = now
            return asking("429 Too Many Requests", 429)


def followers_left_alone(program):
    """A stream, a list, a watch and a look of each kind are answered 429, with a time: none of those who follow asks sooner, and all goes on."""
    serving = server(program)
    proxy = FollowersRefused(serving.port)
    with Ending(serving, control(program, proxy.port, WORKERS)):
        client = Client(serving.port)
        client.create("replicasets", replica_set(HELD, SETS))
        until(lambda: not any(proxy.to_refuse.values()) and not proxy.asked_at, lambda: f"not all was asked for: {proxy.to_refuse} are left")
        settle(client, HELD, SETS)
        shortest = min(proxy.waits)
        check(shortest >= ASKED_SECONDS, f"a follower asked again after {shortest:.3f} s, not {ASKED_SECONDS}")
        proxy.close()
        return f"{len(proxy.waits)} answers with a time, the next request after {shortest:.3f} s at the soonest, and all as declared"


def is_left_alone(proxy):
    """Checks that no set's create came again before its time."""
    shortest = proxy.shortest()
    check(shortest >= ASKED_SECONDS - TICKS_SECONDS, f"a create came again after {shortest:.3f} s, not {ASKED_SECONDS}")
    return f"a create came again after {shortest:.3f} s at the soonest"


def one_key_left_alone(program):
    """The creates for one set are answered 429, with a time: other sets get their pods meanwhile."""
    serving = server(program)
    proxy = CreatesRefused(serving.port, asking("429 Too Many Requests", 429), [HELD])
    with Ending(serving, control(program, proxy.port, WORKERS)):
        client, others = Client(serving.port), [f"web-{number}" for number in range(SETS)]
        client.create("replicasets", replica_set(HELD, 1))
        until(lambda: proxy.moments[HELD], "no create was refused")
        for it in others:
            client.create("replicasets", replica_set(it, 1))
        await_all(client, others, more=0)
        until(lambda: proxy.fewest([HELD]) >= TIMES, "the set that is refused was not tried again")
        proxy.mend()
        began = time.monotonic()
        await_all(client, [HELD], more=0)
        proxy.close()
        return f"{is_left_alone(proxy)}, other sets made meanwhile, as declared {time.monotonic() - began:.1f} s after"


def unserved(program):
    """The creates for as many sets as there are workers are answered 503, with no time: none of them holds a worker, so other sets get their pods."""
    serving, held = server(program), [f"{HELD}-{number}" for number in range(WORKERS)]
    proxy = CreatesRefused(serving.port, NO_MEMORY, held)
    with Ending(serving, control(program, proxy.port, WORKERS)):
        client, others = Client(serving.port), [f"web-{number}" for number in range(SETS)]
        for it in held:
            client.create("replicasets", replica_set(it, 1))
        until(lambda: proxy.fewest(held) >= TIMES, "a set that is refused was not tried again")
        began = time.monotonic()
        for it in others:
            client.create("replicasets", replica_set(it, 1))
        await_all(client, others, more=0)
        meanwhile = time.monotonic() - began
        proxy.mend()
        await_all(client, held, more=0)
        proxy.close()
        return f"{WORKERS} sets refused at {WORKERS} workers, other sets made meanwhile after {meanwhile:.1f} s, and those as declared in the end"


def all_left_alone(program):
    """All creates are answered 503, with a time: that is told of once, all else goes on, and it is told that creates are answered again."""
    serving = server(program)
    proxy = CreatesRefused(serving.port, asking("503 Service Unavailable", 503))
    with Ending(serving, control(program, proxy.port, WORKERS)) as running:
        client, controlling, names = Client(serving.port), running.programs[1], [f"web-{number}" for number in range(SETS)]
        for it in names:
            client.create("replicasets", replica_set(it, 1))
        until(lambda: proxy.fewest(names) >= 1, "a set was not tried")
        collected(client, "meanwhile")
        until(lambda: proxy.fewest(names) >= TIMES, "a set was not tried again")
        check_told(controlling, proxy.port, ["answers 503"])
        check_silent(controlling)
        proxy.mend()
        began = time.monotonic()
        await_all(client, names, more=0)
        check_told(controlling, proxy.port, ["answers again"])
        check_silent(controlling)
        proxy.close()
        return f"{is_left_alone(proxy)}, told once, as declared {time.monotonic() - began:.1f} s after"


def denied(program):
    """All creates are denied by a quota: that is told of once with the object and the reason, and once when the first is taken."""
    serving = server(program)
    proxy = CreatesRefused(serving.port, reply("403 Forbidden", QUOTA))
    with Ending(serving, control(program, proxy.port, WORKERS)) as running:
        client, controlling = Client(serving.port), running.programs[1]
        client.create("replicasets", replica_set("web", 2))
        line, at = controlling.next_line(controlling.errors), f"kcp: the server at 127.0.0.1:{proxy.port} ".encode()
        told = re.escape(at) + b"answers 403 to a create of pods, as of web-[^:]*: " + re.escape(QUOTA) + b"\n"
        check(re.fullmatch(told, line), f"standard error has {line!r}")
        time.sleep(DENIED_SECONDS)
        check_silent(controlling)
        proxy.mend()
        until(lambda: len(staying(client.present("pods"))) == 2, "the set has not got its pods")
        check_told(controlling, proxy.port, ["takes a create of pods again"])
        check_silent(controlling)
        proxy.close()
        return f"{len(proxy.moments['web'])} creates denied, told once, and once that one is taken"
