"""Many ReplicaSets at once, of which none ever has a pod too many: undisturbed, while the server is killed, and while connections are
cut."""
import collections
import threading
import time

from clients import CUT, Client, Refused
from cutting import CuttingProxy
from objects import controller, name, replica_set, staying, uid
from programs import MOST_THREADS, MOST_WORKERS, Ending, all_in_one, control, lasting_port, server
from waiting import Limit, Wrong, check, until

SETS = 20
REPLICAS = 20
NAMES = [f"set-{number:02}" for number in range(SETS)]
READERS = 4
MANY_LISTS = 1000
# After how many seconds a controller no longer expects a pod that it does not see.
EXPECTED_SECONDS = 300
RETRY_SECONDS = 0.05
BETWEEN_LISTS_SECONDS = 0.005
# About how many pods are taken away at once, and how long it takes until the next are.
TAKEN, BETWEEN_TAKES_SECONDS = 10, 0.1


def of_sets(pods):
    """Returns how many pods each set has."""
    return collections.Counter(it["metadata"].get("labels", {}).get("set") for it in staying(pods))


class Readers:
    """Threads that list pods until they are told to end, at least so many times in all, and note each list in which a set has too many."""

    def __init__(self, port, lists, may_be_cut):
        self.port, self.may_be_cut, self.least, self.made, self.cut, self.faults = port, may_be_cut, lists, 0, 0, []
        self.lock, self.is_over = threading.Lock(), False
        self.threads = [threading.Thread(target=self.run, daemon=True) for _ in range(READERS)]
        for it in self.threads:
            it.start()

    def run(self):
        client = Client(self.port)
        while not self.faults and not (self.is_over and self.made >= self.least):
            try:
                self.read(client)
            except (Refused, *CUT) as fault:
                self.excuse(fault)

    def excuse(self, fault):
        """Notes a list that was not answered; it is asked again where servers are killed."""
        with self.lock:
            self.cut += 1
            if not self.may_be_cut or isinstance(fault, Refused):
                self.faults.append(f"a list was not answered: {fault}")
        time.sleep(RETRY_SECONDS)

    def read(self, client):
        """Lists the pods once."""
        pods, revision = client.list("pods")
        with self.lock:
            self.made += 1
            self.faults += [f"at revision {revision} {it} has {count} pods" for it, count in of_sets(pods).items() if count > REPLICAS]
        time.sleep(BETWEEN_LISTS_SECONDS)

    def end(self):
        """Waits for all lists, checks that none had too many, and returns how many were made."""
        self.is_over = True
        for it in self.threads:
            it.join(Limit.seconds)
        check(not self.faults, "; ".join(self.faults[:3]))
        check(self.made >= self.least, f"{self.made} of {self.least} lists were made in {Limit.seconds:g} s")
        return self.made


def declare(port):
    """Creates all sets, each in a thread of its own, so that they come at once."""
    refused = []

    def create(it):
        try:
            Client(port).create("replicasets", replica_set(it, REPLICAS))
        except (Refused, *CUT) as fault:
            refused.append(f"{it}: {fault}")

    threads = [threading.Thread(target=create, args=(it,), daemon=True) for it in NAMES]
    for it in threads:
        it.start()
    for it in threads:
        it.join()
    check(not refused, f"sets were not created: {'; '.join(refused[:3])}")


def wanted(client):
    """Returns whether each set has as many pods as it asks for, all its own, and says so."""
    sets, pods = client.present("replicasets"), staying(client.present("pods"))
    uids = {uid(it): name(it) for it in sets}
    return (
        len(sets) == SETS
        and of_sets(pods) == collections.Counter(dict.fromkeys(NAMES, REPLICAS))
        and all(uids.get(controller(it)) == it["metadata"]["labels"]["set"] for it in pods)
        and all(it["status"].get("replicas") == REPLICAS for it in sets)
    )


def counts(client):
    """Returns in words what is not as it has to be."""
    found = of_sets(client.present("pods"))
    return f"pods of sets: {', '.join(f'{it} {found[it]}' for it in NAMES if found[it] != REPLICAS) or 'as many as wanted'}"


def settle(port):
    """Waits until each set has its pods."""
    client = Client(port)
    until(lambda: wanted(client), lambda: counts(client))


def settle_late(port):
    """Waits until each set has its pods, also those of which a controller expects pods that never come."""
    client = Client(port)
    until(lambda: wanted(client), lambda: counts(client), more=EXPECTED_SECONDS)


def undisturbed(program, lists):
    """Sets are declared at once at a `kcp all`, and pods listed meanwhile."""
    return declared_at(all_in_one(program), lists)


def many_workers(program):
    """So they are where it has as many threads and workers as there may be, and pods are listed a thousand times."""
    return declared_at(all_in_one(program, MOST_THREADS, MOST_WORKERS), MANY_LISTS)


def declared_at(program, lists):
    """Declares all sets at a program, lists pods meanwhile, and waits until each set has its own."""
    with Ending(program):
        readers = Readers(program.port, lists, may_be_cut=False)
        declare(program.port)
        settle(program.port)
        return f"{SETS * REPLICAS} pods, {readers.end()} lists"


def work_before_kill(port, turn):
    """Waits for some pods, or for all of them: some servers are killed in the midst of the work, and some when all is there."""
    if turn % 2:
        return settle(port)
    client, some = Client(port), SETS * REPLICAS * (1 + turn % 4) // 8
    return until(lambda: len(client.present("pods")) >= some, lambda: f"there are not {some} pods: {counts(client)}")


def server_killed(program, lists, kills):
    """The server of a `kcp control` is killed and started again on the same port, with nothing; each time the sets are declared again.

    It is started again once `kcp control` has found it gone: a server that comes at once, before anybody asked, can be taken for one that
    went on.
    """
    serving = server(program, lasting_port())
    port = serving.port
    with Ending(serving, control(program, port)) as running:
        readers = Readers(port, lists, may_be_cut=True)
        declare(port)
        for turn in range(kills):
            work_before_kill(port, turn)
            running.programs[0].kill()
            running.programs[1].await_error(b"cannot be reached")
            running.programs[0] = server(program, port)
            declare(port)
            running.programs[1].await_error(b"is there again")
        settle(port)
        return f"{kills} servers killed, {readers.end()} lists, {readers.cut} not answered"


def connections_cut(program, lists, cuts, seed, cuts_requests):
    """A proxy between a `kcp control` and its server cuts so many connections at random."""
    serving = server(program)
    proxy = CuttingProxy(serving.port, seed, cuts_requests)
    with Ending(serving, control(program, proxy.port)):
        readers = Readers(serving.port, lists, may_be_cut=False)
        declare(serving.port)
        take_pods_away(serving.port, proxy, cuts)
        proxy.is_quiet = True
        settle_late(serving.port) if cuts_requests else settle(serving.port)
        proxy.close()
        return f"{proxy.connections} connections, {proxy.cuts} cut, {readers.end()} lists"


def take_away(client, pod):
    """Deletes a pod, if it is still there."""
    try:
        client.delete("pods", pod, "Background")
    except Refused as refused:
        if refused.code != 404:
            raise Wrong(f"a pod could not be deleted: {refused}") from refused


def take_pods_away(port, proxy, cuts):
    """Takes pods away from the sets, so that there is work to do, until so many connections were cut."""
    client, ended = Client(port), time.monotonic() + Limit.seconds
    while proxy.cuts < cuts:
        check(time.monotonic() < ended, f"{proxy.cuts} of {cuts} connections were cut in {Limit.seconds:g} s")
        pods = client.present("pods")
        for it in pods[:: max(1, len(pods) // TAKEN)]:
            take_away(client, name(it))
        time.sleep(BETWEEN_TAKES_SECONDS)
