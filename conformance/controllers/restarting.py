"""A server that is started anew behind a proxy, so that no connection is refused: another store answers where the first one did."""
from clients import Client
from cutting import CuttingProxy
from objects import replica_set, staying
from programs import Ending, control, lasting_port, server
from waiting import check, until

OLD, NEW = 3, 5


class QuietProxy(CuttingProxy):
    """Relays connections and cuts none by itself; while it is down it takes none, and those that are there end with their server."""

    def __init__(self, port):
        super().__init__(port, seed=1, cuts_requests=False)
        self.is_quiet = True


def settle(client, name, replicas):
    """Waits until a set has its pods and says so."""

    def found():
        value = client.get("replicasets", name)
        return value and value.get("status", {}).get("replicas") == replicas == len(staying(client.present("pods")))

    until(found, lambda: f"{name} has {len(client.present('pods'))} of {replicas} pods")


def fill(client, revision):
    """Writes until the next write is the one of this revision."""
    last = client.list("pods")[1]
    check(last < revision, f"a new server is at revision {last}, not below {revision}")
    for it in range(revision - last - 1):
        client.create("configmaps", {"metadata": {"name": f"filler-{it}"}})


def run(program, more):
    """A server is killed when all is there, and one is started in its place that has other objects and so many writes more."""
    serving = server(program, lasting_port())
    proxy = QuietProxy(serving.port)
    with Ending(serving, control(program, proxy.port)) as running:
        client = Client(serving.port)
        client.create("replicasets", replica_set("old", OLD))
        settle(client, "old", OLD)
        revision = client.list("pods")[1]
        proxy.is_down = True
        running.programs[0].kill()
        running.programs[0] = server(program, serving.port)
        fill(client, revision + more)
        client.create("replicasets", replica_set("new", NEW))
        check(client.list("pods")[1] == revision + more, "the new server has another revision than it was to have")
        proxy.is_down = False
        settle(client, "new", NEW)
        proxy.close()


def restarted(program, writes):
    """Each time with another number of writes more than the first server had."""
    for more in writes:
        run(program, more)
    return f"known as another server {len(writes)} times, with {', '.join(map(str, writes))} writes more"
