"""A Deployment that is made, rolled, scaled to nothing, and deleted by each policy."""
import collections

from clients import Client
from objects import controller, deployment, image_of, is_going, is_ready, name, owners, staying, uid
from programs import Ending, all_in_one
from record import Kubelet, Record, played
from waiting import check, until

NAME = "web"
KINDS = ["deployments", "replicasets", "pods"]


class Cluster:
    """A running `kcp all` with a kubelet, and a record of all that happens."""

    def __init__(self, port):
        self.client, self.kubelet = Client(port), Kubelet(port)
        self.record = Record(port, KINDS, self.kubelet.take)

    def __enter__(self):
        return self

    def __exit__(self, kind, *_):
        self.record.end()
        self.kubelet.end()
        if kind is None:
            self.record.check_watching()
            self.kubelet.check_working()

    def sets(self):
        return self.client.present("replicasets")

    def pods(self):
        """Returns the pods that are not being deleted."""
        return staying(self.client.present("pods"))

    def counts(self):
        """Returns in words how many objects there are, and what went wrong beside."""
        pods = self.pods()
        told = f"{len(pods)} pods, {sum(map(is_ready, pods))} ready, and {len(self.sets())} sets"
        return f"{told}; the kubelet: {self.kubelet.fault}" if self.kubelet.fault else told

    def is_rolled_out(self, image, replicas):
        """Returns whether the Deployment has what it asks for, and says so."""
        pods, value = self.pods(), self.client.get("deployments", NAME)
        status = value.get("status", {})
        counts = [status.get(it, 0) for it in ("replicas", "updatedReplicas", "readyReplicas", "availableReplicas", "unavailableReplicas")]
        return (
            len(pods) == replicas
            and all(is_ready(it) and image_of(it) == image for it in pods)
            and counts == [replicas] * 4 + [0]
            and status.get("observedGeneration") == value["metadata"]["generation"]
        )

    def roll_out(self, image, replicas):
        until(lambda: self.is_rolled_out(image, replicas), lambda: f"{image} is not rolled out: there are {self.counts()}")

    def declare(self, replicas):
        """Creates the Deployment, and waits for its pods."""
        self.client.create("deployments", deployment(NAME, replicas, "web:1"))
        self.roll_out("web:1", replicas)

    def empty(self):
        """Waits until nothing is left, and returns the revision at which each object went, by kind and uid."""
        until(lambda: not any(self.client.present(kind) for kind in KINDS), lambda: f"there are still {self.counts()}")
        return {(event.kind, uid(event.value)): event.revision for event in self.record.whole() if event.is_deleted}


def quarter(replicas):
    """Returns the most pods that are to be asked for, and the fewest that are to be available: the surge is rounded up, and what may be
    unavailable down."""
    return replicas + -(-replicas // 4), replicas - replicas // 4


def count(status, what):
    return status.get("status", {}).get(what, 0)


def is_at_rest(sets, pods, image, replicas):
    """Returns whether a rollout waits for pods to become ready: the statuses count the pods that there are, and the old sets are as small as
    the fewest that are to be available let them be."""
    new, old = ([it for it in sets if (image_of(it) == image) == is_new] for is_new in (True, False))
    ready = collections.Counter(controller(it) for it in pods if is_ready(it))
    available = sum(count(it, "availableReplicas") for it in new)
    asked = sum(it["spec"]["replicas"] for it in old)
    return (
        len(new) == 1
        and all(count(it, "availableReplicas") == ready[uid(it)] for it in sets)
        and all(count(it, "replicas") == count(it, "availableReplicas") == it["spec"]["replicas"] for it in old)
        and (asked == 0 or asked + available <= quarter(replicas)[1])
    )


def check_made(event, there):
    """Checks that a pod is made only where its set asks for so many."""
    owner = controller(event.value)
    asked = [it["spec"]["replicas"] for it in there["replicasets"].values() if uid(it) == owner]
    check(asked, f"at revision {event.revision} a pod is made of a set that is not there")
    has = sum(controller(it) == owner for it in staying(there["pods"].values()))
    check(has <= asked[0], f"at revision {event.revision} a set has {has} pods, and asks for {asked[0]}")


def check_pace(events, replicas):
    """Checks at each revision what all sets ask for, that none makes more pods than it asks for, and, once all were ready, how many are.
    Returns the most pods that there were at once, and the fewest that were ready.

    The surge bounds what is asked for. A set that is to have fewer pods takes them away one by one, while the other makes its own, so for a
    moment there may be more than are asked for, here as in Kubernetes.
    """
    most, fewest = quarter(replicas)
    were_all_ready, greatest, least = False, 0, replicas
    for event, there in played(events, KINDS):
        asked = sum(it["spec"]["replicas"] for it in staying(there["replicasets"].values()))
        pods = staying(there["pods"].values())
        available = sum(map(is_ready, pods))
        were_all_ready = were_all_ready or available == replicas
        check(asked <= most, f"at revision {event.revision} the sets ask for {asked} pods, more than {most}")
        if event.kind == "pods" and event.is_added:
            check_made(event, there)
        check(available >= fewest or not were_all_ready, f"at revision {event.revision} {available} pods are available, fewer than {fewest}")
        greatest, least = max(greatest, len(pods)), min(least, available) if were_all_ready else least
    check(were_all_ready, "the pods were never all ready")
    return greatest, least


def rolls(program, replicas):
    """A Deployment is made, its template is changed, and meanwhile neither the surge nor what may be unavailable is passed.

    What is available a controller reads in the statuses of the sets, and that of a set that was just made smaller still counts what it had:
    were pods to become ready just then, it would take away too many, here as in Kubernetes. So each is marked ready once the statuses are
    what they are to be after the one before.
    """
    with Ending(all_in_one(program)) as running, Cluster(running.programs[0].port) as cluster:
        cluster.declare(replicas)
        cluster.kubelet.may_mark = lambda: is_at_rest(cluster.sets(), cluster.pods(), "web:2", replicas)
        cluster.client.patch("deployments", NAME, {"spec": {"template": deployment(NAME, replicas, "web:2")["spec"]["template"]}})
        cluster.roll_out("web:2", replicas)
        asked = sorted(it["spec"]["replicas"] for it in cluster.sets())
        check(asked == [0, replicas], f"the sets ask for {asked} pods")
        events = cluster.record.whole()
        greatest, least = check_pace(events, replicas)
        return f"at most {greatest} pods at once, at least {least} available, {len(events)} events"


def is_scaled(cluster, replicas):
    """Returns whether there are so many pods, and the Deployment's status counts them."""
    return len(cluster.pods()) == replicas and count(cluster.client.get("deployments", NAME), "replicas") == replicas


def scales(program, replicas):
    """A Deployment is scaled to nothing, and back."""
    with Ending(all_in_one(program)) as running, Cluster(running.programs[0].port) as cluster:
        cluster.declare(replicas)
        cluster.client.patch("deployments", NAME, {"spec": {"replicas": 0}})
        until(lambda: is_scaled(cluster, 0), lambda: f"it is not scaled to 0: there are {cluster.counts()}")
        sets = cluster.sets()
        check([it["spec"]["replicas"] for it in sets] == [0], "its set is not the same, or asks for pods")
        cluster.client.patch("deployments", NAME, {"spec": {"replicas": replicas}})
        cluster.roll_out("web:1", replicas)
        check([uid(it) for it in cluster.sets()] == [uid(it) for it in sets], "it has another set than before")
        return f"{replicas} pods, 0, and {replicas} again"


def declared(cluster, replicas):
    """Creates the Deployment, and returns once it is there the names by which it, its set and its pods are found in what went."""
    cluster.declare(replicas)
    top, sets, pods = ([(kind, uid(it)) for it in cluster.client.present(kind)] for kind in KINDS)
    check((len(top), len(sets), len(pods)) == (1, 1, replicas), f"there are {cluster.counts()}")
    return top[0], sets[0], pods


def deleted_in_background(program, replicas):
    """The Deployment goes at once; its set is collected, and then the pods of that."""
    with Ending(all_in_one(program)) as running, Cluster(running.programs[0].port) as cluster:
        top, owned, pods = declared(cluster, replicas)
        cluster.client.delete("deployments", NAME, "Background")
        check(cluster.client.get("deployments", NAME) is None, "the Deployment is still there when its delete is answered")
        gone = cluster.empty()
        check(gone[top] < gone[owned], "its set went before the Deployment")
        check(all(gone[owned] < gone[it] for it in pods), "a pod went before its set")
        return f"the set and {replicas} pods collected"


def deleted_in_foreground(program, replicas):
    """The Deployment stays, being deleted, until all that blocks it is gone: pods before their set, and the set before the Deployment."""
    with Ending(all_in_one(program)) as running, Cluster(running.programs[0].port) as cluster:
        top, owned, pods = declared(cluster, replicas)
        answered = cluster.client.delete("deployments", NAME, "Foreground")
        check(is_going(answered), "the Deployment is not being deleted when its delete is answered")
        check("foregroundDeletion" in answered["metadata"].get("finalizers", []), "it does not wait for what it owns")
        gone = cluster.empty()
        check(gone[owned] < gone[top], "the Deployment went before its set")
        check(all(gone[it] < gone[owned] for it in pods), "the set went before a pod of it")
        return f"{replicas} pods, then the set, then the Deployment"


def is_orphaned(cluster, owner):
    """Returns whether the Deployment is gone and nothing names it as an owner."""
    return cluster.client.get("deployments", NAME) is None and not any(owner in owners(it) for it in cluster.sets())


def deleted_with_orphans(program, replicas):
    """The Deployment goes once its set no longer names it; the set and its pods stay, and the set goes on replacing pods."""
    with Ending(all_in_one(program)) as running, Cluster(running.programs[0].port) as cluster:
        (_, top), (_, owned), _ = declared(cluster, replicas)
        pods = {uid(it) for it in cluster.pods()}
        cluster.client.delete("deployments", NAME, "Orphan")
        until(lambda: is_orphaned(cluster, top), "the Deployment is still there, or named as an owner")
        sets = cluster.sets()
        check([uid(it) for it in sets] == [owned] and not owners(sets[0]), f"there are {len(sets)} sets, of which one has to be left, without an owner")
        check({uid(it) for it in cluster.pods()} == pods, "not just the same pods are there")
        check(all(controller(it) == owned for it in cluster.pods()), "a pod is no longer the set's")
        cluster.client.delete("pods", name(cluster.pods()[0]), "Background")
        until(lambda: len({uid(it) for it in cluster.pods()} - pods) == 1, "the set does not replace a pod")
        cluster.client.delete("replicasets", name(sets[0]), "Background")
        cluster.empty()
        return f"{replicas} pods stayed, and went with their set"
