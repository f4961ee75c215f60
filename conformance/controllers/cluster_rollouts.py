"""`kcp control` at a Kubernetes API server, as far as a stand-in is one: a Deployment of three is made, rolled out and collected, and each request is
one that such a server takes."""
from clients import Client
from cluster import Cluster
from objects import deployment, image_of, is_ready
from programs import Ending, control
from waiting import check, until

REPLICAS = 3


def named(value):
    """Returns an object with its type, as clients of such a server have to send it."""
    return {"apiVersion": "apps/v1", "kind": "Deployment"} | value


def is_rolled_out(client, image):
    """Returns whether all pods are ready and of this image, and the status says so."""
    pods, status = client.present("pods"), client.get("deployments", "web").get("status", {})
    done = (status.get("updatedReplicas"), status.get("availableReplicas"), status.get("replicas"))
    return len(pods) == REPLICAS and all(is_ready(it) and image_of(it) == image for it in pods) and done == (REPLICAS,) * 3


def deleted(client, cluster, policy):
    """Deletes the Deployment, and waits until all that it owned is gone."""
    client.delete("deployments", "web", policy)
    until(lambda: not any(client.present(kind) for kind in ("deployments", "replicasets", "pods")), lambda: f"deleted in the {policy}: {sorted(cluster.store.objects)} is left")


def at_a_cluster(program):
    """Makes a Deployment, rolls it out, and deletes it by either policy."""
    cluster = Cluster()
    client = Client(cluster.port)
    with Ending(cluster_program(cluster), control(program, cluster.port)):
        for policy in ("Background", "Foreground"):
            client.create("deployments", named(deployment("web", REPLICAS, "web:1")))
            until(lambda: is_rolled_out(client, "web:1"), lambda: f"the first pods are not there; faults: {cluster.faults[:3]}")
            client.patch("deployments", "web", {"spec": {"template": {"spec": {"containers": [{"name": "main", "image": "web:2"}]}}}})
            until(lambda: is_rolled_out(client, "web:2"), lambda: f"the second image is not rolled out; faults: {cluster.faults[:3]}")
            deleted(client, cluster, policy)
        check(not cluster.faults, f"requests that are not taken: {cluster.faults[:5]}")
        writes = sum(way != "GET" for way, _ in cluster.asked)
        return f"{len(cluster.asked)} requests, {writes} of them writes, are such as a Kubernetes API server takes"


class cluster_program:
    """A cluster as a program that is ended with the others."""

    def __init__(self, cluster):
        self.cluster = cluster

    def kill(self):
        self.cluster.kill()

    def end(self):
        self.cluster.kill()
