"""What a Kubernetes API server takes of a write, by the rules of its API reference: what a create and an update has, and what it may not have."""
import json

# What the server alone gives an object.
OWN = ("uid", "resourceVersion", "creationTimestamp", "deletionTimestamp", "generation", "managedFields", "selfLink")
TEMPLATED = ("ReplicaSet", "Deployment")


class Faulty(Exception):
    """A request that such a server would not take, or that would lose what it does not know."""


def demand(holds, text):
    if not holds:
        raise Faulty(text)


def check_type(body, api, kind):
    """Checks that a body says its type as its path does. What it does not say the server fills in, as it does before it reads a body."""
    said = (body.get("apiVersion", api), body.get("kind", kind))
    demand(said == (api, kind), f"type {said}, not {(api, kind)}")


def check_owners(meta, objects):
    """Checks owner references: whole, of objects that are there, with one controller at most."""
    owners = meta.get("ownerReferences", [])
    for it in owners:
        demand(set(it) <= {"apiVersion", "kind", "name", "uid", "controller", "blockOwnerDeletion"}, f"owner reference with {sorted(it)}")
        demand(all(it.get(name) for name in ("apiVersion", "kind", "name", "uid")), f"owner reference that lacks a member: {it}")
        owner = objects.get(it["uid"])
        demand(owner is not None, f"an owner that is not there: {it}")
        demand((owner["apiVersion"], owner["kind"], owner["metadata"]["name"]) == (it["apiVersion"], it["kind"], it["name"]), f"an owner that is another: {it}")
    demand(sum(bool(it.get("controller")) for it in owners) <= 1, "two controllers")


def check_containers(spec):
    """Checks the containers of a Pod's spec."""
    demand(spec.get("containers"), "no containers")
    demand(all(it.get("name") and it.get("image") for it in spec["containers"]), "a container without name or image")


def check_spec(body, kind):
    """Checks the members of a spec that have to be there."""
    if kind == "Pod":
        check_containers(body["spec"])
    if kind in TEMPLATED:
        spec = body["spec"]
        chosen, labels = spec["selector"].get("matchLabels", {}), spec["template"]["metadata"].get("labels", {})
        demand(chosen, "an empty selector")
        demand(chosen.items() <= labels.items(), "a selector that does not choose its template")
        demand(type(spec.get("replicas", 1)) is int and spec.get("replicas", 1) >= 0, f"replicas {spec.get('replicas')}")
        check_containers(spec["template"]["spec"])


def check_labels(meta):
    """Checks that labels and annotations are texts."""
    for name in ("labels", "annotations"):
        demand(all(type(it) is str for it in (meta.get(name) or {}).values()), f"{name} that are no texts")


def checked_create(body, api, kind, namespace, objects):
    """Checks what is to be created."""
    check_type(body, api, kind)
    meta = body.get("metadata", {})
    demand(meta.get("name") or meta.get("generateName"), "no name")
    demand(meta.get("namespace", namespace) == namespace, f"namespace {meta.get('namespace')} in {namespace}")
    demand(not set(meta) & set(OWN), f"a create with {sorted(set(meta) & set(OWN))}")
    demand("status" not in body, "a create with a status")
    check_owners(meta, objects)
    check_labels(meta)
    check_spec(body, kind)


def lost(before, after, place=""):
    """Returns where members are lost that an object had."""
    if isinstance(before, dict) and isinstance(after, dict):
        return [it for name in before for it in ([f"{place}.{name}"] if name not in after else lost(before[name], after[name], f"{place}.{name}"))]
    return []


def checked_update(body, before, api, kind, part):
    """Checks an update: its names are the object's, and it keeps what its writer need not know."""
    check_type(body, api, kind)
    meta, had = body["metadata"], before["metadata"]
    for name in ("name", "namespace", "uid"):
        demand(meta.get(name, had[name]) == had[name], f"another {name}: {json.dumps(meta.get(name))}")
    demand(not lost(before.get("spec"), body.get("spec"), "spec") or part == "status", f"an update that loses {lost(before.get('spec'), body.get('spec'), 'spec')}")
    demand("managedFields" in meta, "an update that loses managedFields")
    check_labels(meta)
    check_spec(body, kind)
    if part != "status" and kind in TEMPLATED and "status" in body:
        demand(body["status"] == before.get("status", {}), "a status that is written with the spec")
