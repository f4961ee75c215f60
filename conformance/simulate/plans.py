"""What the controllers plan, in plain Python, from the rules of docs/API.md and of the Kubernetes pages that it names: what a turn reads live, and
which commands it issues. It knows nothing of the program.

Keys, objects and looks are as in `owed.py`. A command is ("create", key with the name or what it is made of, object), ("update", key, object),
("status", key, object) or ("delete", key, uid, version, policy), whose version may be ANSWERED: that of the answer before.
"""
from owed import controller_reference, delete_by_uid, dependents, entries, is_active, is_controlled_by, is_ready, keeping, matches, owner_key
from owed import owner_keys, phase, references, report, uid_of, with_metadata
from deployments import deployment_plan
from server import finalizers, is_being_deleted

ANSWERED = "answered"
MOST_PODS = 500
COST = "controller.kubernetes.io/pod-deletion-cost"


# ---- ReplicaSets


def is_owned(owner, pod):
    return is_active(pod) and is_controlled_by(pod, uid_of(owner))


def is_adoptable(owner, pod):
    has_controller = any(it.get("controller") for it in references(pod))
    return not is_being_deleted(owner) and is_active(pod) and not has_controller and matches(owner, pod)


def claim(owner, may_adopt, key, pod):
    """Returns the update by which a pod is let go or taken in, if one is due."""
    if not is_being_deleted(owner) and is_owned(owner, pod) and not matches(owner, pod):
        return [("update", key, keeping(pod, lambda it: not (it.get("controller") and it["uid"] == uid_of(owner))))]
    if may_adopt and is_adoptable(owner, pod):
        return [("update", key, with_metadata(pod, ownerReferences=references(pod) + [controller_reference("replicasets", owner)]))]
    return []


def node(pod):
    return pod.get("spec", {}).get("nodeName", "")


def deletion_cost(pod):
    said = pod["metadata"].get("annotations", {}).get(COST, "")
    digits = said.removeprefix("-")
    return int(said) if digits.isascii() and digits.isdigit() and -(1 << 31) <= int(said) < 1 << 31 else 0


def victims(own, surplus):
    """Returns the pods that go first; of those created at one moment the order of keys decides."""
    nodes = [node(pod) for _, pod in own]
    by_age = sorted(own, key=lambda it: it[1]["metadata"]["creationTimestamp"], reverse=True)
    phases = {"Running": 2, "Unknown": 1}
    rank = lambda pod: (node(pod) != "", phases.get(phase(pod), 0), is_ready(pod), deletion_cost(pod), -nodes.count(node(pod)))
    return sorted(by_age, key=lambda it: rank(it[1]))[:surplus]


def new_pod(owner):
    """Returns the pod that a ReplicaSet makes of its template."""
    template = owner["spec"]["template"]
    copied = {name: it for name, it in template.get("metadata", {}).items() if name in ("annotations", "finalizers", "labels")}
    made = {"generateName": f"{owner['metadata']['name']}-", "ownerReferences": [controller_reference("replicasets", owner)]}
    return {"metadata": {**copied, **made}, **{name: it for name, it in template.items() if name == "spec"}}


def set_plan(key, looks, reads, is_satisfied):
    """Returns the plan of a ReplicaSet: pods are claimed, then made or deleted, and the status is updated."""
    owner = looks["replicasets"].get(key)
    if not owner:
        return []
    live, pods = reads.get(key), entries(looks["pods"], key[1])
    may_adopt = bool(live) and uid_of(live) == uid_of(owner) and not is_being_deleted(live)
    own = [(name, it) for name, it in pods if is_owned(owner, it) and matches(owner, it) or may_adopt and is_adoptable(owner, it)]
    commands = [command for name, it in pods for command in claim(owner, may_adopt, name, it)]
    if is_satisfied and not is_being_deleted(owner):
        missing = owner["spec"]["replicas"] - len(own)
        commands += [("create", ("pods", key[1], f"{key[2]}-"), new_pod(owner))] * min(max(missing, 0), MOST_PODS)
        commands += [delete_by_uid(*it) for it in victims(own, min(max(-missing, 0), MOST_PODS))]
    ready = sum(is_ready(it) for _, it in own)
    counts = {"replicas": len(own), "readyReplicas": ready, "availableReplicas": ready}
    return commands + report(key, owner, {**owner["status"], **counts, "observedGeneration": owner["metadata"]["generation"]})


def set_asks(key, looks, _):
    owner = looks["replicasets"].get(key)
    return [key] if owner and any(is_adoptable(owner, it) for _, it in entries(looks["pods"], key[1])) else []


# ---- the collector


def standing(value, reference, reads):
    """Returns how an owner stands by the live reads: `solid`, `waiting` for its dependents, or `dangling`."""
    key = owner_key(value, reference)
    if not key:
        return "solid"
    owner = reads.get(key)
    if not owner or uid_of(owner) != reference["uid"]:
        return "dangling"
    return "waiting" if waits(owner) else "solid"


def waits(value):
    return is_being_deleted(value) and "foregroundDeletion" in finalizers(value)


def finish(key, value, below):
    """Returns what a delete that waits still needs: dependents are let go, or are gone; then its finalizer goes."""
    is_to = lambda it: it["uid"] == uid_of(value)
    without = lambda finalizer: [("update", key, with_metadata(value, finalizers=[it for it in finalizers(value) if it != finalizer]))]
    if "orphan" in finalizers(value):
        return [("update", name, keeping(it, lambda one: not is_to(one))) for name, it in below] + without("orphan")
    is_blocked = any(is_to(one) and one.get("blockOwnerDeletion") for _, it in below for one in references(it))
    return without("foregroundDeletion") if "foregroundDeletion" in finalizers(value) and not is_blocked else []


def collect(key, value, below, reads):
    """Returns what becomes of what is not being deleted, by how its owners stand."""
    found = [standing(value, it, reads) for it in references(value)]
    if all(it == "solid" for it in found):
        return []
    if "solid" in found:
        return [("update", key, keeping(value, lambda it: standing(value, it, reads) == "solid"))]
    seen = value["metadata"]["resourceVersion"]
    if "waiting" not in found or not below:
        own = [policy for policy, finalizer in (("Orphan", "orphan"), ("Foreground", "foregroundDeletion")) if finalizer in finalizers(value)]
        return [("delete", key, uid_of(value), seen, (own or ["Background"])[0])]
    if not any(waits(it) for _, it in below):
        return [("delete", key, uid_of(value), seen, "Foreground")]
    unblocked = with_metadata(value, ownerReferences=[{**it, "blockOwnerDeletion": False} for it in references(value)])
    return [("update", key, unblocked), ("delete", key, uid_of(value), ANSWERED, "Foreground")]


def item_plan(key, looks, reads, _):
    value = reads.get(key)
    if not value:
        return []
    below = dependents(looks, uid_of(value))
    return finish(key, value, below) if is_being_deleted(value) else collect(key, value, below, reads)


def item_asks(key, _, reads):
    return [key] + (owner_keys(reads[key]) if reads.get(key) else [])


# ---- all controllers

PLANS = {"rs": set_plan, "deploy": deployment_plan, "gc": item_plan}
ASKS = {"rs": set_asks, "deploy": lambda *_: [], "gc": item_asks}


def plan(controller, key, looks, reads, is_satisfied=True):
    """Returns the commands of a turn, by what it looked at and read live."""
    return PLANS[controller](key, looks, reads, is_satisfied)


def asks(controller, key, looks, reads):
    """Returns the keys that a turn has still to read live."""
    return [it for it in dict.fromkeys(ASKS[controller](key, looks, reads)) if it not in reads]
