"""Which keys a change owes, in plain Python, from the rules of docs/API.md and of the Kubernetes pages that it names; and what plans read of
objects and change in them. It knows nothing of the program.

A key is (plural, namespace, name), and an object is as JSON has it. Looks are, for each plural, what is shown of it by key.
"""
from server import KINDS, is_being_deleted, text

CONTROLLERS = ("rs", "deploy", "gc")
KIND_ORDER = {plural: number for number, plural in enumerate(KINDS)}
PLURALS = {(version, kind): plural for plural, (version, kind, _, _) in KINDS.items()}


# ---- keys and references


def in_order(keys):
    """Returns keys, each once, by kind, namespace and name."""
    return sorted(set(keys), key=lambda key: (KIND_ORDER[key[0]], *key[1:]))


def entries(look, namespace=None):
    """Returns what is shown of a kind, or of a namespace of it, in the order of keys."""
    return [(key, look[key]) for key in in_order(look) if namespace in (None, key[1])]


def key_of(plural, value):
    return plural, value["metadata"]["namespace"], value["metadata"]["name"]


def uid_of(value):
    return value["metadata"]["uid"]


def references(value):
    return value["metadata"].get("ownerReferences", [])


def owner_key(value, reference):
    """Returns the key that a reference names, or None where its kind is not served."""
    plural = PLURALS.get((reference["apiVersion"], reference["kind"]))
    return plural and (plural, value["metadata"]["namespace"], reference["name"])


def owner_keys(value):
    return [key for key in (owner_key(value, it) for it in references(value)) if key]


def controllers(value, plural):
    """Returns the controller references of an object to a kind, and the keys that they name."""
    named = [(it, owner_key(value, it)) for it in references(value) if it.get("controller")]
    return [(it, key) for it, key in named if key and key[0] == plural]


def controller_keys(value, plural):
    return [key for _, key in controllers(value, plural)]


def is_controlled_by(value, uid):
    return any(it.get("controller") and it["uid"] == uid for it in references(value))


def dependents(looks, uid):
    """Returns what has an owner of a uid, of all kinds."""
    return [found for look in looks.values() for found in entries(look) if any(it["uid"] == uid for it in references(found[1]))]


def matches(owner, value):
    return owner["spec"]["selector"]["matchLabels"].items() <= value["metadata"].get("labels", {}).items()


# ---- what a change owes


def sets_to_look(plural, old, new, looks):
    """Returns the ReplicaSets that a change owes a look."""
    if plural == "replicasets":
        return [key_of(plural, new or old)]
    if plural != "pods":
        return []
    keys = [key for it in (old, new) if it for key in controller_keys(it, "replicasets")]
    if new and not any(it.get("controller") for it in references(new)):
        keys += [key for key, it in entries(looks["replicasets"], new["metadata"]["namespace"]) if matches(it, new)]
    return keys


def deployments_to_look(plural, old, new, looks):
    """Returns the Deployments that a change owes a look: of a Pod those over it as it was."""
    if plural == "deployments":
        return [key_of(plural, new or old)]
    if plural == "replicasets":
        return [key for it in (old, new) if it for key in controller_keys(it, "deployments")]
    over = controllers(old, "replicasets") if plural == "pods" and old else []
    sets = [(looks["replicasets"].get(key), reference["uid"]) for reference, key in over]
    return [key for it, uid in sets if it and uid_of(it) == uid for key in controller_keys(it, "deployments")]


def items_to_look(plural, old, new, looks):
    """Returns what a change owes the collector: the object, its owners, and the dependents of what is gone, is being deleted, or has lost its
    name to another uid."""
    keys = [key_of(plural, new)] if new else []
    for it in (old, new):
        if it:
            lives_on = new and uid_of(new) == uid_of(it) and not is_being_deleted(new)
            keys += owner_keys(it) + [key for key, _ in ([] if lives_on else dependents(looks, uid_of(it)))]
    return keys


def keys_of(plural, old, new, looks):
    """Returns the work keys that a change owes, each once, by controller and then by key."""
    owed = zip(CONTROLLERS, (sets_to_look, deployments_to_look, items_to_look))
    return [(controller, key) for controller, which in owed for key in in_order(which(plural, old, new, looks))]


# ---- edits


def with_metadata(value, **members):
    return {**value, "metadata": {**value["metadata"], **members}}


def keeping(value, test):
    """Returns an object with those of its references that pass."""
    return with_metadata(value, ownerReferences=[it for it in references(value) if test(it)])


def controller_reference(plural, owner):
    version, kind = KINDS[plural][:2]
    named = {"apiVersion": version, "kind": kind, "name": owner["metadata"]["name"], "uid": uid_of(owner)}
    return {**named, "controller": True, "blockOwnerDeletion": True}


def report(key, value, status):
    """Returns an update of the status, where it changes."""
    return [] if text(status) == text(value["status"]) else [("status", key, {**value, "status": status})]


def delete_by_uid(key, value):
    return "delete", key, uid_of(value), None, None


# ---- pods


def phase(pod):
    return pod.get("status", {}).get("phase", "")


def is_active(pod):
    return phase(pod) not in ("Succeeded", "Failed") and not is_being_deleted(pod)


def is_ready(pod):
    return any(it.get("type") == "Ready" and it.get("status") == "True" for it in pod.get("status", {}).get("conditions", []))
