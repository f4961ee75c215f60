"""What the Deployment controller plans for a Deployment, in plain Python: see `plans.py`."""
import hashlib

from owed import controller_reference, delete_by_uid, entries, is_controlled_by, phase, report, uid_of, with_metadata
from server import is_being_deleted, text

HASH = "pod-template-hash"
REVISION = "deployment.kubernetes.io/revision"
# The greatest number that is read of a revision, which has 1 to 18 digits.
GREATEST_REVISION = 10**18 - 1
GREATEST_COUNT = (1 << 31) - 1


def revision(owned):
    said = owned["metadata"].get("annotations", {}).get(REVISION, "")
    return int(said) if len(said) <= 18 and said.isascii() and said.isdigit() else 0


def bare(template):
    """Returns a template as text, without the label of its hash."""
    metadata = {**template.get("metadata", {})}
    metadata["labels"] = {name: it for name, it in metadata.get("labels", {}).items() if name != HASH}
    metadata = {name: it for name, it in metadata.items() if name != "labels" or it}
    return text({name: it for name, it in {**template, "metadata": metadata}.items() if name != "metadata" or it})


def count(value, name):
    return value.get("status", {}).get(name, 0)


class Rollout:
    """A Deployment with its sets: the new one, which has its template, or None, and the old ones, by age."""

    def __init__(self, key, deployment, looks):
        self.key, self.deployment, self.looks, self.spec = key, deployment, looks, deployment["spec"]
        owned = [it for it in entries(looks["replicasets"], key[1]) if is_controlled_by(it[1], uid_of(deployment))]
        owned.sort(key=lambda it: it[1]["metadata"]["creationTimestamp"])
        template = bare(self.spec["template"])
        self.new = next((it for it in owned if bare(it[1]["spec"]["template"]) == template), None)
        self.old = [it for it in owned if it is not self.new]
        self.sets = [self.new, *self.old] if self.new else self.old
        self.wanted = self.spec["replicas"]
        self.due = min(max([revision(it) for _, it in self.old], default=0) + 1, GREATEST_REVISION)

    def asked(self):
        return sum(it["spec"]["replicas"] for _, it in self.sets)

    def total(self, name):
        return sum(count(it, name) for _, it in self.sets)

    def name(self):
        """Returns the name of the new set: the Deployment's and the hash of its template."""
        return f"{self.key[2]}-{self.hash()}"

    def hash(self):
        collisions = count(self.deployment, "collisionCount")
        said = text(self.spec["template"]) + (str(collisions) if collisions else "")
        return hashlib.sha256(said.encode()).hexdigest()[:10]

    # commands

    def make(self, replicas):
        """Returns the create of the new set."""
        template, added = self.spec["template"], {HASH: self.hash()}
        labels = template.get("metadata", {}).get("labels", {}) | added
        metadata = {"name": self.name(), "labels": labels, "annotations": {REVISION: str(self.due)}}
        metadata["ownerReferences"] = [controller_reference("deployments", self.deployment)]
        selector = {**self.spec["selector"], "matchLabels": self.spec["selector"].get("matchLabels", {}) | added}
        spec = {"replicas": replicas, "selector": selector, "template": with_metadata({"metadata": {}, **template}, labels=labels)}
        return [("create", ("replicasets", self.key[1], self.name()), {"metadata": metadata, "spec": spec})]

    def scale(self, key, owned, replicas, due=0):
        """Returns the update that gives a set so many pods, and the revision that is due to it, where either changes it."""
        if owned["spec"]["replicas"] == replicas and revision(owned) >= due:
            return []
        after = {**owned, "spec": {**owned["spec"], "replicas": replicas}}
        if revision(owned) < due:
            after = with_metadata(after, annotations=after["metadata"].get("annotations", {}) | {REVISION: str(due)})
        return [("update", key, after)]

    def scale_old(self, counts):
        return [command for it, replicas in zip(self.old, counts) for command in self.scale(*it, replicas)]

    def clean_up(self):
        """Returns the deletes of the old sets that nobody needs, once all that is wanted is there."""
        updated = count(self.new[1], "replicas") if self.new else 0
        if not updated == self.total("replicas") == self.total("availableReplicas") == self.wanted:
            return []
        kept = sorted((it for it in self.old if not is_being_deleted(it[1])), key=lambda it: revision(it[1]))
        beyond = kept[:max(len(kept) - self.spec["revisionHistoryLimit"], 0)]
        return [delete_by_uid(*it) for it in beyond if is_spent(it[1])]

    # strategies

    def amount(self, name, is_rounded_up):
        said = self.spec["strategy"].get("rollingUpdate", {}).get(name, 0)
        return said if isinstance(said, int) else (int(said[:-1]) * self.wanted + (99 if is_rounded_up else 0)) // 100

    def roll(self):
        """Returns what a rolling update does next."""
        surge, unavailable = self.amount("maxSurge", True), self.amount("maxUnavailable", False)
        unavailable = min(unavailable if surge or unavailable else 1, self.wanted)
        has = self.new[1]["spec"]["replicas"] if self.new else 0
        grown = has + min(max(self.wanted + surge - self.asked(), 0), max(self.wanted - has, 0))
        if not self.new:
            return self.make(grown)
        renewed = self.scale(*self.new, self.wanted if has > self.wanted else grown, self.due)
        return renewed or self.scale_old(self.shrunk(self.wanted - unavailable)) or self.clean_up()

    def shrunk(self, fewest):
        """Returns how many pods the old sets are to have: they lose those that are not available, and then what is above the fewest."""
        left = [it["spec"]["replicas"] for _, it in self.old]
        new = self.new[1]
        room = max(self.asked() + count(new, "availableReplicas") - fewest - new["spec"]["replicas"], 0)
        if room == 0:
            return left
        missing = [max(replicas - count(it, "availableReplicas"), 0) for replicas, (_, it) in zip(left, self.old)]
        left = less(left, cuts(room, missing))
        return less(left, cuts(max(self.total("availableReplicas") - fewest, 0), left))

    def recreate(self):
        """Returns what comes next where all old pods go first."""
        if scaled := self.scale_old([0] * len(self.old)):
            return scaled
        if any(is_controlled_by(pod, uid_of(it)) and phase(pod) not in ("Succeeded", "Failed") for _, it in self.old for _, pod in self.pods()):
            return []
        return (self.scale(*self.new, self.wanted, self.due) if self.new else self.make(self.wanted)) or self.clean_up()

    def pods(self):
        return entries(self.looks["pods"], self.key[1])

    def is_name_taken(self):
        """Returns whether the new set is to be made, and another has its name."""
        return not self.new and ("replicasets", self.key[1], self.name()) in self.looks["replicasets"]

    def report(self):
        counts = {it: self.total(it) for it in ("replicas", "readyReplicas", "availableReplicas")}
        counts["updatedReplicas"] = count(self.new[1], "replicas") if self.new else 0
        counts["unavailableReplicas"] = max(self.asked() - counts["availableReplicas"], 0)
        counts["observedGeneration"] = self.deployment["metadata"]["generation"]
        return report(self.key, self.deployment, {**self.deployment["status"], **counts})

    def plan(self):
        """Returns the commands: the status is reported last, whatever was done."""
        if is_being_deleted(self.deployment) or self.spec.get("paused"):
            return self.report()
        if self.is_name_taken():
            collisions = count(self.deployment, "collisionCount")
            status = {**self.deployment["status"], "collisionCount": collisions + 1}
            return report(self.key, self.deployment, status) if collisions < GREATEST_COUNT else []
        is_rolled = self.spec["strategy"]["type"] == "RollingUpdate"
        return (self.roll() if is_rolled else self.recreate()) + self.report()


def is_spent(owned):
    """Returns whether a set has no pods and is to have none, and its controller has seen that."""
    is_seen = owned["metadata"]["generation"] <= count(owned, "observedGeneration")
    return owned["spec"]["replicas"] == count(owned, "replicas") == 0 and is_seen


def cuts(room, bounds):
    """Returns how much of a room each takes in turn, up to its bound."""
    taken = []
    for bound in bounds:
        taken.append(min(room, bound))
        room -= taken[-1]
    return taken


def less(left, cut):
    return [it - gone for it, gone in zip(left, cut)]


def deployment_plan(key, looks, *_):
    deployment = looks["deployments"].get(key)
    return Rollout(key, deployment, looks).plan() if deployment else []
