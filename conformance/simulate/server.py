"""A server as docs/API.md has it, in plain Python: a list of all changes, and what requests are answered. It knows nothing of the program.

Of the API it knows what schedules mostly need, and stops at anything else: creates, updates, merge patches and deletes of each kind, updates
of a status, finalizers and policies, selectors of `matchLabels`; gets, lists and watches without selectors and pages, lists at an exact
revision too. Of what a body says it takes for granted that it is valid.
"""
import json
import re

KINDS = {
    "configmaps": ("v1", "ConfigMap", "/api/v1", ""),
    "pods": ("v1", "Pod", "/api/v1", ""),
    "replicasets": ("apps/v1", "ReplicaSet", "/apis/apps/v1", "apps"),
    "deployments": ("apps/v1", "Deployment", "/apis/apps/v1", "apps"),
}
PATH = re.compile(
    r"(/api/v1|/apis/apps/v1)(?:/namespaces/([a-z0-9-]+))?/(configmaps|pods|replicasets|deployments)(?:/([a-z0-9.-]+))?(/status)?"
)
MOMENT = re.compile(r"\d{4}-\d\d-\d\dT\d\d:\d\d:\d\dZ")
REVISION = re.compile(rb"0|[1-9][0-9]{0,15}")
NAME = re.compile(r"[a-z0-9]+(-[a-z0-9]+)*")
FIRST_MOMENT = "2026-01-01T00:00:00Z"
MOST_REVISIONS = 1 << 53
FIRST_STATUS = {"pods": {"phase": "Pending"}, "replicasets": {"replicas": 0}, "deployments": {}}
KEPT = ("namespace", "uid", "creationTimestamp", "deletionTimestamp", "generation", "resourceVersion")
# The members of metadata, and of a template's, that count as absent where they are empty.
LISTS = ("labels", "annotations", "finalizers")
TEXTS = ("name", "generateName", "namespace", "uid", "resourceVersion", "creationTimestamp", "deletionTimestamp", "ownerReferences")
FINALIZERS = {"Orphan": ["orphan"], "Foreground": ["foregroundDeletion"], "Background": []}
OF_POLICIES = {"orphan", "foregroundDeletion"}
LETTERS = "bcdfghjklmnpqrstvwxz2456789"
ROLLING = {"maxSurge": "25%", "maxUnavailable": "25%"}


class NotKnown(Exception):
    """What is not known here."""


# ---- texts and replies


def text(value):
    """Returns a value as compact JSON, its members in the byte order of their names."""
    return json.dumps(value, ensure_ascii=False, separators=(",", ":"), sort_keys=True)


def failure(code, reason, message, details=None):
    status = {"apiVersion": "v1", "code": code, "kind": "Status", "message": message, "metadata": {}, "reason": reason, "status": "Failure"}
    return code, {**status, "details": details} if details else status


def success(details=None):
    status = {"apiVersion": "v1", "kind": "Status", "metadata": {}, "status": "Success"}
    return 200, {**status, "details": details} if details else status


def too_old(asked, floor):
    return failure(410, "Expired", f"too old resource version: {asked} ({floor})")


def too_new(asked, present):
    return failure(504, "Timeout", f"Timeout: Too large resource version: {asked}, current: {present}")


def bad(part):
    return failure(400, "BadRequest", f"bad request: {part}")


def details(plural, name):
    group = KINDS[plural][3]
    return {**({"group": group} if group else {}), "kind": plural, "name": name}


def resource(plural):
    return ".".join(filter(None, [plural, KINDS[plural][3]]))


def not_found(key):
    return failure(404, "NotFound", f'{resource(key[0])} "{key[2]}" not found', details(key[0], key[2]))


def conflict(key, why):
    return failure(409, "Conflict", f'Operation cannot be fulfilled on {resource(key[0])} "{key[2]}": {why}', details(key[0], key[2]))


def list_reply(plural, objects, revision):
    items = [{name: value for name, value in it.items() if name not in ("apiVersion", "kind")} for it in objects]
    version, kind = KINDS[plural][:2]
    return reply(200, {"apiVersion": version, "items": items, "kind": f"{kind}List", "metadata": {"resourceVersion": str(revision)}})


def reply(code, body):
    return f"{code} {text(body)}\n"


def is_revision(word):
    return bool(REVISION.fullmatch(word)) and int(word) < MOST_REVISIONS


# ---- objects


def at_revision(value, revision):
    return {**value, "metadata": {**value["metadata"], "resourceVersion": str(revision)}}


def is_being_deleted(value):
    return "deletionTimestamp" in value["metadata"]


def finalizers(value):
    return value["metadata"].get("finalizers", [])


def without_nulls(value):
    """Returns a value without members that are null, at every depth."""
    if isinstance(value, dict):
        return {name: without_nulls(it) for name, it in value.items() if it is not None}
    return [without_nulls(it) for it in value] if isinstance(value, list) else value


def filled_members(value, names):
    """Returns an object without those of these members that are empty."""
    return {name: it for name, it in value.items() if name not in names or it not in ("", [], {})}


def merged(value, patch):
    """Returns what a merge patch makes of a value."""
    if not isinstance(patch, dict):
        return patch
    kept = {name: it for name, it in value.items() if name not in patch} if isinstance(value, dict) else {}
    before = value if isinstance(value, dict) else {}
    return kept | {name: merged(before.get(name), it) for name, it in patch.items() if it is not None}


def read(plural, body):
    """Returns an object of a kind as it is read of a body, with the defaults of what its spec leaves out."""
    drafted = without_nulls(body)
    version, kind = KINDS[plural][:2]
    drafted = {"apiVersion": version, "kind": kind, **drafted, "metadata": filled_members(drafted.get("metadata", {}), LISTS + TEXTS)}
    if plural == "pods":
        return {"spec": {}, **drafted}
    return {**drafted, "spec": spec_of(plural, drafted.get("spec", {}))} if plural in ("replicasets", "deployments") else drafted


def spec_of(plural, spec):
    """Returns the spec of a ReplicaSet or Deployment with its defaults."""
    labels = spec.get("selector", {}).get("matchLabels", {})
    template = {**spec.get("template", {})}
    if not labels or set(spec["selector"]) != {"matchLabels"} or not labels.items() <= template["metadata"]["labels"].items():
        raise NotKnown(spec)
    template["metadata"] = filled_members(template["metadata"], LISTS)
    spec = {"replicas": 1, **spec, "template": template}
    if plural == "replicasets":
        return spec
    strategy = {"type": "RollingUpdate", **spec.get("strategy", {})}
    if strategy["type"] == "RollingUpdate":
        strategy["rollingUpdate"] = ROLLING | strategy.get("rollingUpdate", {})
    return {"revisionHistoryLimit": 10, **spec, "strategy": strategy}


def generation_after(plural, before, after):
    """Returns the generation of an object in the place of another, where its kind has one."""
    if "generation" not in before["metadata"]:
        return {}
    annotations = [it["metadata"].get("annotations") for it in (before, after)]
    is_new = text(before["spec"]) != text(after["spec"]) or plural == "deployments" and annotations[0] != annotations[1]
    return {"generation": before["metadata"]["generation"] + is_new}


def left_by(policy, held):
    """Returns the finalizers that a delete leaves: those of its policy replace those of any, unless they are there already, alone."""
    if policy is None or OF_POLICIES & set(held) == set(FINALIZERS[policy]):
        return held
    return [it for it in held if it not in OF_POLICIES] + FINALIZERS[policy]


def made_name(given, number):
    """Returns what is given, cut to 58 bytes, and five letters for a number."""
    letters = ""
    for _ in range(5):
        number, digit = divmod(number, len(LETTERS))
        letters = LETTERS[digit] + letters
    return given[:58] + letters


# ---- the server


class Server:
    """All changes in order: (revision, plural, key, the object before or None, the object as a watch shows it, whether it was removed)."""

    def __init__(self, window):
        self.window, self.changes, self.compacted, self.moment, self.objects = window, [], 1, FIRST_MOMENT, {}

    def present(self):
        return len(self.changes) + 1

    def of_kind(self, plural):
        return [change for change in self.changes if change[1] == plural]

    def floor(self, plural):
        """Returns the revision below which nothing is told: of the last change out of the window, or the last compaction."""
        of_kind = self.of_kind(plural)
        forgotten = of_kind[-self.window - 1][0] if len(of_kind) > self.window else 1
        return max(forgotten, self.compacted)

    def listed(self, plural):
        return [self.objects[key] for key in sorted(self.objects) if key[0] == plural]

    def listed_at(self, plural, revision):
        """Returns what was there of a kind at a revision."""
        there = {}
        for changed, _, key, _, shown, is_gone in self.of_kind(plural):
            if changed <= revision:
                there[key] = None if is_gone else shown
        return [there[key] for key in sorted(there) if there[key]]

    def write(self, key, after):
        """Writes an object, or removes one, at the next revision, and returns it as a watch shows it."""
        revision, before = self.present() + 1, self.objects.get(key)
        shown = at_revision(before if after is None else after, revision)
        if after is None:
            del self.objects[key]
        else:
            self.objects[key] = shown
        self.changes.append((revision, key[0], key, before, shown, after is None))
        return shown

    def frames(self, plural, after):
        """Returns the frames of the changes of a kind after a revision, with their revisions."""
        types = [(change, "DELETED" if change[5] else "MODIFIED" if change[3] else "ADDED") for change in self.of_kind(plural)]
        return [(change[0], text({"object": change[4], "type": kind}) + "\n") for change, kind in types if change[0] > after]

    # requests

    def answer(self, line):
        """Returns what is written for a line that the server reads."""
        word, _, rest = line.partition(b" ")
        if not _:
            return reply(*bad("head"))
        rest = rest.decode()
        if word == b"AT" and MOMENT.fullmatch(rest):
            self.moment = rest
            return ""
        if word == b"COMPACT" and is_revision(rest.encode()):
            return self.compact(int(rest))
        target, blank, body = rest.partition(" ")
        if word in (b"GET", b"DELETE") and target or word in (b"POST", b"PUT", b"PATCH") and target and blank:
            return self.asked(word.decode(), target, body)
        return reply(*bad("head"))

    def compact(self, revision):
        if revision > self.present():
            return reply(*too_new(revision, self.present()))
        self.compacted = max(self.compacted, revision)
        return reply(*success())

    def asked(self, method, target, body):
        path, _, query = target.partition("?")
        found = PATH.fullmatch(path)
        if not found or found[1] != KINDS[found[3]][2]:
            raise NotKnown(target)
        _, namespace, plural, name, status = found.groups()
        if method == "GET" and not name:
            return self.collection(plural, namespace, query)
        if query or not namespace or (method == "POST") == bool(name) or status and method != "PUT":
            raise NotKnown(target)
        key, said = (plural, namespace, name), json.loads(body) if body else {}
        methods = {"GET": self.get, "POST": self.create, "PATCH": self.patch, "PUT": self.update_status if status else self.update}
        return reply(*(self.delete_by(key, said) if method == "DELETE" else methods[method](key, said)))

    def collection(self, plural, namespace, query):
        if namespace:
            raise NotKnown("a list of a namespace")
        watched = re.fullmatch(r"watch=true&resourceVersion=([1-9][0-9]*)", query)
        exact = re.fullmatch(r"resourceVersion=([1-9][0-9]*)&resourceVersionMatch=Exact", query)
        if query and not watched and not exact:
            raise NotKnown(query)
        if not query:
            return list_reply(plural, self.listed(plural), self.present())
        asked, floor = int((watched or exact)[1]), self.floor(plural)
        if asked > self.present():
            return reply(*too_new(asked, self.present()))
        if asked < floor:
            return reply(*too_old(asked, floor))
        if exact:
            return list_reply(plural, self.listed_at(plural, asked), asked)
        frames = [frame for _, frame in self.frames(plural, asked)]
        return f"200 watch {len(frames)}\n" + "".join(frames)

    # verbs: each returns a code and a body

    def get(self, key, _):
        return (200, self.objects[key]) if key in self.objects else not_found(key)

    def create(self, key, body):
        plural, namespace, _ = key
        drafted, revision = read(plural, body), self.present() + 1
        metadata = {name: it for name, it in drafted["metadata"].items() if name != "deletionTimestamp"}
        if "resourceVersion" in metadata or not NAME.fullmatch(metadata.get("name", "a")):
            raise NotKnown(body)
        name = metadata.get("name") or self.free_name(plural, namespace, metadata["generateName"], revision)
        key, uid = (plural, namespace, name), f"00000000-0000-8000-8000-{revision:012x}"
        if key in self.objects:
            return failure(409, "AlreadyExists", f'{resource(plural)} "{name}" already exists', details(plural, name))
        metadata |= {"name": name, "namespace": namespace, "creationTimestamp": self.moment, "uid": uid}
        metadata |= {"generation": 1} if plural in ("replicasets", "deployments") else {}
        status = {"status": FIRST_STATUS[plural]} if plural in FIRST_STATUS else {}
        return 201, self.write(key, {**drafted, **status, "metadata": metadata})

    def free_name(self, plural, namespace, given, revision):
        """Returns the first of eight names that is free, or else the first of them."""
        tried = [made_name(given, revision + it) for it in range(8)]
        return next((it for it in tried if (plural, namespace, it) not in self.objects), tried[0])

    def fault(self, key, drafted):
        """Returns why an object cannot replace the one under a key, or None."""
        if drafted["metadata"].get("name") != key[2]:
            raise NotKnown(drafted)
        if key not in self.objects:
            return not_found(key)
        stored, said = self.objects[key]["metadata"], drafted["metadata"]
        if said.get("uid", stored["uid"]) != stored["uid"]:
            return conflict(key, "the precondition on uid is not met")
        if said.get("resourceVersion", stored["resourceVersion"]) != stored["resourceVersion"]:
            return conflict(key, "the object has been modified; please apply your changes to the latest version and try again")
        return None

    def update(self, key, body):
        drafted = read(key[0], body)
        if fault := self.fault(key, drafted):
            return fault
        stored = self.objects[key]
        if is_being_deleted(stored) and not set(finalizers(drafted)) <= set(finalizers(stored)):
            raise NotKnown("a finalizer that is added to what is being deleted")
        metadata = {name: it for name, it in drafted["metadata"].items() if name not in KEPT}
        metadata |= {name: stored["metadata"][name] for name in KEPT if name in stored["metadata"]}
        after = {**drafted, "metadata": metadata, **({"status": stored["status"]} if "status" in stored else {})}
        if text(after) == text(stored):
            return 200, stored
        metadata |= generation_after(key[0], stored, after)
        if is_being_deleted(stored) and not finalizers(after):
            self.write(key, None)
            return 200, at_revision(after, self.present())
        return 200, self.write(key, after)

    def update_status(self, key, body):
        if key[0] not in FIRST_STATUS:
            raise NotKnown(key)
        drafted = without_nulls(body)
        if fault := self.fault(key, {"metadata": filled_members(drafted.get("metadata", {}), LISTS + TEXTS)}):
            return fault
        stored = self.objects[key]
        after = {**stored, "status": drafted.get("status", FIRST_STATUS[key[0]])}
        return (200, stored) if text(after) == text(stored) else (200, self.write(key, after))

    def patch(self, key, body):
        return self.update(key, merged(self.objects[key], body)) if key in self.objects else not_found(key)

    def delete_by(self, key, options):
        """Deletes by what a body says."""
        asked = without_nulls(options.get("preconditions", {}))
        return self.delete(key, asked.get("uid"), asked.get("resourceVersion"), options.get("propagationPolicy"))

    def delete(self, key, uid=None, version=None, policy=None):
        if key not in self.objects:
            return not_found(key)
        stored = self.objects[key]
        metadata = stored["metadata"]
        if uid not in (None, metadata["uid"]):
            return conflict(key, "the precondition on uid is not met")
        if version not in (None, metadata["resourceVersion"]):
            return conflict(key, "the precondition on resourceVersion is not met")
        left, code = left_by(policy, finalizers(stored)), 202 if policy == "Foreground" else 200
        if not left:
            removed = self.write(key, None)
            return (200, removed) if key[0] == "pods" else success({**details(key[0], key[2]), "uid": metadata["uid"]})
        if is_being_deleted(stored) and left == finalizers(stored):
            return code, stored
        begun = {} if is_being_deleted(stored) else {"deletionTimestamp": self.moment}
        if begun and "generation" in metadata:
            begun["generation"] = metadata["generation"] + 1
        return code, self.write(key, {**stored, "metadata": {**metadata, "finalizers": left, **begun}})
