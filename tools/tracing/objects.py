"""Follows the objects that a trace speaks of: what the server has of each kind, and what each informer has published, as far as the lines say.

The names that the server makes are told by the revision of the write; what a list says is taken as it stands.
"""
import json
import re

from tracing.steps import KINDS

LETTERS = "bcdfghjklmnpqrstvwxz2456789"
# How many letters of a made name stand for the revision, and how long what comes before may be.
MADE, LONGEST = 5, 58
PATH = re.compile(r"/(?:api/v1|apis/apps/v1)(?:/namespaces/([^/?]+))?/(configmaps|pods|replicasets|deployments)(?:/([^/?]+))?(?:/status)?(\?.*)?")


def made_name(prefix, revision):
    """Returns the name that the server makes at a revision."""
    letters = ""
    for _ in range(MADE):
        revision, at = divmod(revision, len(LETTERS))
        letters = LETTERS[at] + letters
    return prefix[:LONGEST] + letters


def value_of(told):
    """Returns the code and the value of a reply line."""
    code, _, body = told.partition(" ")
    try:
        return code, json.loads(body)
    except ValueError:
        return code, {}


class Objects:
    """The objects at each revision, by kind, and the changes of what is present and what is published, each with the row of its step."""

    def __init__(self):
        self.present = {kind: {} for kind in KINDS}
        self.history = {kind: [(0, {})] for kind in KINDS}
        self.published = {kind: {} for kind in KINDS}
        self.held, self.changes = set(), []

    def take(self, row, step):
        """Takes in what a step did, and notes the changes that it made."""
        verb, *rest = step.words
        if verb == "request" and len(rest) > 1:
            self.requested(row, step, rest[0], rest[1])
        elif verb == "issue" and step.told.startswith("issued "):
            self.issued(row, step)
        elif verb == "publish" and step.told.startswith("published "):
            self.publish(row, rest[0], int(step.told.split(" ")[2]))
        elif verb == "restart":
            for kind in KINDS:
                self.show(row, "published", kind, {})

    def requested(self, row, step, method, path):
        found, (code, value) = PATH.fullmatch(path), value_of(step.told)
        if not found or not code.startswith("2"):
            return
        namespace, kind, name, query = found.groups()
        if method == "GET" and not name and not query and "items" in value:
            kept = {it: at for it, at in self.present[kind].items() if namespace and not it.startswith(f"{namespace}/")}
            listed = {self.key(it["metadata"]): it["metadata"]["resourceVersion"] for it in value["items"]}
            self.put(row, kind, step.present, kept | listed)
        elif method in ("POST", "PUT", "PATCH") and "metadata" in value:
            metadata = value["metadata"]
            is_gone = "deletionTimestamp" in metadata and not metadata.get("finalizers")
            self.write(row, kind, self.key(metadata), None if is_gone else metadata["resourceVersion"], step.present)
            self.hold(kind, metadata)
        elif method == "DELETE":
            metadata = value.get("metadata", {})
            is_kept = "deletionTimestamp" in metadata
            self.write(row, kind, f"{namespace}/{name}", metadata.get("resourceVersion") if is_kept else None, step.present)

    def hold(self, kind, metadata):
        """Keeps in mind whether an object has finalizers."""
        (self.held.add if metadata.get("finalizers") else self.held.discard)((kind, self.key(metadata)))

    def issued(self, row, step):
        _, _, verb, key, code, *_ = step.told.split(" ")
        kind, _, name = key.partition("/")
        is_written = code in ("200", "201", "202") or code == "lost" and step.words[-1] == "lost"
        if not is_written or kind not in KINDS:
            return
        if verb == "create":
            name = name if not name.endswith("-") else made_name(name, step.present)
        is_gone = verb == "delete" and (kind, name) not in self.held
        self.write(row, kind, name, None if is_gone else str(step.present), step.present)

    @staticmethod
    def key(metadata):
        return f"{metadata.get('namespace', '')}/{metadata.get('name', '')}"

    def write(self, row, kind, key, version, revision):
        after = {it: at for it, at in self.present[kind].items() if it != key} | ({key: version} if version else {})
        self.put(row, kind, revision, after)

    def put(self, row, kind, revision, after):
        self.history[kind].append((revision, after))
        self.show(row, "present", kind, after)

    def publish(self, row, kind, revision):
        self.show(row, "published", kind, next(it for at, it in reversed(self.history[kind]) if at <= revision))

    def show(self, row, where, kind, after):
        """Notes how what is present or published changes."""
        before = getattr(self, where)[kind]
        for key in sorted({*before, *after}):
            if before.get(key) != after.get(key):
                self.changes.append([row, where, kind, key, after.get(key)])
        getattr(self, where)[kind] = after
