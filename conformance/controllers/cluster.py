"""A stand-in for a Kubernetes API server, which answers as the recorded one does (conformance/recorded) and says of each request that it would
not take why not.

Lists come in chunks of any length, with blanks and line breaks, and items without `kind`, and what is short with its length; objects have managedFields, uids of version 4 and
members that no client has to know; streams of initial events are refused with 422; a Pod that runs somewhere goes once its node has ended it.
"""
import base64
import contextlib
import copy
import datetime
import http.server
import json
import pathlib
import random
import socketserver
import sys
import threading
import time
import urllib.parse
import uuid

from fields import Faulty, checked_create, checked_update

sys.path[1:1] = [str(pathlib.Path(__file__).resolve().parent.parent / "following")]
from asking import REFUSED

KINDS = {"configmaps": ("v1", "ConfigMap"), "pods": ("v1", "Pod"), "replicasets": ("apps/v1", "ReplicaSet"), "deployments": ("apps/v1", "Deployment")}
WATCH_SECONDS = 5
# Replies below so many bytes have a length.
SHORT = 2048
# As often a watch that sees nothing shows a bookmark.
BOOKMARK_SECONDS = 0.5
MERGE, JSON = "application/merge-patch+json", "application/json"
FOREGROUND = "foregroundDeletion"
REASONS = {404: "NotFound", 409: "Conflict", 410: "Expired", 422: "Invalid"}


class Refused(Exception):
    """A request that is refused, with the code and the text of the Status."""

    def __init__(self, code, message, reason=None):
        super().__init__(message)
        self.code, self.reason = code, reason or REASONS.get(code, "BadRequest")

    def status(self):
        return {"kind": "Status", "apiVersion": "v1", "metadata": {}, "status": "Failure", "message": str(self), "reason": self.reason, "code": self.code}


def now():
    return datetime.datetime.now(datetime.timezone.utc).strftime("%Y-%m-%dT%H:%M:%SZ")


def merged(value, patch):
    """Returns a value after a merge patch (RFC 7396)."""
    if not isinstance(patch, dict):
        return patch
    whole = dict(value) if isinstance(value, dict) else {}
    for name, it in patch.items():
        if it is None:
            whole.pop(name, None)
        else:
            whole[name] = merged(whole.get(name), it)
    return whole


def managed(value, manager):
    """Returns managedFields that name the members of a value's spec."""
    fields = {"f:spec": {f"f:{name}": {} for name in value.get("spec", {})}}
    return [{"manager": manager, "operation": "Update", "apiVersion": value["apiVersion"], "time": now(), "fieldsType": "FieldsV1", "fieldsV1": fields}]


def check_version(plural, key, body, before):
    """Checks that the version that a write names, if it names one, is the object's."""
    version = before["metadata"]["resourceVersion"]
    if body.get("metadata", {}).get("resourceVersion", version) != version:
        raise Refused(409, f'Operation cannot be fulfilled on {plural} "{key[1]}": the object has been modified; please apply your changes to the latest version')


class Store:
    """The objects, and what happened to them."""

    def __init__(self):
        self.objects, self.history, self.revision, self.changed = {}, [], 1, threading.Condition()

    def put(self, plural, key, value, way):
        """Keeps a value at the next revision, or takes it away, and tells the watches."""
        self.revision += 1
        value["metadata"]["resourceVersion"] = str(self.revision)
        if way == "DELETED":
            self.objects.pop((plural, *key))
        else:
            self.objects[plural, *key] = value
        self.history.append((self.revision, plural, way, copy.deepcopy(value)))
        self.changed.notify_all()
        return copy.deepcopy(value)

    def get(self, plural, key):
        """Returns a copy of an object."""
        if (found := self.objects.get((plural, *key))) is None:
            raise Refused(404, f'{plural} "{key[1]}" not found')
        return copy.deepcopy(found)

    def at(self, plural, revision):
        """Returns the objects of a kind as they were at a revision, in the order of their names."""
        there = {}
        for when, kind, way, value in self.history:
            if kind == plural and when <= revision:
                meta = value["metadata"]
                there[meta["namespace"], meta["name"]] = None if way == "DELETED" else value
        return [there[key] for key in sorted(there) if there[key] is not None]

    def uids(self):
        return {it["metadata"]["uid"]: it for it in self.objects.values()}


class Verbs:
    """What each verb does to the store. Each is called with the store's lock held."""

    def __init__(self, store):
        self.store = store

    def create(self, plural, namespace, body):
        api, kind = KINDS[plural]
        checked_create(body, api, kind, namespace, self.store.uids())
        meta = body.setdefault("metadata", {})
        if "name" not in meta:
            meta["name"] = meta["generateName"] + "".join(random.choices("bcdfghjklmnpqrstvwxz2456789", k=5))
        if (plural, namespace, meta["name"]) in self.store.objects:
            raise Refused(409, f'{plural} "{meta["name"]}" already exists', "AlreadyExists")
        body |= {"apiVersion": api, "kind": kind}
        meta |= {"namespace": namespace, "uid": str(uuid.uuid4()), "creationTimestamp": now(), "managedFields": managed(body, "client")}
        if plural != "pods":
            meta["generation"] = 1
        if plural == "pods":
            body["spec"] |= {"restartPolicy": "Always", "dnsPolicy": "ClusterFirst", "schedulerName": "default-scheduler", "securityContext": {}}
            body["status"] = {"phase": "Pending", "qosClass": "BestEffort"}
        elif plural != "configmaps":
            body["spec"]["template"]["spec"] |= {"restartPolicy": "Always", "terminationGracePeriodSeconds": 30, "securityContext": {}}
            body["status"] = {"replicas": 0} if plural == "replicasets" else {}
        return self.store.put(plural, (namespace, meta["name"]), body, "ADDED")

    def update(self, plural, key, body, part):
        before = self.store.get(plural, key)
        check_version(plural, key, body, before)
        checked_update(body, before, *KINDS[plural], part)
        return self.write(plural, key, before, body, part)

    def write(self, plural, key, before, after, part):
        """Keeps what a write may change: the status, or all but it."""
        if part == "status":
            after = before | {"status": after.get("status", {})}
        else:
            after |= {"status": before.get("status", {})} if "status" in before else {}
        kept = ("uid", "creationTimestamp", "namespace", "name", "deletionTimestamp", "generation", "managedFields")
        after["metadata"] |= {name: before["metadata"][name] for name in kept if name in before["metadata"]}
        after |= {"apiVersion": before["apiVersion"], "kind": before["kind"]}
        if {**after, "metadata": {**after["metadata"], "resourceVersion": ""}} == {**before, "metadata": {**before["metadata"], "resourceVersion": ""}}:
            return before
        if "generation" in after["metadata"] and after.get("spec") != before.get("spec"):
            after["metadata"]["generation"] += 1
        if "deletionTimestamp" in after["metadata"] and not after["metadata"].get("finalizers"):
            return self.store.put(plural, key, after, "DELETED")
        return self.store.put(plural, key, after, "MODIFIED")

    def patch(self, plural, key, body, part):
        before = self.store.get(plural, key)
        check_version(plural, key, body, before)
        if body.get("metadata", {}).get("uid", before["metadata"]["uid"]) != before["metadata"]["uid"]:
            raise Refused(409, "uid mismatch")
        after = merged(copy.deepcopy(before), body)
        checked_update(after, before, *KINDS[plural], part)
        return self.write(plural, key, before, after, part)

    def delete(self, plural, key, options):
        before = self.store.get(plural, key)
        wanted = (options.get("preconditions") or {}).get("uid", before["metadata"]["uid"])
        if wanted != before["metadata"]["uid"]:
            raise Refused(409, f"Precondition failed: UID in precondition: {wanted}, UID in object meta: {before['metadata']['uid']}")
        meta = before["metadata"]
        if options.get("propagationPolicy") == "Foreground" and FOREGROUND not in meta.get("finalizers", []):
            meta["finalizers"] = [*meta.get("finalizers", []), FOREGROUND]
        runs = plural == "pods" and before["spec"].get("nodeName")
        if not meta.get("finalizers") and not runs:
            return self.store.put(plural, key, before, "DELETED")
        if "deletionTimestamp" in meta:
            return before
        meta |= {"deletionTimestamp": now(), "deletionGracePeriodSeconds": 30 if runs else 0}
        return self.store.put(plural, key, before, "MODIFIED")


class Handler(http.server.BaseHTTPRequestHandler):
    """Answers one connection."""

    protocol_version = "HTTP/1.1"

    def log_message(self, *_):
        pass

    def begin(self, code, framing, value):
        """Writes the head of a reply."""
        self.send_response(code)
        self.send_header("Content-Type", JSON)
        self.send_header(framing, value)
        self.send_header("Connection", "close")
        self.end_headers()

    def reply(self, code, value):
        """Replies with a value: with its length where it is short, as Go's server does, else in chunks of any length."""
        text = (json.dumps(value, indent=random.choice((None, 1))) + "\n").encode()
        if len(text) < SHORT:
            self.begin(code, "Content-Length", len(text))
            return self.wfile.write(text)
        self.begin(code, "Transfer-Encoding", "chunked")
        while text:
            size = random.choice((1, 7, 512, 4096, 65536))
            self.chunk(text[:size])
            text = text[size:]
        return self.wfile.write(b"0\r\n\r\n")

    def chunk(self, piece):
        self.wfile.write(b"%x\r\n%s\r\n" % (len(piece), piece))
        self.wfile.flush()

    def asked(self):
        """Returns the parts of the target: the kind, the namespace, the name, the part of the object, and the query."""
        split = urllib.parse.urlsplit(self.path)
        words = split.path.strip("/").split("/")
        query = {name: it[0] for name, it in urllib.parse.parse_qs(split.query).items()}
        group, words = ("v1", words[2:]) if words[:2] == ["api", "v1"] else ("/".join(words[1:3]), words[3:])
        namespace, words = (words[1], words[2:]) if words[:1] == ["namespaces"] else (None, words)
        plural, name, part = (words + [None, None])[:3]
        if plural not in KINDS or KINDS[plural][0] != group or part not in (None, "status"):
            raise Refused(404, "the server could not find the requested resource")
        return plural, namespace, name, part, query

    def body(self):
        """Returns the value that is sent, which has to have a length and a media type."""
        if "Content-Length" not in self.headers:
            raise Faulty("no Content-Length")
        text = self.rfile.read(int(self.headers["Content-Length"]))
        if text and self.headers.get("Content-Type", "").split(";")[0] != (MERGE if self.command == "PATCH" else JSON):
            raise Faulty(f"Content-Type {self.headers.get('Content-Type')}")
        return json.loads(text) if text else {}

    def handle_one(self):
        plural, namespace, name, part, query = self.asked()
        if self.command == "GET" and name is None:
            return self.list_or_watch(plural, namespace, query)
        body = self.body() if self.command != "GET" else None
        with self.server.store.changed:
            verbs, key = Verbs(self.server.store), (namespace, name)
            if self.command == "POST":
                return self.reply(201, verbs.create(plural, namespace, body))
            does = {
                "GET": lambda: self.server.store.get(plural, key),
                "PUT": lambda: verbs.update(plural, key, body, part),
                "PATCH": lambda: verbs.patch(plural, key, body, part),
                "DELETE": lambda: verbs.delete(plural, key, body),
            }
            found = does[self.command]()
        return self.reply(200, found)

    def list_or_watch(self, plural, namespace, query):
        if "sendInitialEvents" in query or (query.get("watch") and "resourceVersionMatch" in query):
            raise Refused(422, REFUSED["message"])
        if query.get("watch") in ("1", "true"):
            return self.watch(plural, namespace, int(query.get("resourceVersion") or 0), query.get("allowWatchBookmarks") == "true")
        with self.server.store.changed:
            return self.reply(200, self.page(plural, namespace, query))

    def page(self, plural, namespace, query):
        """Returns a list, or a page of it."""
        api, kind = KINDS[plural]
        start = 0
        revision = self.server.store.revision
        if query.get("resourceVersionMatch") == "Exact":
            revision = int(query["resourceVersion"])
        if query.get("continue"):
            revision, start = json.loads(base64.urlsafe_b64decode(query["continue"]))
        found = [it for it in self.server.store.at(plural, revision) if namespace in (None, it["metadata"]["namespace"])]
        limit, meta = int(query.get("limit") or 0), {"resourceVersion": str(revision)}
        left = len(found) - start - limit
        if limit and left > 0:
            meta |= {"continue": base64.urlsafe_b64encode(json.dumps([revision, start + limit]).encode()).decode(), "remainingItemCount": left}
        items = [{name: it for name, it in value.items() if name not in ("apiVersion", "kind")} for value in found[start:][: limit or None]]
        return {"kind": f"{kind}List", "apiVersion": api, "metadata": meta, "items": items}

    def watch(self, plural, namespace, revision, has_bookmarks):
        """Shows what happens after a revision, and from time to time a bookmark, until its time is over."""
        self.begin(200, "Transfer-Encoding", "chunked")
        self.wfile.flush()
        last = time.monotonic() + WATCH_SECONDS
        while time.monotonic() < last:
            with self.server.store.changed:
                self.server.store.changed.wait_for(lambda: self.server.store.revision > revision, BOOKMARK_SECONDS)
                events = [it for it in self.server.store.history if it[0] > revision and it[1] == plural]
                revision = self.server.store.revision
            for _, _, way, value in events:
                if namespace in (None, value["metadata"]["namespace"]):
                    self.chunk(json.dumps({"type": way, "object": value}).encode() + b"\n")
            if has_bookmarks and not events:
                api, kind = KINDS[plural]
                mark = {"kind": kind, "apiVersion": api, "metadata": {"resourceVersion": str(revision), "creationTimestamp": None}}
                self.chunk(json.dumps({"type": "BOOKMARK", "object": mark}).encode() + b"\n")
        self.wfile.write(b"0\r\n\r\n")

    def answer(self):
        self.close_connection = True
        with contextlib.suppress(BrokenPipeError, ConnectionResetError):
            try:
                self.server.asked.append((self.command, self.path))
                self.handle_one()
            except Refused as refused:
                self.reply(refused.code, refused.status())
            except Faulty as fault:
                self.server.faults.append(f"{self.command} {self.path}: {fault}")
                self.reply(422, Refused(422, str(fault)).status())

    do_GET = do_POST = do_PUT = do_PATCH = do_DELETE = answer


class Cluster(socketserver.ThreadingMixIn, http.server.HTTPServer):
    """The server, with nodes that run its pods: what is made there gets a node, becomes ready, and ends where it is to be deleted."""

    daemon_threads, request_queue_size = True, 128

    def __init__(self):
        super().__init__(("127.0.0.1", 0), Handler)
        self.store, self.asked, self.faults, self.is_over = Store(), [], [], False
        self.port = self.server_address[1]
        for work in (self.serve_forever, self.run_pods):
            threading.Thread(target=work, daemon=True).start()

    def run_pods(self):
        """Does what nodes do, one look after another."""
        while not self.is_over:
            time.sleep(0.02)
            with self.store.changed:
                for (plural, *key), value in list(self.store.objects.items()):
                    if plural == "pods":
                        self.run_pod(tuple(key), copy.deepcopy(value))

    def run_pod(self, key, value):
        """Does the next thing for a Pod, if there is one."""
        if "deletionTimestamp" in value["metadata"]:
            self.store.put("pods", key, value, "DELETED")
        elif "nodeName" not in value["spec"]:
            value["spec"]["nodeName"] = "node-1"
            self.store.put("pods", key, value, "MODIFIED")
        elif value["status"]["phase"] == "Pending":
            conditions = [{"type": it, "status": "True", "lastTransitionTime": now()} for it in ("Initialized", "Ready", "ContainersReady", "PodScheduled")]
            value["status"] = {"phase": "Running", "conditions": conditions, "podIP": "10.0.0.1", "startTime": now(), "qosClass": "BestEffort"}
            self.store.put("pods", key, value, "MODIFIED")

    def kill(self):
        self.is_over = True
        self.shutdown()
        self.server_close()
