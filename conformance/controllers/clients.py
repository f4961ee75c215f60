"""A client of the API, and watches that go on from where they ended."""
import http.client
import json
import threading

PREFIXES = {"configmaps": "/api/v1", "pods": "/api/v1", "replicasets": "/apis/apps/v1", "deployments": "/apis/apps/v1"}
PATIENCE = 120
# What a connection to a server that is gone, or is cut, ends in.
CUT = (OSError, http.client.HTTPException, ValueError)
MERGE = "application/merge-patch+json"


class Refused(Exception):
    """An answer that is not 2xx."""

    def __init__(self, asked, code, text):
        super().__init__(f"{asked}: {code} {text[:200]}")
        self.code = code


def path(kind, name="", namespace="default"):
    """Returns the path of a kind's objects, or of the one of this name."""
    return f"{PREFIXES[kind]}/namespaces/{namespace}/{kind}" + (f"/{name}" if name else "")


class Client:
    """Asks a server, over a connection for each request."""

    def __init__(self, port):
        self.port = port

    def ask(self, method, target, body=None, media="application/json"):
        """Returns what is answered with 2xx."""
        connection = http.client.HTTPConnection("127.0.0.1", self.port, timeout=PATIENCE)
        try:
            connection.request(method, target, None if body is None else json.dumps(body), {} if body is None else {"Content-Type": media})
            reply = connection.getresponse()
            text = reply.read()
        finally:
            connection.close()
        if reply.status // 100 != 2:
            raise Refused(f"{method} {target}", reply.status, text.decode("utf-8", "replace"))
        return json.loads(text)

    def create(self, kind, value):
        return self.ask("POST", path(kind), value)

    def get(self, kind, name):
        """Returns an object, or nothing where it is not there."""
        try:
            return self.ask("GET", path(kind, name))
        except Refused as refused:
            if refused.code != 404:
                raise
            return None

    def patch(self, kind, name, value):
        return self.ask("PATCH", path(kind, name), value, MERGE)

    def update_status(self, kind, name, value):
        return self.ask("PUT", path(kind, name) + "/status", value)

    def delete(self, kind, name, policy):
        return self.ask("DELETE", path(kind, name), {"propagationPolicy": policy})

    def list(self, kind):
        """Returns a kind's objects, and the revision of the list."""
        value = self.ask("GET", path(kind))
        return value["items"], int(value["metadata"]["resourceVersion"])

    def present(self, kind):
        """Returns a kind's objects."""
        return self.list(kind)[0]


class Event:
    """What a watch shows: a write, at its revision, of an object that is there afterwards or no longer is."""

    def __init__(self, kind, way, value):
        self.kind, self.is_deleted, self.is_added, self.value = kind, way == "DELETED", way == "ADDED", value
        self.name, self.revision = value["metadata"]["name"], int(value["metadata"]["resourceVersion"])


class Watch:
    """Watches a kind from a revision on, in a thread, again and again, and hands each event to a function."""

    def __init__(self, port, kind, start, take):
        self.port, self.kind, self.last, self.take, self.is_over, self.fault = port, kind, start, take, False, None
        threading.Thread(target=self.run, daemon=True).start()

    def run(self):
        while not self.is_over:
            try:
                self.watch()
            except CUT as fault:
                self.fault = fault
                return

    def watch(self):
        """Hands on the events of one watch, up to its end."""
        connection = http.client.HTTPConnection("127.0.0.1", self.port, timeout=PATIENCE)
        connection.request("GET", f"{path(self.kind)}?watch=true&allowWatchBookmarks=true&resourceVersion={self.last}")
        reply = connection.getresponse()
        if reply.status != 200:
            raise ValueError(f"a watch of {self.kind} was answered {reply.status}")
        while line := reply.readline():
            self.hand(json.loads(line))
        connection.close()

    def hand(self, frame):
        """Hands on what a frame shows."""
        if frame["type"] == "BOOKMARK":
            self.last = max(self.last, int(frame["object"]["metadata"]["resourceVersion"]))
        elif frame["type"] == "ERROR":
            raise ValueError(f"a watch of {self.kind} ended with {frame['object'].get('message')}")
        else:
            event = Event(self.kind, frame["type"], frame["object"])
            self.take(event)
            self.last = event.revision

    def end(self):
        self.is_over = True
