"""Watchers that begin with streams of initial events, one after another, and what each of these showed."""
import http.client
import json
import random
import time

QUERY = "watch=true&allowWatchBookmarks=true&sendInitialEvents=true&resourceVersionMatch=NotOlderThan"
ENDING = {"k8s.io/initial-events-end": "true"}
PATIENCE = 60
# After how many changes at most a stream is left for another one.
MOST = 40


class Stream:
    """What a watch showed that began with initial events: these, the revision of the bookmark that closed them, the changes after it, and each later
    bookmark, with how many changes came before."""

    def __init__(self):
        self.asked, self.answered, self.revision = time.monotonic(), None, None
        self.initial, self.events, self.bookmarks = [], [], []

    def is_closed(self):
        return self.answered is not None

    def reached(self):
        """Returns the revision up to which all was shown, 0 while initial events are under way."""
        return self.revision + len(self.events) if self.is_closed() else 0

    def take(self, event):
        """Takes in an event."""
        meta = event["object"]["metadata"]
        if event["type"] != "BOOKMARK":
            (self.events if self.is_closed() else self.initial).append(event)
        elif meta.get("annotations") == ENDING and not self.is_closed():
            self.revision, self.answered = int(meta["resourceVersion"]), time.monotonic()
        else:
            self.bookmarks.append((len(self.events), int(meta["resourceVersion"])))


class Streamer:
    """A client that begins with a stream of initial events again and again, and goes on with each for a while."""

    def __init__(self, port, path, seed):
        self.port, self.target, self.rolls, self.streams, self.last = port, f"{path}?{QUERY}", random.Random(seed), [], None

    def is_over(self):
        """Returns whether the last stream has shown all up to the last revision, once that is known."""
        return self.last is not None and self.streams[-1].reached() >= self.last

    def run(self):
        while not (self.streams and self.is_over()):
            self.streams.append(Stream())
            self.follow(self.streams[-1], self.rolls.randrange(MOST))

    def follow(self, stream, count):
        """Takes in one stream, until it has shown so many changes, or all, or ends by itself."""
        connection = http.client.HTTPConnection("127.0.0.1", self.port, timeout=PATIENCE)
        connection.request("GET", self.target)
        reply = connection.getresponse()
        while len(stream.events) <= count and not self.is_over() and (line := reply.readline()):
            stream.take(json.loads(line))
        reply.close()
        connection.close()

    def end(self, revision):
        """Waits until a stream has shown all up to a revision, or it takes too long."""
        self.last, until = revision, time.monotonic() + PATIENCE
        while not self.is_over() and time.monotonic() < until:
            time.sleep(0.01)
