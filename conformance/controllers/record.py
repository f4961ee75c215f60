"""What happened, over several kinds, in the order of the revisions; and who marks pods ready."""
import queue
import threading

from clients import CUT, Client, Refused, Watch
from objects import is_ready, name, ready
from waiting import Wrong, check, until


def played(events, kinds):
    """Gives each event, by revision, with what is there once it has happened: the objects of each kind by name."""
    there = {kind: {} for kind in kinds}
    for event in sorted(events, key=lambda it: it.revision):
        if event.is_deleted:
            there[event.kind].pop(event.name, None)
        else:
            there[event.kind][event.name] = event.value
        yield event, there


def version(value):
    return value["metadata"]["resourceVersion"]


class Record:
    """Watches some kinds, and keeps all events."""

    def __init__(self, port, kinds, take=lambda event: None):
        self.events, self.lock, self.take, self.kinds, self.client = [], threading.Lock(), take, kinds, Client(port)
        lists = [(kind, *self.client.list(kind)) for kind in kinds]
        check(not any(items for _, items, _ in lists), "there is something before a record begins")
        self.watches = [Watch(port, kind, revision, self.add) for kind, _, revision in lists]

    def add(self, event):
        with self.lock:
            self.events.append(event)
        self.take(event)

    def check_watching(self):
        """Checks that no watch was cut or refused."""
        for watch in self.watches:
            check(watch.fault is None, f"the watch of {watch.kind} ended: {watch.fault}")

    def so_far(self):
        """Returns the events that have come so far."""
        self.check_watching()
        with self.lock:
            return list(self.events)

    def is_level(self):
        """Returns whether the events make what lists show."""
        last = {kind: {} for kind in self.kinds}
        for _, there in played(self.so_far(), self.kinds):
            last = there
        made = {kind: {key: version(it) for key, it in last[kind].items()} for kind in self.kinds}
        return made == {kind: {name(it): version(it) for it in self.client.present(kind)} for kind in self.kinds}

    def whole(self):
        """Waits until the watches have shown all that lists show, and returns all events."""
        until(self.is_level, "the watches do not show what lists show")
        return self.so_far()

    def end(self):
        for watch in self.watches:
            watch.end()


class Kubelet:
    """Marks each pod ready that a record tells of, one after another, each once something holds."""

    def __init__(self, port):
        self.client, self.waiting, self.fault, self.may_mark = Client(port), queue.Queue(), None, lambda: True
        threading.Thread(target=self.run, daemon=True).start()

    def take(self, event):
        """Takes in what a watch shows."""
        if event.kind == "pods" and event.is_added and not is_ready(event.value):
            self.waiting.put(event.name)

    def run(self):
        while (pod := self.waiting.get()) is not None:
            try:
                until(self.may_mark, "it never came to rest")
                self.client.update_status("pods", pod, ready(pod))
            except Refused as refused:
                # A pod that was deleted meanwhile needs no mark.
                if refused.code not in (404, 409):
                    self.fault = refused
            except (Wrong, *CUT) as fault:
                self.fault = fault

    def check_working(self):
        check(self.fault is None, f"a pod could not be marked ready: {self.fault}")

    def end(self):
        self.waiting.put(None)
