"""What clients asked and were told, and whether one order of all writes explains it."""
import bisect
import dataclasses


@dataclasses.dataclass
class Call:
    """A request, when it was asked and answered, and the answer."""

    kind: str
    name: str
    asked: float
    answered: float
    code: int
    value: dict
    version: str = ""
    uid: str = ""

    def revision(self):
        """Returns the revision of the object that was answered."""
        return int(self.value["metadata"]["resourceVersion"])


@dataclasses.dataclass
class Write:
    """An entry of the history: what a watch has shown of a revision, and the call that wrote it."""

    event: dict
    call: Call = None

    @property
    def object(self):
        return self.event["object"]

    @property
    def name(self):
        return self.object["metadata"]["name"]

    @property
    def revision(self):
        return int(self.object["metadata"]["resourceVersion"])


class History:
    """All writes in the order of their revisions, which begin at 2 and leave none out. Faults are collected in `faults`."""

    def __init__(self, events, calls):
        self.faults, self.calls = [], calls
        self.writes = [Write(event) for event in events]
        self.of_name = {}
        self.check_order()
        self.find_calls()
        self.latest_asked, self.earliest_answered = self.bounds()

    def fault(self, text):
        self.faults.append(text)

    def check_order(self):
        """A watch from the beginning shows every revision once, and each change goes on from the one before it under its name."""
        state = {}
        for revision, write in enumerate(self.writes, 2):
            if write.revision != revision:
                self.fault(f"revision {revision} is missing, or comes twice: {write.event}")
                return
            kind, before = write.event["type"], state.get(write.name)
            if (kind == "ADDED") != (before is None):
                self.fault(f"{kind} at {revision} where there is {before}")
            if kind == "DELETED" and before and contents(before) != contents(write.object):
                self.fault(f"what was deleted at {revision} is not what was there")
            state[write.name] = None if kind == "DELETED" else write.object
            self.of_name.setdefault(write.name, []).append(revision)

    def at(self, revision):
        return self.writes[revision - 2]

    def find_calls(self):
        """Each accepted write is one entry of the history, and each entry one accepted write."""
        for call in self.calls:
            if call.kind in ("create", "update") and call.code in (200, 201):
                self.take(call, call.revision(), call.value)
            elif call.kind == "delete" and call.code == 200:
                gone = [r for r in self.of_name.get(call.name, []) if self.is_delete_of(r, call.uid)]
                self.take(call, gone[0] if gone else 0, None)
        for write in self.writes:
            if write.call is None:
                self.fault(f"nobody asked for what revision {write.revision} wrote")

    def is_delete_of(self, revision, uid):
        write = self.at(revision)
        return write.event["type"] == "DELETED" and write.object["metadata"]["uid"] == uid

    def take(self, call, revision, value):
        if not 2 <= revision < len(self.writes) + 2:
            self.fault(f"no watch showed what {call.kind} {call.name} wrote at {revision}")
            return
        write = self.at(revision)
        if write.call or write.name != call.name or (value and value != write.object):
            self.fault(f"revision {revision} is not what {call.kind} {call.name} was told")
        write.call = call
        if call.kind == "update" and self.version_before(call.name, revision) != int(call.version):
            self.fault(f"the update at {revision} replaced {self.version_before(call.name, revision)}, not {call.version}")

    def version_before(self, name, revision):
        """Returns the revision of what is there under a name just before a revision, or None."""
        revisions = self.of_name.get(name, [])
        at = bisect.bisect_left(revisions, revision)
        last = revisions[at - 1] if at else None
        return None if last is None or self.at(last).event["type"] == "DELETED" else last

    def bounds(self):
        """Returns, up to each revision, the latest moment at which a write was asked, and from each on the earliest answer."""
        latest, highest = [], 0.0
        for write in self.writes:
            if write.call and write.call.answered < highest:
                self.fault(f"revision {write.revision} was answered before an earlier one was asked")
            highest = max(highest, write.call.asked if write.call else 0.0)
            latest.append(highest)
        earliest, lowest = [], float("inf")
        for write in reversed(self.writes):
            lowest = min(lowest, write.call.answered if write.call else float("inf"))
            earliest.append(lowest)
        return latest, earliest[::-1]

    def seen_by(self, call):
        """Returns the first and the last revision at which a call may have been answered: it sees all that was answered before it was
        asked, and nothing that was asked after it was answered."""
        first = 1 + bisect.bisect_left(self.earliest_answered, call.asked)
        last = 1 + bisect.bisect_right(self.latest_asked, call.answered)
        return first, last

    def versions_in(self, name, first, last):
        """Returns what was there under a name at some revision of a range: versions, None for nothing."""
        revisions = [r for r in self.of_name.get(name, []) if first < r <= last]
        return {self.version_before(name, first + 1), *(self.version_before(name, r + 1) for r in revisions)}

    def check_reads(self):
        """Each answer is that of a state between its call and its answer."""
        for call in self.calls:
            first, last = self.seen_by(call)
            if call.kind == "list":
                self.check_list(call, first, last)
                continue
            there = self.versions_in(call.name, first, last)
            if not self.explains(call, there):
                self.fault(f"{call.kind} {call.name} (version {call.version}) was told {call.code}, where there was {there} from {first} to {last}")

    @staticmethod
    def explains(call, there):
        """Returns whether an answer goes with what may have been there."""
        if call.kind == "get":
            return (call.revision() if call.code == 200 else None) in there
        if call.code == 404:
            return None in there
        if call.code == 409 and call.kind == "create":
            return there != {None}
        if call.code == 409:
            return bool(there - {None, int(call.version or 0)})
        return call.code in (200, 201)

    def check_list(self, call, first, last):
        """A list is all that is there at its revision."""
        revision = int(call.value["metadata"]["resourceVersion"])
        names = {name: self.version_before(name, revision + 1) for name in self.of_name}
        wanted = {name: version for name, version in names.items() if version}
        found = {it["metadata"]["name"]: int(it["metadata"]["resourceVersion"]) for it in call.value["items"]}
        if not first <= revision <= last or found != wanted:
            self.fault(f"a list at {revision}, asked between {first} and {last}, has {found}, not {wanted}")

    def check_watch(self, start, events):
        """A watch shows just the changes after its start, in order, up to where it ended."""
        for revision, event in enumerate(events, start + 1):
            if revision >= len(self.writes) + 2 or event != self.at(revision).event:
                self.fault(f"a watch from {start} shows {event}, where revision {revision} comes")
                return

    def check_stream(self, stream):
        """A stream of initial events shows what a list at the revision of its closing bookmark shows, in that order, and then just the changes after it;
        a later bookmark names the revision of the last of them."""
        if not stream.is_closed():
            self.fault(f"a stream ends after {len(stream.initial)} initial events, before the bookmark that closes them")
            return
        first, last = self.seen_by(stream)
        versions = [self.version_before(name, stream.revision + 1) for name in sorted(self.of_name)]
        wanted = [{"object": self.at(version).object, "type": "ADDED"} for version in versions if version]
        if not first <= stream.revision <= last or stream.initial != wanted:
            self.fault(f"a stream closed at {stream.revision}, asked between {first} and {last}, shows {stream.initial}, not {wanted}")
        self.check_watch(stream.revision, stream.events)
        for count, revision in stream.bookmarks:
            if revision != stream.revision + count:
                self.fault(f"a bookmark of {revision} comes after the change of {stream.revision + count}")


def contents(value):
    """Returns an object without its version."""
    metadata = {key: it for key, it in value["metadata"].items() if key != "resourceVersion"}
    return value | {"metadata": metadata}
