"""The work queue of the controllers and their workers' turns, in plain Python, from the rules of docs/SIMULATE.md."""
import owed
import plans
from owed import CONTROLLERS, KIND_ORDER
from plans import ANSWERED
from server import KINDS, is_being_deleted

ORDER = {"rs": ("replicasets", None, "pods"), "deploy": ("deployments", "replicasets", "pods"), "gc": tuple(KINDS)}
FIRST_DELAY, LONGEST_DELAY = 5, 1_000_000
PATIENCE = 300_000
LAST_MOMENT = (1 << 53) - 1
UNREACHED = ("lost", "dropped")
ACCEPTED = (200, 201, 202)


def place(work_key):
    """Returns where a work key comes among those of one moment: by controller, then by key."""
    controller, key = work_key
    return CONTROLLERS.index(controller), KIND_ORDER[key[0]], key[1:]


# ---- what changes show of expected pods


def observations(old, new):
    """Returns what a change of a pod shows: for each ReplicaSet that it names as a controller, whether it came or went, and its uid."""
    is_same = bool(old and new) and owed.uid_of(old) == owed.uid_of(new)
    shown = owners_of(old, "deletions") if old and not is_same else []
    if new and not is_same:
        shown += owners_of(new, "creations")
    if new and is_being_deleted(new) and not (is_same and is_being_deleted(old)):
        shown += owners_of(new, "deletions")
    return shown


def owners_of(pod, what):
    return [((key, it["uid"]), what, owed.uid_of(pod)) for it, key in owed.controllers(pod, "replicasets")]


class Board:
    """The keys that wait or have a delay, how often each failed, what is expected of pods, and the time."""

    def __init__(self):
        self.queue, self.dirty, self.processing = [], set(), set()
        self.delays, self.failures, self.expected, self.time = {}, {}, {}, 0

    def add(self, work_key):
        """Has a key wait, once; one in a worker's hands waits when it is done."""
        if work_key not in self.dirty:
            self.dirty.add(work_key)
            self.queue += [] if work_key in self.processing else [work_key]

    def get(self):
        """Hands out the key that waits longest, or None."""
        if not self.queue:
            return None
        work_key = self.queue.pop(0)
        self.dirty.remove(work_key)
        self.processing.add(work_key)
        return work_key

    def done(self, work_key):
        self.processing.remove(work_key)
        self.queue += [work_key] if work_key in self.dirty else []

    def requeue(self, work_key):
        """Has a key that failed wait for its delay: 5 ms, and twice as long each time."""
        self.done(work_key)
        times = self.failures.get(work_key, 0)
        at = self.time + min(FIRST_DELAY << times, LONGEST_DELAY)
        self.delays[work_key] = min(at, self.delays.get(work_key, at))
        self.failures[work_key] = min(times + 1, 32)

    def tick(self, milliseconds):
        """Has time pass, and adds the keys whose moment has come, by moment and then by key."""
        self.time += milliseconds
        due = sorted((at, place(it), it) for it, at in self.delays.items() if at <= self.time)
        for _, _, work_key in due:
            del self.delays[work_key]
            self.add(work_key)

    def expect(self, owner, creations, deletions):
        self.expected[owner] = {"creations": creations, "deletions": set(deletions), "since": self.time}

    def lower(self, owner, what, uid=None):
        """Notes that a pod is expected no longer: it was seen, or what was asked was not done."""
        found = self.expected.get(owner)
        if found and what == "creations":
            found["creations"] = max(found["creations"] - 1, 0)
        elif found:
            found["deletions"].discard(uid)

    def is_satisfied(self, owner):
        """Returns whether a ReplicaSet expects nothing, or has waited for more than five minutes."""
        found = self.expected.get(owner)
        return not found or not found["creations"] and not found["deletions"] or self.time - found["since"] > PATIENCE

    def forget(self, key):
        self.expected = {owner: it for owner, it in self.expected.items() if owner[0] != key}


class Turn:
    """What a worker has seen, read and issued for its key."""

    def __init__(self, work_key):
        self.work_key, (self.controller, self.key) = work_key, work_key
        self.looks = {plural: {} for plural in KINDS}
        self.seen, self.reads, self.is_satisfied, self.has_expected, self.issued = 0, {}, False, False, []

    def commands(self):
        return plans.plan(self.controller, self.key, self.looks, self.reads, self.is_satisfied)

    def left(self):
        return self.commands()[len(self.issued):]

    def has_failed(self):
        return any(code not in ACCEPTED for _, code, _ in self.issued)

    def undone(self):
        """Returns the commands that were refused, and those that were not issued; of a lost one it is not known."""
        return [command for command, code, _ in self.issued if code not in (None, *ACCEPTED)] + self.left()

    def owner(self):
        """Returns the key and the uid of the ReplicaSet of a turn of its controller, or None."""
        found = self.looks["replicasets"].get(self.key) if self.controller == "rs" else None
        return found and (self.key, owed.uid_of(found))

    def expected(self, commands):
        """Returns how many pods commands create, and the uids of those that they delete, where the turn is a ReplicaSet's."""
        if not self.owner():
            return 0, []
        of_pods = [it for it in commands if it[1][0] == "pods"]
        return sum(it[0] == "create" for it in of_pods), [it[2] for it in of_pods if it[0] == "delete"]

    def next(self):
        """Returns what comes next in the turn, and of what."""
        order = ORDER[self.controller]
        if self.seen < len(order):
            return ("look", order[self.seen]) if order[self.seen] else ("satisfied", None)
        if unread := plans.asks(self.controller, self.key, self.looks, self.reads):
            return "read", unread[0]
        if not self.has_expected and any(expected := self.expected(self.commands())):
            return "expect", expected
        left = [] if self.has_failed() else self.left()
        return ("issue", left[0]) if left else ("finish", None)


class Workers:
    """Workers that take turns by a board. `published()` gives for each plural the revision and what is shown of it, or None until all is."""

    def __init__(self, count, server, published):
        self.server, self.published, self.board, self.turns = server, published, Board(), [None] * count

    def handle(self, plural, old, new, is_first, looks):
        """Handles a change, and returns how many keys it owes. Those of the first list show nothing of expected pods."""
        for shown in observations(old, new) if plural == "pods" and not is_first else []:
            self.board.lower(*shown)
        keys = owed.keys_of(plural, old, new, looks)
        for work_key in keys:
            self.board.add(work_key)
        return len(keys)

    def act(self, worker, verb, said=None):
        """Has a worker take a step, and returns what is told of it, or None where it is not open."""
        if worker >= len(self.turns):
            return None
        turn = self.turns[worker]
        if not turn:
            return self.take(worker) if verb == "take" and self.published() else None
        due, what = turn.next()
        if verb != due or verb == "look" and said != what:
            return None
        return self.issue(worker, turn, said, what) if verb == "issue" else getattr(self, verb)(worker, turn, what)

    def take(self, worker):
        work_key = self.board.get()
        if not work_key:
            return f"took {worker} none"
        self.turns[worker] = Turn(work_key)
        return f"took {worker} {work_key[0]} {'/'.join(work_key[1])}"

    def look(self, worker, turn, plural):
        revision, turn.looks[plural] = self.published()[plural]
        turn.seen += 1
        return f"looked {worker} {plural} {revision}"

    def satisfied(self, worker, turn, _):
        owner = turn.owner()
        turn.is_satisfied = not owner or self.board.is_satisfied(owner)
        if not owner:
            self.board.forget(turn.key)
        turn.seen += 1
        return f"satisfied {worker} {'yes' if turn.is_satisfied else 'no'}"

    def read(self, worker, turn, key):
        found = turn.reads[key] = self.server.objects.get(key)
        return f"read {worker} {'/'.join(key)} {found['metadata']['resourceVersion'] if found else 'absent'}"

    def expect(self, worker, turn, expected):
        creations, deletions = expected
        turn.has_expected = True
        self.board.expect(turn.owner(), creations, [] if creations else deletions)
        return f"expected {worker} {creations} {len(deletions)}"

    def issue(self, worker, turn, how, command):
        verb, key = command[:2]
        code, body = (None, None) if how == "dropped" else self.ask(turn, command)
        turn.issued.append((command, None if how else code, body))
        return f"issued {worker} {verb} {'/'.join(key)} {'lost' if how else code}"

    def ask(self, turn, command):
        """Asks the server for what a command says."""
        verb, key, *said = command
        if verb == "delete":
            uid, version, policy = said
            if version == ANSWERED:
                version = turn.issued[-1][2]["metadata"].get("resourceVersion")
            return self.server.delete(key, uid, version, policy)
        asks = {"create": self.server.create, "update": self.server.update, "status": self.server.update_status}
        return asks[verb](key, *said)

    def finish(self, worker, turn, _):
        self.turns[worker] = None
        if not turn.has_failed():
            self.board.done(turn.work_key)
            self.board.failures.pop(turn.work_key, None)
            return f"finished {worker} done"
        creations, deletions = turn.expected(turn.undone())
        for what, uid in [("creations", None)] * creations + [("deletions", uid) for uid in deletions]:
            self.board.lower(turn.owner(), what, uid)
        self.board.requeue(turn.work_key)
        return f"finished {worker} retry"
