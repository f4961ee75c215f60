"""Says why a step of a trace was not open, and what of a line was not understood, from the lines before it."""
import re

from tracing.steps import KINDS, is_configuration

# What each controller's turn looks at, in order: kinds, and the question whether all expected pods have been seen.
LOOKS = {
    "rs": ("look replicasets", "satisfied", "look pods"),
    "deploy": ("look deployments", "look replicasets", "look pods"),
    "gc": tuple(f"look {kind}" for kind in KINDS),
}
TURN = ("look", "satisfied", "read", "expect", "issue", "finish")
NUMBER = r"\d{1,9}"
KIND = "|".join(KINDS)
# The words that follow each first one: what it is called, and what it has to be.
FORMS = {
    **dict.fromkeys(("list", "stream", "watch", "cut", "publish", "handle"), [("a kind", KIND)]),
    "send": [("a kind", KIND), ("a number or `bookmark`", rf"{NUMBER}|bookmark")],
    "deliver": [("a kind", KIND), ("a number or `all`", rf"{NUMBER}|all")],
    **dict.fromkeys(("take", "satisfied", "read", "expect", "finish"), [("a worker", NUMBER)]),
    "look": [("a worker", NUMBER), ("a kind", KIND)],
    "issue": [("a worker", NUMBER), ("`lost` or `dropped`", "lost|dropped|")],
    "tick": [("a number of milliseconds", NUMBER)],
    "compact": [("a revision", r"0|[1-9]\d*")],
    "restart": [],
}


def not_understood(line):
    """Returns what of a line is not as its form has it."""
    verb, *rest = line.split(" ")
    if verb == "config":
        return "a configuration stands in the first line alone" if is_configuration(line) else "the configuration has another form, or is too great"
    if verb == "request":
        return "the request's own line is not understood"
    if not verb:
        return "the line begins with a blank"
    if verb not in FORMS:
        return f"`{verb}` begins no line"
    form = FORMS[verb]
    for at, (called, pattern) in enumerate(form):
        word = rest[at] if at < len(rest) else ""
        if not re.fullmatch(pattern, word):
            return f"`{word}` is not {called}" if word else f"{called} is missing after `{verb}`"
    if len(rest) > len(form):
        return f"`{' '.join(rest[len(form):])}` is too much".replace("``", "a blank at the end")
    return "a number is too great, or what stands at the end is not shown"


class Followed:
    """What the lines before said of followers and workers."""

    def __init__(self, initial="list"):
        self.initial = initial
        self.restart()

    def restart(self):
        self.links, self.has_all, self.published, self.turns = set(), set(), set(), {}

    def note(self, step):
        """Keeps in mind what an open step did."""
        verb, *rest = step.words
        told = step.told.split(" ")
        if verb == "config" and "initial=stream" in step.line:
            self.initial = "stream"
        if verb == "restart":
            self.restart()
        elif verb in ("stream", "watch") and told[0] != "expired":
            self.links.add(rest[0])
        elif verb in ("list", "deliver", "cut") or verb == "watch":
            self.note_follower(verb, rest[0], told)
        elif verb == "publish":
            self.published.add(rest[0])
        elif verb in ("take", *TURN):
            self.note_turn(verb, int(rest[0]), told)

    def note_follower(self, verb, kind, told):
        is_over = told[-1] in ("expired", "unreadable") or told[0] == "expired"
        if verb == "cut" or is_over:
            self.links.discard(kind)
        # (of a stream no revision is named until all of it was read)
        if verb == "list" or verb == "deliver" and told[2] != "0":
            self.has_all.add(kind)
        if is_over:
            self.has_all.discard(kind)

    def note_turn(self, verb, worker, told):
        if verb == "take" and told[2] != "none":
            self.turns[worker] = [told[2], told[3], 0]
        elif verb == "finish":
            self.turns.pop(worker, None)
        elif verb in ("look", "satisfied") and worker in self.turns:
            self.turns[worker][2] += 1

    def key(self, step):
        """Returns the key that a step of a worker is for, or nothing."""
        return self.turns[int(step.words[1])][1] if step.words[0] in TURN and step.words[1:2] and step.words[1].isdigit() and int(step.words[1]) in self.turns else ""

    def why(self, step, later):
        """Returns why a step is not open; `later` says which step of a worker is open next."""
        verb, *rest = step.words
        if verb in TURN:
            return self.why_of_a_turn(int(rest[0]), later)
        if verb == "take":
            turn, missing = self.turns.get(int(rest[0])), [kind for kind in KINDS if kind not in self.published]
            return f"the worker is in the turn of {turn[1]}" if turn else f"{', '.join(missing)} not published yet" if missing else "there is no such worker"
        if verb == "tick":
            return "the time would be too great"
        return self.why_of_a_follower(verb, rest[0], rest[-1])

    def why_of_a_turn(self, worker, later):
        if worker not in self.turns:
            return "the worker is in no turn"
        controller, key, seen = self.turns[worker]
        rest = LOOKS.get(controller, ())[seen:]
        following = f"`{rest[0]}`" if rest else f"`{later}`" if later else "another step"
        return f"the turn of {key} goes on with {following}"

    def why_of_a_follower(self, verb, kind, last):
        first = f"the reflector asks for a {self.initial} first"
        if verb in ("send", "deliver", "cut"):
            return "no link is open" if kind not in self.links else "something is left to send, or the ERROR frame was written" if last == "bookmark" else "the ERROR frame was written"
        if verb == "publish":
            return "no list or whole stream was taken in yet"
        if verb == "handle":
            return "each published change was handled"
        if kind in self.links:
            return "a link is open"
        if verb == "watch":
            return first
        return "the reflector asks for a watch" if kind in self.has_all else first
