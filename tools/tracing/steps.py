"""Reads a trace of `kcp simulate` with its outcomes: each line beside what came of it."""
import dataclasses
import datetime
import json
import re

KINDS = ("configmaps", "pods", "replicasets", "deployments")
# The greatest window and number of workers that a configuration may have.
MOST_CHANGES, MOST_WORKERS = 65536, 64
CONFIGURATION = re.compile(r"config window=(\d{1,9}) workers=(\d{1,9})(?: initial=(?:list|stream))?")
WATCH = re.compile(r"200 watch (\d+)")


@dataclasses.dataclass(frozen=True)
class Step:
    """A line of a trace, its number in the file, the lines that it was answered, and the server's present revision after it."""

    number: int
    line: str
    outcome: tuple
    present: int

    @property
    def words(self):
        return self.line.split(" ")

    @property
    def told(self):
        return self.outcome[0] if self.outcome else ""

    def is_open(self):
        return self.told != "no step" and not self.told.startswith('400 {"apiVersion":"v1","code":400,"kind":"Status","message":"bad request: head"')


class NotOfTheTrace(Exception):
    """The outcomes are not those of the trace."""


def read(trace, outcomes):
    """Returns the steps of a trace, given its text and that of its outcomes."""
    left, steps, present, is_first = outcomes.splitlines(), [], 1, True
    for number, line in enumerate(trace.splitlines(), 1):
        if not line:
            continue
        taken = taken_by(line, left, is_first)
        is_first = False
        outcome, left = left[:taken], left[taken:]
        present = present_after(line, outcome, present)
        steps.append(Step(number, line, tuple(outcome), present))
    if left:
        raise NotOfTheTrace(f"{len(left)} lines of the outcomes are of no line of the trace")
    return steps


def taken_by(line, left, is_first):
    """Returns how many of the outcomes that are left are those of a line."""
    if is_first and is_configuration(line) or is_moment(line):
        return 0
    if not left:
        raise NotOfTheTrace(f"nothing is left for the line: {line}")
    watch = WATCH.fullmatch(left[0])
    return 1 + int(watch[1]) if watch else 1


def is_configuration(line):
    found = CONFIGURATION.fullmatch(line)
    return bool(found) and 1 <= int(found[1]) <= MOST_CHANGES and 1 <= int(found[2]) <= MOST_WORKERS


def is_moment(line):
    """Returns whether a line sets the moment of later requests, which is answered by nothing."""
    found = re.fullmatch(r"request AT (\d{4})-(\d\d)-(\d\d)T(\d\d):(\d\d):(\d\d)Z", line)
    if not found:
        return False
    year, *rest = map(int, found.groups())
    try:
        datetime.datetime(year or 4, *rest)
    except ValueError:
        return False
    return True


def present_after(line, outcome, present):
    """Returns the server's present revision after a step, as far as its outcome tells: each write has the next one."""
    words = line.split(" ")
    if not outcome:
        return present
    told = outcome[0]
    if words[0] == "request" and words[1:2] and words[1] in ("POST", "PUT", "PATCH", "DELETE"):
        return max(present, version_in(told)) if not is_removal(words[1], told) else present + 1
    if words[0] == "issue" and told.startswith("issued "):
        is_written = re.search(r" 20[012]$", told) or told.endswith(" lost") and words[-1] == "lost"
        return present + bool(is_written)
    if words[0] == "list" and told.startswith("listed "):
        return max(present, int(told.split(" ")[2]))
    return present


def version_in(told):
    """Returns the revision of the object that a reply has, or 0."""
    code, _, body = told.partition(" ")
    try:
        value = json.loads(body) if code.startswith("2") else {}
        return int(value.get("metadata", {}).get("resourceVersion", 0))
    except (ValueError, AttributeError):
        return 0


def is_removal(method, told):
    """Returns whether a reply says that an object was removed, without the revision of that."""
    return method == "DELETE" and told.startswith("200 ") and '"status":"Success"' in told
