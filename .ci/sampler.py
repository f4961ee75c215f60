"""Measures what processor time the provers take that this process has started, by crate and by what they do."""
import os
import threading
import time

SECONDS_BETWEEN = 1
TICKS = os.sysconf("SC_CLK_TCK")


def processes():
    """Returns for each process its parent, the tick of its start and its processor seconds so far."""
    found = {}
    for entry in os.listdir("/proc"):
        if entry.isdigit():
            try:
                with open(f"/proc/{entry}/stat", errors="replace") as it:
                    fields = it.read().rpartition(")")[2].split()
            except OSError:
                continue
            found[int(entry)] = int(fields[1]), fields[19], (int(fields[11]) + int(fields[12])) / TICKS
    return found


def is_below(process, top, found):
    """Returns whether a process was started by another, or by one that it started."""
    while process in found and process != top:
        process = found[process][0]
    return process == top


def kind_of(words):
    """Returns what a run of the prover that `rt ci` started does."""
    if "--crate-checked" in words:
        return "programs"
    return "tests" if "--test" in words else "proofs"


def proves(words):
    """Returns whether the words of a process are those of the prover."""
    return len(words) > 2 and os.path.basename(words[0]) == "rattle" and words[1] in ("check", "build") and "--crate-name" in words[:-1]


class Sampler(threading.Thread):
    """Looks at all processes once a second, until it is ended. What it cannot read it leaves out.

    `stage`, where it is set, is what all provers do from then on.
    """

    def __init__(self):
        super().__init__(daemon=True)
        self.began, self.is_ended, self.seen, self.stage = time.monotonic(), threading.Event(), {}, None

    def run(self):
        while not self.is_ended.wait(SECONDS_BETWEEN):
            try:
                self.look()
            except Exception as error:  # (no figure is worth a gate)
                self.failure = error

    def look(self):
        """Notes the processor time of each prover that runs."""
        found, now = processes(), time.monotonic() - self.began
        for process, (_, start, seconds) in found.items():
            if not is_below(process, os.getpid(), found):
                continue
            try:
                with open(f"/proc/{process}/cmdline", errors="replace") as it:
                    words = it.read().split("\0")
                if not proves(words):
                    continue
                kind = self.stage or kind_of(words)
            except OSError:
                continue
            crate = words[words.index("--crate-name") + 1]
            first = self.seen[process, start]["first"] if (process, start) in self.seen else now
            self.seen[process, start] = {"crate": crate, "kind": kind, "seconds": seconds, "first": first, "last": now}

    def end(self):
        """Stops looking, and returns the runs that were seen."""
        self.is_ended.set()
        self.join(timeout=10)
        return [*self.seen.values()]
