"""Runs the gate: whether the negative tests still apply and the made documents are the present ones, `rt ci`, and then beside one another
negative tests over the libraries that it built, and with the program that it built the conformance cases, one after another, whatever the others say.

It shows what they print, then what went wrong in each that failed, what took how long, what the first of them named, and whether each
passed. The last lines name those that failed, with the last that went wrong in each, and say 'N passed, M failed'. What was printed, with
the second of each line, and the figures are kept in a temporary folder, whose name it says; it writes nothing into the repository. The
status is 0 only where all passed.
"""
import json
import os
import pathlib
import re
import resource
import signal
import subprocess
import sys
import tempfile
import threading
import time
from concurrent.futures import ThreadPoolExecutor

sys.dont_write_bytecode = True
ROOT = pathlib.Path(__file__).resolve().parent.parent
# How long negative tests may take, the least and the most, and by which second they are to be over, so that what follows has its time too.
SECONDS_FOR_NEGATIVE_TESTS, FEWEST_SECONDS, NEGATIVE_TESTS_END = 900, 120, 9000
# By which second those of must-fail are to have been tried, and when whatever still runs is stopped, so that the gate can say what went wrong.
MUST_FAIL_END, END = 10_000, 10_500
BEGAN = time.monotonic()
# The conformance cases run beside the negative tests, which get the processors only while no case wants them: so no case waits for a prover.
LAST_OF_ALL = ["nice", "-n", "19"]
# What `rt ci` says of a proof, a negative test, a test or a program that is not as it has to be, and the scripts of a case.
WRONG = re.compile(r"NOT PROVED|NOT REFUSED|NOT TRIED|BAD EDIT|FAILED|not what|ended with status|^fn \S+: (?:not proved|no proof|could not tell)|^error\b")
# How many of these lines are shown before the tables, and how many at the end; and how many where a script said none.
MOST_WRONG, FEW_WRONG, LAST_LINES = 40, 5, 5
sys.path[:0] = [str(ROOT / ".ci"), str(ROOT / "conformance")]
import figures
import parts
import sampler


class Run:
    """A command, what it printed, and the second at which each line came. Two may run at once: then what one prints begins with its name.

    What it has started and left running is stopped when it ends, and it is stopped itself when the gate has to end.
    """

    one_at_a_time = threading.Lock()

    def __init__(self, words, log, name=""):
        began, self.lines, self.status, self.name = time.monotonic(), [], 127, name
        self.tell(f"$ {' '.join(words)}\n")
        how = {"stdin": subprocess.DEVNULL, "stdout": subprocess.PIPE, "stderr": subprocess.STDOUT, "encoding": "utf-8"}
        try:
            # (a group, and no session: Linux shares the processors between sessions, whatever is nice within them)
            started = subprocess.Popen(words, cwd=ROOT, errors="replace", process_group=0, **how)
            stopper = threading.Thread(target=self.stop_in_time, args=[started.pid], daemon=True)
            stopper.start()
            for line in started.stdout:
                second = time.monotonic() - began
                self.tell(line, f"{second:7.0f}  {self.name}{line}", log)
                self.lines.append((second, line.rstrip("\n")))
            stopper.join()
            self.status = started.wait()
        except OSError as error:
            self.tell(f"{words[0]}: {error}\n")
        self.seconds = time.monotonic() - began

    def stop_in_time(self, process):
        """Waits until a process ends or there is no more time, and then stops all that is left of what it has started."""
        while not os.waitid(os.P_PID, process, os.WEXITED | os.WNOHANG | os.WNOWAIT):
            if seconds_left() <= 0:
                why = f"FAILED: stopped, since the gate is to end by second {END}"
                self.tell(f"{why}\n")
                self.lines.append((END, why))
                break
            time.sleep(0.1)
        os.killpg(process, signal.SIGKILL)

    def tell(self, line, noted="", log=None):
        """Prints a line, and notes another in the log, if one is given."""
        with self.one_at_a_time:
            print(f"{self.name}{line}", end="", flush=True)
            if log:
                print(noted, end="", file=log, flush=True)

    def counts(self):
        """Returns how many passed and failed by the last line that says so; where the command failed, at least one."""
        found = [it for it in (re.fullmatch(r"(\d+) passed, (\d+) failed", line) for _, line in self.lines) if it]
        passed, failed = (int(found[-1][1]), int(found[-1][2])) if found else (0, 0)
        return passed, max(failed, 1) if self.status else failed

    def has_failed(self):
        return self.counts()[1] > 0

    def wrong(self, most):
        """Returns the last lines, so many at most, that say what was not as it has to be; where none does, the last lines of all."""
        lines = [line for _, line in self.lines]
        return [line for line in lines if WRONG.search(line)][-most:] or lines[-LAST_LINES:]

    def second_of(self, text):
        """Returns the second at which a line came, or None."""
        return next((second for second, line in self.lines if line == text), None)


def commit():
    """Returns the name of the commit that is checked out, if git knows it."""
    ran = subprocess.run(["git", "rev-parse", "--short", "HEAD"], cwd=ROOT, capture_output=True, text=True, stdin=subprocess.DEVNULL)
    return ran.stdout.strip()


def figures_of(proved, tried, asked, looking, used):
    """Returns the figures of a run, as figures.py shows them."""
    seen, crates = looking.end(), figures.known_of_tree()
    for name, of_crate in crates.items():
        of_crate["proved"] = proved.second_of(f"rt: {name} proved")
        for kind in figures.KINDS:
            of_crate[kind] = sum(it["seconds"] for it in seen if it["crate"] == name and it["kind"] == kind)
    spans = {}
    for kind in figures.KINDS:
        runs = [it for it in seen if it["kind"] == kind]
        spans[kind] = [min(it["first"] for it in runs), max(it["last"] for it in runs)] if runs else None
    counts = [run.counts() for run in asked.values()]
    return {
        "commit": commit(),
        "processors": len(os.sched_getaffinity(0)),
        "seconds": {"rt ci": proved.seconds, "negative tests": tried.seconds, "conformance": sum(run.seconds for run in asked.values())},
        "passed": {"rt ci": proved.counts(), "negative tests": tried.counts(), "conformance": [sum(it) for it in zip(*counts)]},
        "used": used,
        "spans": spans,
        "crates": crates,
    }


def seconds_left():
    """Returns how many seconds there are until whatever still runs is stopped."""
    return END - (time.monotonic() - BEGAN)


def used_by_children():
    """Returns the processor seconds of all processes that have ended below this one."""
    used = resource.getrusage(resource.RUSAGE_CHILDREN)
    return used.ru_utime + used.ru_stime


def part(name, log):
    """Runs a part of the conformance cases, with the programs that `rt ci` built."""
    programs = [word for option in parts.PARTS[name].takes.items() for word in option]
    return Run([sys.executable, "-B", "conformance/run.py", name, *programs], log)


def parts_of(group, log):
    """Runs the parts of a group, one after another, whatever the others say."""
    return {name: part(name, log) for name in group}


def seconds_for_negative_tests(passed):
    """Returns how many seconds negative tests may take, so many after the gate began."""
    return int(max(FEWEST_SECONDS, min(SECONDS_FOR_NEGATIVE_TESTS, NEGATIVE_TESTS_END - passed)))


def show(room, *what):
    """Keeps the figures, and prints them briefly, as figures.py reads them, and as one table. Where that fails, it says so, and the gate goes on."""
    try:
        found = figures_of(*what)
        (room / "figures.json").write_text(json.dumps(found, indent=1))
        print("", *figures.brief(found), "", *figures.whole_table(found), sep="\n")
    except Exception as error:
        print(f"no figures: {error!r}")


def failed(runs):
    """Returns the names of those that failed."""
    return [name for name, run in runs.items() if run.has_failed()]


def tell_wrong(runs, most):
    """Prints of each that failed what went wrong, so many lines of it."""
    for name in failed(runs):
        print(f"\nFAILED {name}:", *runs[name].wrong(most), sep="\n", flush=True)


def tell_end(runs):
    """Prints whether each passed, once more what went wrong, which failed, and how many cases did."""
    for name, run in runs.items():
        print(f"{name}: {'FAILED' if run.has_failed() else 'ok'}")
    if failed(runs):
        tell_wrong(runs, FEW_WRONG)
        print(f"\nFAILED: {', '.join(failed(runs))}")
    counts = [run.counts() for run in runs.values()]
    print(f"{sum(it[0] for it in counts)} passed, {sum(it[1] for it in counts)} failed", flush=True)


def main():
    sys.stdout.reconfigure(encoding="utf-8", errors="replace")
    room = pathlib.Path(tempfile.mkdtemp(prefix="kcp-gate-"))
    with open(room / "output.txt", "w", encoding="utf-8") as log:
        first = parts_of(parts.FIRST, log)
        looking, before = sampler.Sampler(), used_by_children()
        looking.start()
        proved = Run([sys.executable, "-B", ".ci/rt.py", "ci", "--edits-later"], log)
        used = used_by_children() - before
        looking.stage = "negative tests"
        passed = time.monotonic() - BEGAN
        within, at_most = str(seconds_for_negative_tests(passed)), str(max(MUST_FAIL_END - passed, 0))
        with ThreadPoolExecutor(max_workers=1) as beside:
            words = [*LAST_OF_ALL, sys.executable, "-B", "conformance/wrong_code.py", "--within", within, "--at-most", at_most]
            trying = beside.submit(Run, words, log, "negative tests: ")
            asked = parts_of(parts.PROGRAM, log)
            tried = trying.result()
        looking.is_ended.set()
    runs = {**first, "rt ci": proved, "negative tests": tried, **asked}
    tell_wrong(runs, MOST_WRONG)
    show(room, proved, tried, asked, looking, used)
    print(f"kept: {room}/output.txt, {room}/figures.json\n")
    print("\n".join(line for _, line in first["negative-tests-apply"].lines))
    tell_end(runs)
    sys.exit(1 if failed(runs) else 0)


if __name__ == "__main__":
    main()
