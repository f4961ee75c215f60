#!/usr/bin/env python3
"""Does what README.md shows with a built program, and the request lines of docs/API.md, and compares what is shown as their output.

A block between two lines of ``` is a script. In it a line that begins with `{`, but for those of a here-document, is what the command before it has to print, and
`..` in it stands for any text. In the section on lines of docs/API.md, what follows a request line is its reply. The commands that clone,
prove and build are left out, and a port that is free takes the place of the one that is shown.
Usage: readme.py [--program PATH]
"""
import argparse
import os
import pathlib
import re
import signal
import subprocess
import sys

sys.dont_write_bytecode = True
ROOT = pathlib.Path(__file__).resolve().parent.parent
sys.path.append(str(ROOT / "conformance" / "controllers"))
from programs import lasting_port

BUILT, PORT = "crates/kcp/out/kcp", "8080"
SECONDS = 300
LEFT_OUT = ("git clone ", "python3 build.py")
METHODS = ("GET ", "POST ", "PUT ", "PATCH ", "DELETE ")


def blocks(text, heading):
    """Returns the blocks of a section."""
    section = text.partition(f"\n## {heading}\n")[2].partition("\n## ")[0]
    return [found[1].splitlines() for found in re.finditer(r"(?ms)^```\n(.*?)^```$", section)]


def steps_of(block):
    """Returns the commands of a block with what each is shown to print: pairs of lines to be run and lines to be printed."""
    steps, end = [([], [])], None
    for line in block:
        if end is None and line.startswith("{"):
            steps[-1][1].append(line)
            continue
        if end is None and steps[-1][1]:
            steps.append(([], []))
        steps[-1][0].append(line)
        here = re.search(r"<< '(\w+)'$", line)
        end = here[1] if here else None if line == end else end
    return steps


def pattern(shown):
    """Returns the pattern that a shown line stands for."""
    return ".*".join(re.escape(part) for part in shown.split(".."))


def run_commands(program, text):
    """Runs the commands of the section on running, and returns what was not as it is shown."""
    shown = [[line for line in block if not line.startswith(LEFT_OUT)] for block in blocks(text, "Run it")]
    steps = [step for block in shown for step in steps_of(block)]
    script = "\n".join("\n".join([*lines, f"echo; echo @{number}"]) for number, (lines, _) in enumerate(steps))
    script = script.replace(BUILT, program).replace(PORT, str(lasting_port()))
    started = subprocess.Popen(["bash", "-c", script], cwd=ROOT, stdin=subprocess.DEVNULL, stdout=subprocess.PIPE, stderr=subprocess.DEVNULL, text=True, start_new_session=True)
    try:
        printed, _ = read_until(started, f"@{len(steps) - 1}")
    finally:
        os.killpg(started.pid, signal.SIGKILL)
    wrong, rest = [], printed
    for number, (_, wanted) in enumerate(steps):
        own, mark, rest = rest.partition(f"\n@{number}\n")
        wrong += [line for line in wanted if not mark or not re.search(pattern(line), own)]
    return wrong, sum(len(wanted) for _, wanted in steps)


def read_until(started, last):
    """Returns what a process printed until a line, within a time, and whether that line came."""
    signal.signal(signal.SIGALRM, lambda *_: os.killpg(started.pid, signal.SIGKILL))
    signal.alarm(SECONDS)
    printed = []
    for line in started.stdout:
        printed.append(line)
        if line.rstrip("\n") == last:
            break
    signal.alarm(0)
    return "".join(printed), bool(printed) and printed[-1].rstrip("\n") == last


def run_lines(program, text):
    """Replays the request lines of the section on lines, and returns what was not as it is shown."""
    lines = [line for block in blocks(text, "Lines") if block[0].startswith(METHODS) for line in block]
    asked = [line for line in lines if line.startswith(METHODS)]
    ran = subprocess.run([program, "replay"], input="\n".join(asked) + "\n", capture_output=True, text=True, cwd=ROOT, timeout=SECONDS)
    wanted, printed = [line for line in lines if line not in asked], ran.stdout.splitlines()
    wrong = [want for want, line in zip(wanted, printed) if not re.fullmatch(pattern(want), line)]
    return wrong + wanted[len(printed):], len(wanted)


def main():
    parser = argparse.ArgumentParser(description=__doc__.splitlines()[0])
    parser.add_argument("--program", default=BUILT)
    program = str((ROOT / parser.parse_args().program).resolve())
    texts = {page: (ROOT / page).read_text(encoding="utf-8") for page in ("README.md", "docs/API.md")}
    wrong, count = [], 0
    for found, shown in (run_commands(program, texts["README.md"]), run_lines(program, texts["docs/API.md"])):
        wrong, count = wrong + found, count + shown
    for line in wrong:
        print(f"FAILED it is shown: {line}")
    print(f"{count - len(wrong)} passed, {len(wrong)} failed")
    sys.exit(1 if wrong or not count else 0)


if __name__ == "__main__":
    main()
