#!/usr/bin/env python3
"""Runs `kcp simulate` on each case and compares what it writes.

A case is a pair of files in cases/: NAME.simulate has the lines, NAME.expect what is written for them. Beside these, the worked example
of a letter that is cut is run with the cut after each byte of its frame in turn, a stream of initial events with the cut after each of its
bytes, and 2,000 changes in windows of several sizes, with exact
lists and watches from below each window to above the present, whose text is the oracle's. With `--random N` come N schedules of a hundred random
steps each, whose text is the oracle's; `--oracle` runs nothing, and compares the cases with what the oracle says.

What the names of cases begin with, or have:

    links, cuts, expiries, restarts      cut expire send deliver bookmark stream restart publish
    plans, workers and their keys        replica-set deployment rollout owner dependent lost-create key revision-of- update-that-
    names that come again, and rest      made-again-between came-and-went collision loses-the-name names-another
    windows, lines and sizes             window configuration of-no-form no-step-

The program is built from the sources by `rt try`, which proves nothing; `--program PATH` runs one that is built already.
Usage: run.py [--program PATH | --oracle] [--random N] [--seed N] [WORD]      WORD: only cases whose name has it
"""
import argparse
import pathlib
import random
import sys

sys.dont_write_bytecode = True
HERE = pathlib.Path(__file__).resolve().parent
sys.path[:0] = [str(HERE.parent), str(HERE)]
import oracle
import replays

CASES = HERE / "cases"
WORKED = "a-letter-is-cut"
CUT_IN_THE_LETTER = b"deliver configmaps 43\n"
STEPS = 100
NAMES = "abcdef"
WINDOWS = [1, 2, 4, 1024]
CHANGES = 2000
ASKED_AFTER = 1000
MAPS, PODS = "/api/v1/namespaces/default/configmaps", "/api/v1/namespaces/default/pods"
LETTERS = ["v", "w", "é", "語", "😀"]


def cut_after_each_byte():
    """Returns the worked example with the cut after each byte of its frame in turn. Whatever part was delivered, the watch that is opened
    again brings the whole frame, and the same is published; after the last byte the object was there before the cut."""
    given, wanted = (CASES / f"{WORKED}.simulate").read_bytes(), (CASES / f"{WORKED}.expect").read_bytes()
    server = oracle.Server(4)
    for line in given.split(b"\n"):
        if line.startswith(b"request "):
            server.answer(line.removeprefix(b"request "))
    frame = server.frames("configmaps", 2)[0][1].encode()
    made = []
    for count in range(1, len(frame) + 1):
        lines = given.replace(CUT_IN_THE_LETTER, b"deliver configmaps %d\n" % count)
        made.append(replays.Case(f"the-frame-is-cut-after-{count:03}-bytes", lines, wanted if count < len(frame) else taken_whole(wanted)))
    return made


def taken_whole(wanted):
    """Returns what is written where the frame was delivered whole before the cut: there is nothing left to send afterwards."""
    before, after = wanted.split(b"fed configmaps 2\n")
    again = after.replace(b"configmaps 2\n", b"configmaps 3\n").replace(b"sent configmaps 1", b"sent configmaps 0")
    return before + b"fed configmaps 3\n" + again


def stream_cut_after_each_byte():
    """Returns a stream of initial events with the cut after each of its bytes in turn, and one that is opened after it: a stream again, or
    a watch once the first was read whole."""
    begin = ["config window=4 workers=1 initial=stream"] + [f'request POST {MAPS} {{"metadata":{{"name":"{name}"}}}}' for name in "ab"]
    again = ["stream configmaps", "watch configmaps", "send configmaps 9", "deliver configmaps all", "publish configmaps"]
    server = oracle.Server(4)
    for line in begin[1:]:
        server.answer(line.removeprefix("request ").encode())
    follower, made = oracle.Follower("configmaps", server, "stream"), []
    follower.stream()
    for count in range(1, len("".join(follower.link["initial"]).encode()) + 1):
        cut = ["stream configmaps", "send configmaps 3", f"deliver configmaps {count}", "cut configmaps"]
        given = "".join(f"{line}\n" for line in begin + cut + again).encode()
        made.append(replays.Case(f"the-stream-is-cut-after-{count:03}-bytes", given, oracle.simulate(given)))
    return made


def request(chosen):
    """Returns a line that a server reads."""
    kind = chosen.choice(["configmaps", "configmaps", "pods"])
    path, name, letter = f"/api/v1/namespaces/default/{kind}", chosen.choice(NAMES), chosen.choice(LETTERS)
    said = f'"data":{{"k":"{letter}"}}' if kind == "configmaps" else f'"spec":{{"nodeName":"{letter}"}}'
    body = f'{{"metadata":{{"name":"{name}"}},{said}}}'
    asks = [f"POST {path} {body}", f"POST {path} {body}", f"PUT {path}/{name} {body}", f"DELETE {path}/{name}", f"GET {path}/{name}"]
    return f"request {chosen.choice(asks)}"


def move(chosen):
    """Returns a move of what follows a kind."""
    kind = chosen.choice(["configmaps", "configmaps", "pods", "replicasets"])
    send = [f"send {kind} {chosen.randrange(4)}", f"send {kind} bookmark"]
    deliver = [f"deliver {kind} {chosen.randrange(400)}", f"deliver {kind} all"]
    plain = [f"{verb} {kind}" for verb in ("list", "stream", "watch", "publish", "publish")]
    return chosen.choice(send + send + deliver + deliver + plain + ([f"cut {kind}"] if chosen.random() < 0.5 else plain))


def random_schedule(chosen):
    """Returns a hundred random steps with a small window."""
    initial = chosen.choice(("", " initial=list", " initial=stream", " initial=stream"))
    lines = [f"config window={chosen.randrange(1, 8)} workers=1{initial}"]
    for _ in range(STEPS):
        rare = chosen.random()
        if rare < 0.01:
            lines.append("restart")
        elif rare < 0.03:
            lines.append(f"compact {chosen.randrange(30)}")
        else:
            lines.append(request(chosen) if rare < 0.4 else move(chosen))
    return "".join(f"{line}\n" for line in lines).encode()


def random_cases(count, seed):
    """Returns so many random schedules."""
    chosen = random.Random(seed)
    schedules = [random_schedule(chosen) for _ in range(count)]
    return [replays.Case(f"random-{number:05}", given, oracle.simulate(given)) for number, given in enumerate(schedules)]


def change(chosen, server):
    """Returns a request that changes one of three ConfigMaps; one in three removes it, if it is there."""
    name = chosen.choice("abc")
    body = f'{{"metadata":{{"name":"{name}"}},"data":{{"k":"{server.present()}"}}}}'
    if ("configmaps", "default", name) not in server.objects:
        return f"POST {MAPS} {body}"
    return f"DELETE {MAPS}/{name}" if chosen.randrange(3) == 0 else f"PUT {MAPS}/{name} {body}"


def looks(chosen, server):
    """Returns exact lists and watches about the floor, about the present and between."""
    floor, present = server.floor("configmaps"), server.present()
    near = [at + it for at in (floor, present) for it in range(-2, 3)]
    asked = near + [1 + present * it // 5 for it in range(5)] + [chosen.randrange(1, present + 1) for _ in range(5)]
    queries = [f"resourceVersion={it}&resourceVersionMatch=Exact" for it in asked if it > 0] + [f"watch=true&resourceVersion={it}" for it in asked if it > 0]
    return [f"GET /api/v1/configmaps?{query}" for query in queries]


def window_case(window, chosen):
    """Returns many changes of three ConfigMaps and looks at them; one in four comes some revisions later, after changes of a Pod."""
    server, lines = oracle.Server(window), [f"config window={window} workers=1"]
    for number in range(1, CHANGES + 1):
        pod = [f'POST {PODS} {{"metadata":{{"name":"p"}}}}', f"DELETE {PODS}/p"] * 2 if chosen.randrange(4) == 0 else []
        for asked in pod + [change(chosen, server)]:
            server.answer(asked.encode())
            lines.append(f"request {asked}")
        if number % ASKED_AFTER == 0:
            lines += [f"request {asked}" for asked in looks(chosen, server)]
    given = "".join(f"{line}\n" for line in lines).encode()
    return replays.Case(f"a-window-of-{window:04}-serves-as-a-plain-list", given, oracle.simulate(given))


def by_oracle(asked):
    """Compares the cases with what the oracle says."""
    failed = [case.name for case in asked if oracle.simulate(case.given) != case.wanted]
    print("".join(f"FAILED {name}\n" for name in failed), end="")
    print(f"{len(asked) - len(failed)} passed, {len(failed)} failed")
    sys.exit(1 if failed or not asked else 0)


def main():
    parser = argparse.ArgumentParser(description=__doc__.splitlines()[0])
    parser.add_argument("--program")
    parser.add_argument("--oracle", action="store_true")
    parser.add_argument("--random", type=int, default=0)
    parser.add_argument("--seed", type=int, default=1)
    parser.add_argument("word", nargs="?", default="")
    asked = parser.parse_args()
    chosen = random.Random(asked.seed)
    windows = [window_case(window, chosen) for window in WINDOWS]
    made = cut_after_each_byte() + stream_cut_after_each_byte() + windows + random_cases(asked.random, asked.seed)
    wanted = replays.cases(CASES, "simulate", asked.word) + [case for case in made if asked.word in case.name]
    if asked.oracle:
        by_oracle(wanted)
    replays.judge(asked.program, "simulate", wanted)


if __name__ == "__main__":
    main()
