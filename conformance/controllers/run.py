#!/usr/bin/env python3
"""Checks over HTTP what the controllers make of what is declared, with `kcp all`, and with `kcp control` beside a `kcp serve`.

The script marks pods ready, as a kubelet does, and only once the statuses of the sets are as they are to be after the one before. Each
scenario begins with nothing:

    rolls, scales            a Deployment is made and its template changed: at each revision the sets ask for no more pods than the surge lets them, and
                             no fewer are available than may be; it is scaled to 0 and back, with the same set
    deleted-in-background, -in-foreground, deleted-with-orphans
                             in which order what it owns goes, or that it stays
    owner-unseen, set-unseen, pod-unseen
                             what comes and goes while a proxy hides its kind, up to a new list, is collected, made again, or replaced
    shown-owners-are-not-read
                             a later list causes no live read of objects whose owners are shown
    adopts-and-releases      a ReplicaSet takes in a pod whose labels match, lets it go when they no longer do, and takes it in again
    answers-one-line, answers-lines
                             lines of `kcp all` are answered as requests over HTTP are, and it ends with them
    many-sets, -many-workers, -server-killed, -connections-cut
                             20 ReplicaSets of 20 pods at once: no list ever has more than 20 of one, and in the end each has its own
    restarted-behind-a-proxy, not-understood, lists-refused, no-whole-reply
                             another server is known as another; what is not understood, refused lists, and a port that wants TLS, are told of, once
    streams-given, streams-refused
                             the controllers begin with streams of initial events, and with lists where these are refused
    commands-lost, commands-lost-hurried
                             each kind of command is lost once, on its way or its reply; what was declared is there in the end
    ends-after-turns         controllers end by themselves after as many turns as they are told, and say nothing
    workers-are-woken        at controllers whose clock stands still, where a worker that is not woken never looks again
    refused-for-now, conflicts-are-told, failures-are-told
                             the first commands are answered 503, or 409, or creates 500: each is made again; conflicts and failures are told of, once
    unserved-keys            creates for as many sets as there are workers are answered 503: other sets are made meanwhile
    one-key-left-alone, all-left-alone
                             a server that asks by Retry-After to be left alone, for one set or for all, is asked no sooner
    followers-leave-alone    one that asks so who follows kinds, by a stream, a list, a watch and a look of each, is asked no sooner by these
    denials-are-told         a quota denies creates: told once, with the object and the reason, and once when that is over
    reads-refused            live reads of one set are refused: the one worker makes and scales another set meanwhile
    reads-cut-short          replies to live reads end before they are whole: each is made again
    at-a-cluster             a stand-in for a Kubernetes API server takes each request by which a Deployment is made, rolled out and collected
    drops-are-left           a reply and a watch that drip are given up, with a clock that is 300 times as fast
    silent-watches, replies-lost
                             not in short: watches that fall silent are given up after 60 seconds; a part of all replies is lost for a minute

Nothing has to happen within a certain time but that of `--limit`, which is long, and no check depends on which of two threads is faster. In
short, answers and watches are cut, but no requests: a controller that cannot know whether a create has arrived waits 300 seconds for the pod.
Usage: run.py --program PATH [--short] [--seed N] [--limit S] [WORD]
  --program PATH   the executable of kcp
  --short          fewer pods, lists and kills, and no requests cut: about a minute in place of thirteen
  --limit S        for how many seconds is waited for what has to come, 180 if left out
  WORD             only scenarios whose name has it
"""
import argparse
import pathlib
import sys
import time

sys.dont_write_bytecode = True
import adoptions
import cluster_rollouts
import dripping
import hurried
import losing
import patience
import refusing
import restarting
import rollouts
import sets
import silence
import streaming
import turns
import understanding
import unseen
import waking
from waiting import DEFAULT_SECONDS, Limit


def scenarios(asked):
    """Returns the scenarios by name."""
    program, few = str(pathlib.Path(asked.program).resolve()), asked.short
    replicas, lists, kills, cuts = (40, 200, 3, 20) if few else (100, 1000, 10, 100)
    return {
        "rolls": lambda: rollouts.rolls(program, 100),
        "scales": lambda: rollouts.scales(program, replicas),
        "deleted-in-background": lambda: rollouts.deleted_in_background(program, replicas),
        "deleted-in-foreground": lambda: rollouts.deleted_in_foreground(program, replicas),
        "deleted-with-orphans": lambda: rollouts.deleted_with_orphans(program, replicas),
        "adopts-and-releases": lambda: adoptions.adopts_and_releases(program),
        "answers-one-line": lambda: adoptions.answers_one_line(program),
        "answers-lines": lambda: adoptions.answers_lines(program),
        "many-sets": lambda: sets.undisturbed(program, lists),
        "many-sets-many-workers": lambda: sets.many_workers(program),
        "many-sets-server-killed": lambda: sets.server_killed(program, lists, kills),
        "many-sets-connections-cut": lambda: sets.connections_cut(program, lists, cuts, asked.seed, cuts_requests=not few),
        "restarted-behind-a-proxy": lambda: restarting.restarted(program, [0, 1000] if few else [0, 1, 1000]),
        "not-understood": lambda: understanding.not_understood(program),
        "lists-refused": lambda: understanding.lists_refused(program, ["404 Not Found", "401 Unauthorized", "302 Found"]),
        "no-whole-reply": lambda: understanding.no_whole_reply(program),
        "ends-after-turns": lambda: turns.ended_after(program),
        "workers-are-woken": lambda: waking.woken(program),
        "refused-for-now": lambda: refusing.refused_for_now(program),
        "reads-refused": lambda: refusing.reads_refused(program),
        "reads-cut-short": lambda: refusing.reads_cut_short(program),
        "drops-are-left": lambda: dripping.drops_are_left(program),
        "conflicts-are-told": lambda: refusing.conflicts(program),
        "failures-are-told": lambda: refusing.creates_fail(program),
        "one-key-left-alone": lambda: patience.one_key_left_alone(program),
        "all-left-alone": lambda: patience.all_left_alone(program),
        "unserved-keys": lambda: patience.unserved(program),
        "followers-leave-alone": lambda: patience.followers_left_alone(program),
        "denials-are-told": lambda: patience.denied(program),
        "streams-given": lambda: streaming.streamed(program),
        "streams-refused": lambda: streaming.streams_refused(program, [400, 422]),
        "owner-unseen": lambda: unseen.owner_unseen(program),
        "set-unseen": lambda: unseen.set_unseen(program),
        "pod-unseen": lambda: unseen.pod_unseen(program),
        "shown-owners-are-not-read": lambda: unseen.shown_owners_are_not_read(program, asked.objects or (300 if few else 2000)),
        "at-a-cluster": lambda: cluster_rollouts.at_a_cluster(program),
        "commands-lost": lambda: losing.lost_by(program, [1, 4], is_short=few),
        "commands-lost-hurried": lambda: hurried.lost_by_seeds(program, asked.seed, 4 if few else 200),
    } | ({} if few else long_scenarios(program, asked.seed))


def long_scenarios(program, seed):
    """Returns the scenarios that take a minute or more, and are left out in short."""
    return {
        "silent-watches": lambda: silence.silent_watches(program),
        "replies-lost": lambda: losing.replies_lost(program, seed),
    }


def run(name, scenario):
    """Runs a scenario, says what came of it, and returns whether it went well."""
    began = time.monotonic()
    try:
        told = scenario()
    except Exception as fault:
        print(f"FAILED {name}: {type(fault).__name__}: {fault}, {time.monotonic() - began:.1f} s", flush=True)
        return False
    print(f"{name}: {told}, {time.monotonic() - began:.1f} s", flush=True)
    return True


def main():
    parser = argparse.ArgumentParser(description=__doc__.splitlines()[0])
    parser.add_argument("--program", required=True)
    parser.add_argument("--short", action="store_true")
    parser.add_argument("--seed", type=int, default=1)
    parser.add_argument("--objects", type=int)
    parser.add_argument("--limit", type=float, default=DEFAULT_SECONDS)
    parser.add_argument("word", nargs="?", default="")
    asked = parser.parse_args()
    Limit.seconds = asked.limit
    went_well = [run(name, scenario) for name, scenario in scenarios(asked).items() if asked.word in name]
    passed = sum(went_well)
    print(f"{passed} passed, {len(went_well) - passed} failed")
    sys.exit(0 if went_well and all(went_well) else 1)


if __name__ == "__main__":
    main()
