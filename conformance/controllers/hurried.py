"""Commands that are lost on their way, by many seeds, each time others, at controllers whose clock is hurried: five minutes are ten seconds."""
import concurrent.futures
import os
import pathlib
import random
import sys
import tempfile
import time

from clients import Client
from losing import COMMANDS, LOSSES, LosingProxy, await_all, declare, make_smaller, missing
from programs import Ending, control, server
from sets import EXPECTED_SECONDS
from waiting import check

sys.path[1:1] = [str(pathlib.Path(__file__).resolve().parent.parent)]
from preloading import built

HURRIED = 30
MOST_REPLICAS = 6
SOURCE = pathlib.Path(__file__).resolve().parent / "hurrying.c"


def lost_commands(rolls, replicas, fewer):
    """Returns for each set which of its commands is lost, and how: a create or a delete after some others of the set."""
    before = {"create": replicas - 1, "delete": replicas - fewer - 1}
    return {f"{command}-{loss}": (command, loss, rolls.randint(0, before.get(command, 0))) for command in COMMANDS for loss in LOSSES}


def lost_once(program, library, seed):
    """Loses one command of each set, as a seed has it, and returns after how many seconds all was as declared, the last of them lost."""
    rolls = random.Random(seed)
    replicas = rolls.randint(2, MOST_REPLICAS)
    fewer = rolls.randint(1, replicas - 1)
    sets = lost_commands(rolls, replicas, fewer)
    serving = server(program)
    proxy = LosingProxy(serving.port, seed, sets)
    hurried = {"LD_PRELOAD": str(library), "HURRIED": str(HURRIED)}
    with Ending(serving, control(program, proxy.port, 1 if seed % 2 else 4, hurried)):
        client = Client(serving.port)
        declare(client, sets, replicas)
        make_smaller(client, sets, replicas, fewer)
        began = time.monotonic()
        await_all(client, sets, EXPECTED_SECONDS / HURRIED)
        check(not proxy.left, f"seed {seed}: never commanded: {', '.join(proxy.left)}")
        check(not missing(client, sets), f"seed {seed}: no longer as declared")
        proxy.close()
        return time.monotonic() - began


def lost_by_seeds(program, first, count):
    """Loses commands by so many seeds, some side by side."""
    with tempfile.TemporaryDirectory() as room, concurrent.futures.ThreadPoolExecutor(len(os.sched_getaffinity(0))) as pool:
        library = built(SOURCE, room)
        longest = max(pool.map(lambda seed: lost_once(program, library, seed), range(first, first + count)))
    return f"{count} seeds from {first} on, as declared after {longest:.1f} s at most, of which {EXPECTED_SECONDS / HURRIED:g} s are the age of what is expected"
