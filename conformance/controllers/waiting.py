"""Waiting for what has to come, and what a scenario says where it does not."""
import time

# For how many seconds is waited before a scenario fails: `--limit` says another number.
DEFAULT_SECONDS = 180
# It is looked again after so many seconds, and then less and less often, since each look is work for the program that is waited for.
PAUSE_SECONDS, LONGEST_SECONDS, GROWS = 0.005, 0.2, 1.3


class Wrong(Exception):
    """Something is not there, or is there and should not be."""


class Limit:
    """For how long is waited. It is long, since nothing is measured here, and other work may be done beside."""

    seconds = DEFAULT_SECONDS


def check(holds, text):
    """Ends a scenario where something does not hold."""
    if not holds:
        raise Wrong(text)


def until(holds, text, more=0):
    """Waits until something holds, and returns what it gave; so many seconds more than the limit at most. The text says what was waited for."""
    seconds = Limit.seconds + more
    last, pause = time.monotonic() + seconds, PAUSE_SECONDS
    while True:
        if found := holds():
            return found
        if time.monotonic() > last:
            raise Wrong(f"after {seconds:g} s: {text() if callable(text) else text}")
        time.sleep(pause)
        pause = min(pause * GROWS, LONGEST_SECONDS)
