"""What bench/hostile does with clients that come and go beside a stream: rows as in hostility.py."""

import contextlib
import os
import statistics
import subprocess
import sys
import threading
import time

from hostility import TOPICS
from servers import HERE
from steady import load

# How many come at once, over and over; for how long each of so many runs is measured, in seconds; what part of its rate beside those who
# come to another topic a stream has beside those who come to its own, by the medians. Until they come the stream has a second, and then they
# have two until it is measured.
COMERS, SECONDS, RUNS, LEAST_RATE = 2, 3, 5, 0.5
ALONE, COME = 1, 2


def subscribed_and_reset(trial):
    """Two processes connect, subscribe 64 times to one topic and reset, over and over, beside a sender and a subscriber of that topic, or of
    another. So they do without a wait, and once they have subscribed."""
    prefix, topic = trial.topic_alone()
    said = []
    for what, waits in (("at once", "no"), ("once subscribed", "yes")):
        found = [[rate(trial, prefix, SECONDS, Comers(trial, waits, [it])) for it in (TOPICS[0], topic)] for _ in range(trial.part(RUNS))]
        elsewhere, here = (statistics.median(it) for it in zip(*found))
        worst = min(it for _, it in found)
        trial.expect(here > 0, f"{what}: nothing of a stream came")
        trial.expect(here >= LEAST_RATE * elsewhere, f"{what}: a stream had {here:,.0f}/s, and {elsewhere:,.0f} beside others")
        said.append(f"a stream had {here:,.0f}/s ({worst:,.0f} at worst) beside those who reset {what}, {elsewhere:,.0f} beside others")
    return "; ".join(said)


def rate(trial, prefix, seconds, comers):
    """What a sender and a subscriber have a second, 32 on their way, beside these."""
    with comers:
        report = load(trial, prefix, f"measured={1000 * seconds}", f"warm={1000 * (ALONE + COME)}")
    return report["came"] / report["time"] * 1e9 if report["time"] else 0.0


class Comers:
    """They come a second after the block begins, until it ends."""

    def __init__(self, trial, waits, topics):
        self.words = [sys.executable, os.path.join(HERE, "comer.py"), str(trial.address[1]), waits, *(it.decode() for it in topics)]
        self.children, self.begun, self.took, self.came = [], 0.0, 0.0, 0

    def begin(self):
        self.begun = time.monotonic()
        self.children = [subprocess.Popen(self.words, stdout=subprocess.PIPE) for _ in range(COMERS)]

    def __enter__(self):
        self.timer = threading.Timer(ALONE, self.begin)
        self.timer.start()
        return self

    def __exit__(self, *_):
        self.timer.join()
        self.took = time.monotonic() - self.begun
        for it in self.children:
            it.terminate()
        for it in self.children:
            with contextlib.suppress(ValueError):
                self.came += int(it.communicate(timeout=30)[0])


ROWS = [subscribed_and_reset]
