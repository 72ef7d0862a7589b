"""The load generator beside a row of bench/hostile: a steady sender, say, and a subscriber of its topic that reads all the time."""

import json
import os
import subprocess

from measuring import order_fault
from servers import OUT

# SENDs a second, by the clock, and how many of them may be on their way: more than a queue holds.
RATE, WINDOW = 20000, 1024


def load_words(trial, prefix, *words):
    """How the load generator is started against a row's server."""
    return [os.path.join(OUT, "load"), f"port={trial.address[1]}", f"process={trial.server.number}", f"prefix={prefix}", *words]


def load(trial, prefix, *words):
    """What the load generator says of a run, in which all has to come."""
    done = subprocess.run(load_words(trial, prefix, *words), stdout=subprocess.PIPE, timeout=180, check=True)
    return expect_all(trial, prefix, json.loads(done.stdout))


def expect_all(trial, prefix, report):
    """The report again, of which all has to have come, in one order."""
    fault = order_fault(report, True)
    trial.expect(fault is None, f"the stream of {prefix}: {fault}")
    return report


class Steady:
    """Sends from now on for so many seconds."""

    def __init__(self, trial, prefix, seconds, size):
        self.trial, self.prefix, self.seconds = trial, prefix, seconds
        words = (f"rate={RATE}", f"size={size}", f"window={WINDOW}", "warm=0", f"measured={1000 * seconds}")
        self.child = subprocess.Popen(load_words(trial, prefix, *words), stdout=subprocess.PIPE)

    def report(self):
        """What the load generator says, once it is done. `still` is how many seconds nothing came, `seconds` how many came in each."""
        came, _ = self.child.communicate(timeout=self.seconds + 60)
        report = expect_all(self.trial, self.prefix, json.loads(came))
        report["still"] /= 1e9
        report["seconds"] = (report["seconds"] + self.seconds * [0])[: self.seconds]
        return report

    def __enter__(self):
        return self

    def __exit__(self, *_):
        self.child.kill()
        self.child.communicate()
