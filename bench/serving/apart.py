"""What bench/hostile does with senders and readers that have a process each, so that one which the system stops stops no other: rows as in
hostility.py. Whoever reads gets all, in each sender's order, and isn't ended."""

import collections
import os
import subprocess
import sys

from client import Client, send_frame
from measuring import busy_processes
from servers import HERE

# A load: how many senders and readers, of which size the bodies are, how many SENDs a sender writes at once, how many in all at most, for how
# many seconds, and whether these are a transaction whose RECEIPT it waits for.
Load = collections.namedtuple("Load", "senders readers size write most seconds waits")

# Beside so many processes that never rest.
BUSY = 16

NO_END, WITHOUT_END = 1 << 30, 3600
TWO_WITHOUT_WAITING = Load(2, 1, 100, 200, NO_END, 4, False)
EIGHT_WITHOUT_WAITING = Load(8, 1, 100, 200, NO_END, 4, False)
PIPELINED = Load(1, 3, 1000, 10_000, 10_000, WITHOUT_END, False)
TWO_THAT_WAIT = Load(2, 1, 100, 40, NO_END, 20, True)
FOUR_THAT_WAIT = Load(4, 1, 100, 4, 2000, WITHOUT_END, True)


def start(trial, program, *words):
    """Starts a sender or a reader."""
    words = [sys.executable, os.path.join(HERE, program), str(trial.address[1]), *map(str, words)]
    return subprocess.Popen(words, stdout=subprocess.PIPE, text=True)


def said_by(child, seconds=150):
    """The lines that a child prints until it ends."""
    said, _ = child.communicate(timeout=seconds)
    return said.splitlines()


def comes_whole(trial, load):
    """Whether all that the senders of a load sent comes at its readers; how many SENDs that were."""
    _, topic = trial.topic_alone()
    most, seconds = trial.part(load.most), trial.part(load.seconds)
    name, plan = topic.decode(), (load.size, load.write, most, seconds, *(["wait"] if load.waits else []))
    readers = [start(trial, "reader.py", name, load.size) for _ in range(load.readers)]
    for it in readers:
        trial.expect(it.stdout.readline() == "subscribed\n", "a reader couldn't subscribe")
    senders = [start(trial, "sender.py", name, at, *plan) for at in range(load.senders)]
    sent = [" ".join(said_by(it)) for it in senders]
    with Client(trial.address) as it:
        it.connect()
        it.ask(send_frame(topic, b"the end"), seconds=60)
    for it in readers:
        came, wrong = (*said_by(it), "", "")[:2]
        trial.expect(wrong == "" and came == " ".join(sent), f"of {sent} came {came or 'nothing'}: {wrong}")
    return sum(int(it or 0) for it in sent)


def never_waiting(trial):
    """Two, and eight, that write 200 SENDs at a time for four seconds."""
    two, eight = comes_whole(trial, TWO_WITHOUT_WAITING), comes_whole(trial, EIGHT_WITHOUT_WAITING)
    return f"{two:,} SENDs of two came whole, and {eight:,} of eight"


def pipelined(trial):
    """10,000 at once, to three."""
    return f"{comes_whole(trial, PIPELINED):,} SENDs at once came whole at {PIPELINED.readers}"


def waiting_for_each(trial):
    """Two that wait for the RECEIPT of each COMMIT for 20 seconds, and four until they sent 8,000 SENDs."""
    two, four = comes_whole(trial, TWO_THAT_WAIT), comes_whole(trial, FOUR_THAT_WAIT)
    return f"{two:,} SENDs of two that wait came whole, and {four:,} of four"


def beside_busy_processes(trial):
    """All of these, beside 16 processes that never rest."""
    with busy_processes(trial.part(BUSY)):
        return "; ".join(row(trial) for row in (never_waiting, pipelined, waiting_for_each))


ROWS = [never_waiting, pipelined, waiting_for_each, beside_busy_processes]
