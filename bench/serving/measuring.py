"""One run of the load generator against a server, and what it is worth."""

import contextlib
import json
import os
import socket
import statistics
import subprocess
import sys
import threading
import time

from servers import OUT, Stop

# What ends a row: each message has to come, once, as it was sent, in its publisher's order.
FAULTS = ("lost", "doubled", "changed", "reordered")

# A run by the clock is no result where it was slower than this part of its rate, or more than this part of it had to wait.
LEAST_OF_RATE, MOST_HELD = 0.95, 0.01

# What the host takes of a second is said from this part on.
LEAST_SAID = 0.05

# The window of a run at half of a server's rate, which is never to be full.
WIDE = 8192

# How long connections are idle, in seconds, before what they take is looked at.
IDLE_BEFORE = 2


def processor_times():
    """The processors' time so far, in ticks: all of it, and what the machine's host took for others (*steal*)."""
    with open("/proc/stat", encoding="ascii") as lines:
        times = [int(it) for it in lines.readline().split()[1:9]]
    return sum(times), times[7]


def share_stolen(begun):
    """What part of the processors' time the host took since then."""
    passed, stolen = (now - then for now, then in zip(processor_times(), begun))
    return stolen / passed if passed else 0.0


class HostWatch(threading.Thread):
    """Looks each second at what the machine's host takes of the processors' time, while the block goes on."""

    def __init__(self):
        super().__init__(daemon=True)
        self.begun, self.share, self.most, self.has_ended = processor_times(), 0.0, 0.0, threading.Event()

    def __enter__(self):
        self.start()
        return self

    def __exit__(self, *_):
        self.has_ended.set()
        self.join()
        self.share = share_stolen(self.begun)

    def run(self):
        before = processor_times()
        while not self.has_ended.wait(1):
            self.most, before = max(self.most, share_stolen(before)), processor_times()

    def said(self):
        """What it took in all, and in the worst second; nothing where that was little."""
        return f"; the host took {self.share:.0%} of the processors' time, {self.most:.0%} of a second's" if self.most >= LEAST_SAID else ""


def load(server, row, prefix, words, before=()):
    """The load generator's report of one run, with these words before its own; one with a trouble where it gave none."""
    plan = [f"port={server.address[1]}", f"process={server.number}", f"protocol={server.protocol}", f"prefix={prefix}"]
    plan += [*row.words.split(), *words]
    try:
        done = subprocess.run([*before, os.path.join(OUT, "load"), *plan], stdout=subprocess.PIPE, timeout=180, check=False)
    except subprocess.TimeoutExpired:
        return {"trouble": "the load generator didn't end"}
    if done.returncode != 0:
        raise Stop(f"bench/serve: the load generator ended with {done.returncode}: {' '.join(plan)}")
    return json.loads(done.stdout)


def loaded(server, row, prefix, words, before=()):
    """The report of one run, and its row."""
    return load(server, row, prefix, words, before), row


def halved(server, row, prefix, words, before=()):
    """The report of a run at half of the rate that the server has in one before, and its row; or the report of that one, if nothing came."""
    report = load(server, row, prefix, words, before)
    if order_fault(report, False) is not None or not report["came"]:
        return report, row
    rate = int(report["came"] / report["time"] * 1e9 / 2)
    row = row._replace(words=f"{row.words} window={WIDE} rate={rate}")
    return load(server, row, prefix, words, before), row


@contextlib.contextmanager
def busy_processes(count):
    """So many processes that never rest, as long as this lasts."""
    with contextlib.ExitStack() as block:
        for _ in range(count):
            it = subprocess.Popen([sys.executable, "-c", "while True: pass"])
            block.callback(it.wait)
            block.callback(it.kill)
        yield


def order_fault(report, is_strict):
    """What is wrong with what came; None where nothing is. Of a strict server, which promises one order, transactions have to be
    whole and all streams in one order."""
    if report["trouble"]:
        return report["trouble"]
    wrong = [f"{report[it]} {it}" for it in FAULTS if report[it]]
    if is_strict and report["split"]:
        wrong.append(f"{report['split']} transactions split")
    if is_strict and report["disagreeing"]:
        wrong.append(f"{report['disagreeing']} of {report['streams']} streams in another order")
    return ", ".join(wrong) or None


def fault_of(report, row, is_strict):
    """Why a run is no result; None where it is one."""
    wrong = order_fault(report, is_strict)
    if wrong is None and not report["came"]:
        return "nothing came in the time"
    if wrong is None and row.kind in ("latency", "half") and is_late(report, row):
        return "the rate wasn't held"
    return wrong


def is_late(report, row):
    """Of a run by the clock: whether the rate wasn't held."""
    rate = next(int(it[5:]) for it in row.words.split() if it.startswith("rate="))
    due = rate * report["time"] / 1e9
    return report["came"] < LEAST_OF_RATE * due or report["held"] > MOST_HELD * due


def figures(report, row):
    """The figures of a run that is a result: a rate or times, and the processor time of a delivery in microseconds."""
    found = {"cost": report["server"] / report["came"] / 1e3, "busy": report["own"] / report["time"]}
    if row.kind == "burst":
        return {"rate": report["all_came"] / report["last"] * 1e9, "last": report["last"] / 1e6, **found}
    if row.kind in ("latency", "half"):
        found |= {"p50": report["p50"] / 1e3, "p99": report["p99"] / 1e3}
    return {"rate": report["came"] / report["time"] * 1e9, **found}


def connect(server):
    """A connection, once the server says that it has connected."""
    it = socket.create_connection(server.address, 10)
    it.sendall(b"CONNECT\naccept-version:1.2\nhost:/\nlogin:guest\npasscode:guest\n\n\0")
    wait_for(it, b"CONNECTED\n")
    return it


def subscribed(server, prefix):
    """A connection that has subscribed, once the server says so."""
    it = connect(server)
    it.sendall(b"SUBSCRIBE\nid:0\ndestination:/topic/" + prefix.encode() + b"0\nreceipt:subscribed\n\n\0")
    wait_for(it, b"receipt-id:subscribed\n")
    return it


def wait_for(connection, word):
    """Reads until this word came, and what came with it."""
    came = b""
    while word not in came:
        piece = connection.recv(4096)
        if not piece:
            raise Stop(f"bench/serve: a connection was closed: {came!r}")
        came += piece


def small_write_figures(server, prefix, count):
    """How many milliseconds a transaction takes until its RECEIPT came, where its frames are written one by one by a client whose system
    keeps small writes back: the median of so many, after one."""
    times, topic = [], b"destination:/topic/" + prefix.encode() + b"1\n"
    with subscribed(server, prefix) as it:
        for at in range(count + 1):
            begun, within = time.monotonic(), b"transaction:t%d\n" % at
            it.sendall(b"BEGIN\n" + within + b"\n\0")
            for body in (b"one", b"two"):
                it.sendall(b"SEND\n" + topic + within + b"\n" + body + b"\0")
            it.sendall(b"COMMIT\n" + within + b"receipt:r%d\n\n\0" % at)
            wait_for(it, b"receipt-id:r%d\n" % at)
            times.append(1e3 * (time.monotonic() - begun))
    return {"small": statistics.median(times[1:])}


def first_figures(server, prefix, seconds):
    """How many microseconds a message takes that comes after so many seconds in which its sender and its subscriber did nothing."""
    with subscribed(server, prefix) as reader, connect(server) as sender:
        time.sleep(seconds)
        begun = time.monotonic()
        sender.sendall(b"SEND\ndestination:/topic/" + prefix.encode() + b"0\n\nfirst\0")
        wait_for(reader, b"first")
        return {"first": 1e6 * (time.monotonic() - begun)}


def idle_figures(server, prefix, count, seconds):
    """Memory of an idle connection in KiB, and processor time of all of them together, in microseconds a second, once they are at rest: a
    connection of ours gives room back within a second."""
    before, connections = server.memory(), []
    try:
        connections += (subscribed(server, prefix) for _ in range(count))
        time.sleep(IDLE_BEFORE)
        begun, taken = time.monotonic(), server.time()
        time.sleep(seconds)
        taken = (server.time() - taken) / (time.monotonic() - begun)
        return {"memory": (server.memory() - before) / count, "idle": taken * 1e6}
    finally:
        for it in connections:
            it.close()
