"""What `bench/refuse serve` does: clients work at a running `stompd serve`, one of whose growths is refused, for each in
turn."""

import collections
import os
import select
import subprocess
import time

from client import Client, Ended, error_of, exchange, send_frame
from servers import OUT, START_SECONDS, Process, Server

# The topics that are there from the start; in each round one more is made, as long as there is room for it.
TOPICS = ["A", "B"]
MOST_NEW = 1000

# How many clients work, and how many of their rounds one server has.
WORKERS = 4
ROUNDS = 100

# How many connections a server has places for.
PLACES = 256

# How long an answer may take, and until nothing is left of who is gone, in seconds.
PATIENCE = 10

# A round's growths aren't always as many: so many rounds in which the asked one wasn't met are the end.
LAST_ROUNDS = 5

# By what a connection may end that finds no memory: an ERROR of these numbers, or without one.
WANTS = (42, 72, None)

# The last of this many growths that may be refused: all.
EVERY = 2**64 - 1


class Fault(Exception):
    """What the server may not do."""


class Worker:
    """A client that subscribes, sends a transaction, and ends, and knows what it was told."""

    def __init__(self, address, name, topic):
        self.address, self.name, self.topic = address, name, topic
        self.client, self.committed, self.ended, self.came = None, [], None, b""

    def do(self, step):
        """Has a step; a connection that the server ended has no further ones."""
        if self.ended is not None:
            return
        try:
            step()
        except (Ended, OSError) as fault:
            self.note_end(fault)

    def note_end(self, fault):
        if isinstance(fault, Ended) and "timed out" in str(fault):
            raise Fault(f"{self.name} waited in vain: {fault}") from fault
        number = error_of(self.client.came) if self.client else None
        if number not in WANTS:
            raise Fault(f"{self.name} was told {number}: {self.client.came[-300:]!r}") from fault
        self.ended = f"ended by {number}" if number else "closed"

    def ask(self, frame, receipt):
        """Sends a frame, and waits for its receipt; MESSAGEs may come before it."""
        self.client.send(frame)
        self.came += self.client.wait_for(b"RECEIPT\nreceipt-id:" + receipt + b"\n\n\0\n", PATIENCE)

    def begin(self):
        self.client = Client(self.address, PATIENCE)
        self.client.send(b"CONNECT\naccept-version:1.2\nhost:h\nclient-id:" + self.name.encode() + b"\n\n\0")
        self.client.wait_for(b"CONNECTED\nversion:1.2\nheart-beat:0,0\n\n\0\n", PATIENCE)
        for number, topic in enumerate([*TOPICS, self.topic]):
            self.ask(b"SUBSCRIBE\nid:%d\ndestination:%s\nreceipt:s\n\n\0" % (number, topic.encode()), b"s")

    def commit(self):
        """A transaction to all its topics."""
        body = self.name.encode() + b" to all"
        self.client.send(b"BEGIN\ntransaction:t\n\n\0")
        for topic in (*TOPICS, self.topic):
            self.client.send(send_frame(topic.encode(), body, b"transaction:t\nx:" + 40 * b"y" + b"\n"))
        self.ask(b"COMMIT\ntransaction:t\nreceipt:c\n\n\0", b"c")
        self.committed.append(body)

    def go_on(self):
        """A SEND of its own, an aborted transaction, and a subscription that ends."""
        body = self.name.encode() + b" alone"
        self.ask(send_frame(b"A", body, b"receipt:o\n"), b"o")
        self.committed.append(body)
        aborted = b"BEGIN\ntransaction:t\n\n\0" + send_frame(b"B", b"no", b"transaction:t\n")
        self.ask(aborted + b"ABORT\ntransaction:t\nreceipt:a\n\n\0", b"a")
        self.ask(b"UNSUBSCRIBE\nid:1\nreceipt:u\n\n\0", b"u")

    def read_until(self, word):
        """What came of the topic A, up to this body."""
        self.came += self.client.wait_for(word + b"\0\n", PATIENCE)

    def bodies(self):
        """The bodies of the MESSAGEs to its subscription of A, in their order."""
        frames = self.came.split(b"MESSAGE\nsubscription:0\n")[1:]
        return [it.split(b"\n\n", 1)[1].split(b"\0", 1)[0] for it in frames]

    def leave(self):
        self.ask(b"DISCONNECT\nreceipt:bye\n\n\0", b"bye")

    def close(self):
        if self.client:
            self.client.close()


class Sweep:
    """Servers whose growths are refused by a tally, which each shares with this command."""

    def __init__(self, stompd, library, tally):
        self.stompd, self.library, self.tally = stompd, library, tally
        self.came, self.refused, self.rounds, self.filled, self.server = collections.Counter(), 0, 0, 0, None

    def start(self):
        """A new server; none of its growths is refused yet."""
        self.finish()
        self.tally.ask(1, 0)
        words = [self.stompd, "serve", "127.0.0.1:0"]
        self.server = Server(words, TOPICS, environment=self.environment(), kept=(self.tally.descriptor,))
        exchange(self.server.address, b"A")
        self.rest = self.least_rest()

    def environment(self):
        return {"LD_PRELOAD": os.path.abspath(self.library), "REFUSE": str(self.tally.descriptor)}

    def least_rest(self):
        """How many threads and descriptors the server has, at the least, within a tenth of a second."""
        found = []
        for _ in range(10):
            found.append((self.server.threads(), self.server.descriptors()))
            time.sleep(0.01)
        return min(found)

    def finish(self):
        """Ends the server, if there is one: what a refused growth lost for good, a worker or a desk, a bell or a seat, is missed then."""
        if self.server:
            self.await_rest()
            self.take_all_places()
        self.stop()

    def await_rest(self):
        """Once all are gone no thread is left that wasn't there before, and no descriptor, of a socket, a poll or a bell."""
        until = time.monotonic() + PATIENCE
        while any(now > before for now, before in zip(self.least_rest(), self.rest)):
            if time.monotonic() > until:
                now = self.least_rest()
                raise Fault(f"{now[0]} threads and {now[1]} descriptors are left once all are gone, and were {self.rest[0]} and {self.rest[1]}")

    def take_all_places(self):
        """As many connections as there are places for, all at once: each is served."""
        clients = []
        try:
            for _ in range(PLACES):
                clients.append(Client(self.server.address, PATIENCE))
                clients[-1].connect()
        except (Ended, OSError) as fault:
            raise Fault(f"of {PLACES} places {len(clients) - 1} are left: {fault}") from fault
        finally:
            for it in clients:
                it.close()
        self.filled += 1

    def stop(self):
        if self.server:
            self.server.stop()
        self.server = None

    def sweep(self):
        """Refuses each growth that a server asks for before it listens, and then each that clients make it ask for: that one
        alone, and then that one and all after it until the clients have ended."""
        try:
            self.sweep_start()
            for alone in (True, False):
                self.sweep_work(alone)
            self.finish()
        finally:
            self.stop()

    def sweep_start(self):
        number, refused = 1, 1
        while refused:
            refused = self.start_without(number)
            self.refused += refused
            number += 1

    def start_without(self, number):
        """Starts a server with this growth refused: status 4, or it listens and serves."""
        self.tally.ask(number, number)
        words = [self.stompd, "serve", "127.0.0.1:0", *TOPICS]
        with open(os.path.join(OUT, "server.log"), "w+b") as log:
            child = subprocess.Popen(
                words,
                stdin=subprocess.DEVNULL,
                stdout=subprocess.PIPE,
                stderr=log,
                env={**os.environ, **self.environment()},
                pass_fds=(self.tally.descriptor,),
            )
            with child:
                try:
                    return self.judge_start(child, log)
                finally:
                    child.kill()

    def judge_start(self, child, log):
        """What `serve` makes before it accepts, it makes behind its line, too."""
        ready, _, _ = select.select([child.stdout], [], [], START_SECONDS)
        line = child.stdout.readline() if ready else b"?"
        if line.startswith(b"listening") and self.is_serving(child):
            refused = self.tally.told()[1]
            self.came["listens and serves"] += refused
            return refused
        status = child.wait(START_SECONDS)
        log.seek(0)
        said = log.read()
        if status != 4 or not said.endswith(b"no memory\n"):
            raise Fault(f"a server that couldn't begin ended with status {status} and {line!r}: {said!r}")
        self.came["status 4"] += 1
        return self.tally.told()[1]

    @staticmethod
    def is_serving(child):
        """Whether a client is served. The first may be the one that finds no memory."""
        for _ in range(2):
            try:
                exchange(("127.0.0.1", Process(child.pid).port()), b"A")
                return True
            except (Ended, OSError, TypeError):
                pass
        return False

    def sweep_work(self, alone):
        number, missed = 1, 0
        while missed < LAST_ROUNDS:
            if self.rounds % ROUNDS == 0 or not alone and self.rounds % (ROUNDS // 4) == 0:
                self.start()
            self.rounds += 1
            try:
                refused = self.round(number, alone)
            except (Fault, Ended, OSError) as fault:
                how = "" if alone else " and all after it"
                raise Fault(f"in a round with growth {number}{how} refused: {type(fault).__name__}: {fault}") from fault
            missed = 0 if refused else missed + 1
            self.refused += refused
            number += 1

    def round(self, number, alone):
        """The workers' round with this growth of it refused; then who goes on has all that is due, and who comes is served."""
        topic = f"new{self.rounds % MOST_NEW}"
        workers = [Worker(self.server.address, f"w{at}", topic) for at in range(WORKERS)]
        met, before = self.tally.told()
        self.tally.refuse(met + number, met + number if alone else EVERY)
        for step in (Worker.begin, Worker.commit, Worker.go_on):
            for it in workers:
                it.do(lambda: step(it))
        self.tally.refuse(1, 0)
        refused = self.tally.told()[1] - before
        self.judge(workers, refused, alone)
        for it in workers:
            it.do(it.leave)
            it.close()
        if not self.server.is_running():
            raise Fault("the server has ended")
        exchange(self.server.address, b"B")
        return refused

    def judge(self, workers, refused, alone):
        """At most one connection ended for one refusal; the others got all that was committed, in one order."""
        with Client(self.server.address, PATIENCE) as last:
            last.connect(send_frame(b"A", b"the last"))
            for it in workers:
                it.do(lambda: it.read_until(b"the last"))
        ended = [it for it in workers if it.ended is not None]
        if len(ended) > (refused if alone else WORKERS):
            raise Fault(f"{len(ended)} connections ended, of {refused} refused growths: {[it.ended for it in ended]}")
        for it in ended:
            self.came[it.ended] += 1
        self.came["nobody ended"] += not ended
        going = [it for it in workers if it.ended is None]
        committed = {body for it in workers for body in it.committed}
        for it in going:
            if it.bodies() != going[0].bodies():
                raise Fault(f"two orders: {it.bodies()} and {going[0].bodies()}")
            if len(set(it.bodies())) != len(it.bodies()) or not committed <= set(it.bodies()):
                raise Fault(f"{it.name} got {it.bodies()}, and {sorted(committed)} were committed")
