"""Subscribers that are slow, for bench/hostile: they read nothing, or some octets at times."""

import collections
import select
import socket
import threading
import time

from client import Client, Ended, subscribe

# How many octets one reads, each so many seconds.
Pace = collections.namedtuple("Pace", "name octets seconds")

PACES = [Pace("never", 0, 0.05), Pace("an octet each ms", 1, 0.001), Pace("1 KiB each 90 ms", 1024, 0.09)]

# What one does each second, beside reading.
UNSUBSCRIBE = b"UNSUBSCRIBE\nid:0\n\n\0"
EMPTY_LINE = b"\n"


class Slow(threading.Thread):
    """So many subscribers of a topic, which read at a pace until the block is left: all from now on, or one begins each `every` seconds.
    With `anew` each connects anew once it was ended, or so many seconds after it came; with `again` it unsubscribes and subscribes again
    each second."""

    def __init__(self, trial, topic, count, pace, every=0.0, anew=None, again=False):
        super().__init__(daemon=True)
        self.address, self.topic, self.count, self.pace = trial.address, topic, count, pace
        self.every, self.anew, self.again = every, anew, again
        self.clients, self.came, self.refused, self.octets, self.may_come, self.is_over = [], 0, 0, 0, True, False

    def __enter__(self):
        self.begun = time.monotonic()
        self.start()
        return self

    def __exit__(self, *_):
        self.is_over = True
        self.join()
        for it in self.clients:
            it.close()

    def run(self):
        while not self.is_over:
            self.let_come()
            self.clients = [it for it in self.clients if self.attend(it, time.monotonic())]
            time.sleep(min(self.pace.seconds, 0.05))

    def let_come(self):
        """Connects those that are due: each once, or as many as are to be there, where they come anew."""
        due = self.count if self.every == 0 else min(self.count, int((time.monotonic() - self.begun) / self.every) + 1)
        while self.may_come and (self.came if self.anew is None else len(self.clients)) < due:
            self.came += 1
            try:
                self.clients.append(Subscriber(self.address, self.topic))
            except (Ended, OSError):
                self.refused += 1
                return

    def attend(self, it, now):
        """Reads what one reads by now, and says what it says; False where it has ended, and closes it then."""
        try:
            if self.pace.octets:
                self.octets += it.read(self.pace, now)
            if self.again or self.anew is not None:
                it.say(UNSUBSCRIBE + subscribe(self.topic) if self.again else EMPTY_LINE, now)
            if not it.is_ended() and (self.anew is None or not self.may_come or now < it.came_at + self.anew):
                return True
        except OSError:
            pass
        it.close()
        return False


class Subscriber(Client):
    """One that is slow. It has little room for what came."""

    def __init__(self, address, topic):
        super().__init__(address, receive_room=4096)
        self.connect(subscribe(topic))
        self.socket.setblocking(False)
        self.came_at = self.read_at = self.said_at = time.monotonic()
        self.poll = select.poll()
        self.poll.register(self.socket, select.POLLRDHUP)

    def read(self, pace, now):
        """As many octets as it reads until now, of what is there; how many these are."""
        times = int((now - self.read_at) / pace.seconds)
        if times == 0:
            return 0
        self.read_at += times * pace.seconds
        try:
            piece = self.socket.recv(times * pace.octets)
        except BlockingIOError:
            return 0
        if not piece:
            raise ConnectionError
        return len(piece)

    def say(self, frames, now):
        """Sends this each second, as far as it is taken."""
        if now < self.said_at + 1:
            return
        self.said_at = now
        try:
            self.socket.send(frames, socket.MSG_DONTWAIT)
        except BlockingIOError:
            pass

    def is_ended(self):
        """Whether the server ended the connection."""
        return bool(self.poll.poll(0))
