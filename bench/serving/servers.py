"""Servers that bench/serve and bench/hostile start, on 127.0.0.1 alone, and what they take."""

import os
import resource
import select
import subprocess
import time

HERE = os.path.dirname(os.path.abspath(__file__))
ROOT = os.path.dirname(os.path.dirname(HERE))
OUT = os.path.join(ROOT, "bench", "out")
STOMPD = os.environ.get("STOMPD", os.path.join(ROOT, "crates", "stompd", "out", "stompd"))

# The service: what it sets for the C library.
UNIT = os.path.join(ROOT, "packaging", "stompd.service")

# How long a server may take until it listens, and until it has ended, in seconds.
START_SECONDS = 30
STOP_SECONDS = 10

# The sources of the C programs, which lie in c/: what the floor and the shape share, the load generator's protocols, and each program's own.
COMMON = ["talk.c", "transactions.c", "frame.c", "message.c", "names.c", "octets.c", "listening.c", "room.c"]
WIRES = ["wire.c", "wire_stomp.c", "wire_nats.c", "wire_mqtt.c", "wire_redis.c", "frame.c"]
PROGRAMS = {
    "floor": ["floor.c", "floor_topics.c", "plain.c", *COMMON],
    "wrong": ["floor.c", "floor_topics.c", "wrong.c", *COMMON],
    "shape": ["shape.c", "shape_topics.c", "shape_connection.c", "bell.c", *COMMON],
    "load": [*"load.c measured.c agree.c streams.c publishers.c client.c plan.c clock.c octets.c room.c".split(), *WIRES],
}
FLAGS = "-std=gnu11 -O2 -Wall -Wextra -Werror -Wshadow -Wconversion -pthread".split()


class Stop(Exception):
    """What ends a command, as it is told."""


def build():
    """Compiles the C programs into bench/out."""
    os.makedirs(OUT, exist_ok=True)
    for name, sources in PROGRAMS.items():
        words = ["cc", *FLAGS, "-o", os.path.join(OUT, name), *sources]
        if subprocess.run(words, cwd=os.path.join(HERE, "c"), check=False).returncode != 0:
            raise Stop(f"bench/serving/c: {name} can't be compiled")


def find_stompd(path):
    """The program, if it is there."""
    if not os.access(path, os.X_OK):
        raise Stop(
            f"There is no program {path}: build it by\n    (cd crates/stompd && rt run -- relay A < /dev/null)\n"
            "or name another by --stompd."
        )
    return os.path.abspath(path)


def environment_of_unit(bounded=False):
    """What the unit sets for the C library; or what it has, as a comment, for who bounds memory."""
    begin = "#Environment=" if bounded else "Environment="
    with open(UNIT, encoding="ascii") as lines:
        found = [it.strip().removeprefix(begin) for it in lines if it.startswith(f"{begin}GLIBC_")]
    if not found:
        raise Stop(f"{UNIT} sets nothing for the C library")
    return dict(it.split("=", 1) for it in found)


class Process:
    """What a process takes, by its number, and the protocol that it speaks."""

    protocol = "stomp"

    def __init__(self, number):
        self.number = number

    def time(self):
        """Processor time of all its threads so far, in seconds."""
        return time.clock_gettime((~self.number << 3) | 2)

    def memory(self):
        """What of its memory is in use, in KiB."""
        with open(f"/proc/{self.number}/smaps_rollup", encoding="ascii") as lines:
            return next(int(it.split()[1]) for it in lines if it.startswith("Rss:"))

    def most_memory(self):
        """The most that it had in use so far, in KiB."""
        with open(f"/proc/{self.number}/status", encoding="ascii") as lines:
            return next(int(it.split()[1]) for it in lines if it.startswith("VmHWM:"))

    def forget_most_memory(self):
        """Begins to look for the most memory anew."""
        with open(f"/proc/{self.number}/clear_refs", "w", encoding="ascii") as it:
            it.write("5")

    def threads(self):
        return len(os.listdir(f"/proc/{self.number}/task"))

    def descriptors(self):
        return len(os.listdir(f"/proc/{self.number}/fd"))

    def port(self):
        """The port of 127.0.0.1 at which it listens; None where there is none."""
        links = (os.path.join(f"/proc/{self.number}/fd", it) for it in os.listdir(f"/proc/{self.number}/fd"))
        sockets = {it[8:-1] for it in map(link_of, links) if it.startswith("socket:[")}
        with open(f"/proc/{self.number}/net/tcp", encoding="ascii") as lines:
            for row in (it.split() for it in lines):
                if row[3] == "0A" and row[9] in sockets and row[1].startswith("0100007F:"):
                    return int(row[1][9:], 16)
        return None

    def keep_alive(self):
        """Of each connection that somebody has made to that port: in how many seconds of silence the system asks whether its peer is there,
        None where it never does."""
        here = f"0100007F:{self.port():04X}"
        with open(f"/proc/{self.number}/net/tcp", encoding="ascii") as lines:
            timers = [row[5] for row in map(str.split, lines) if row[1] == here and row[3] == "01"]
        return [int(it[3:], 16) / os.sysconf("SC_CLK_TCK") if it.startswith("02:") else None for it in timers]


def link_of(path):
    try:
        return os.readlink(path)
    except FileNotFoundError:
        return ""


class Server(Process):
    """A server that is running: these words, and the topics' names behind them. It may have few descriptors, more in its
    environment, and keep descriptors of ours."""

    def __init__(self, words, topics, most_descriptors=None, environment=None, kept=()):
        self.log = open(os.path.join(OUT, "server.log"), "ab")
        self.child = subprocess.Popen(
            [*words, *topics],
            stdin=subprocess.DEVNULL,
            stdout=subprocess.PIPE,
            stderr=self.log,
            env={**os.environ, **(environment or {})},
            pass_fds=kept,
            preexec_fn=lambda: limit_descriptors(most_descriptors),
        )
        super().__init__(self.child.pid)
        try:
            self.address = ("127.0.0.1", self.wait_for_port(words[0]))
        except BaseException:
            self.stop()
            raise

    def wait_for_port(self, name):
        """Waits for the line `listening ..`, and finds out where."""
        ready, _, _ = select.select([self.child.stdout], [], [], START_SECONDS)
        line = self.child.stdout.readline() if ready else b""
        port = self.port() if line.startswith(b"listening") else None
        if port is None:
            raise Stop(f"{name} doesn't listen: {line!r}; see bench/out/server.log")
        return port

    def is_running(self):
        return self.child.poll() is None

    def log_size(self):
        """How many octets the log has, also of servers before this one."""
        return os.fstat(self.log.fileno()).st_size

    def log_since(self, size):
        """What the log has behind so many octets."""
        with open(self.log.name, "rb") as log:
            log.seek(size)
            return log.read()

    def stop(self):
        self.child.terminate()
        try:
            self.child.wait(STOP_SECONDS)
        except subprocess.TimeoutExpired:
            self.child.kill()
            self.child.wait()
        self.child.stdout.close()
        self.log.close()

    def __enter__(self):
        return self

    def __exit__(self, *_):
        self.stop()


def limit_descriptors(most):
    if most is not None:
        resource.setrlimit(resource.RLIMIT_NOFILE, (most, most))
