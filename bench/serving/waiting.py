"""What bench/hostile does to see whom a sender waits for, and for how long: rows as in hostility.py."""

import contextlib
import os
import signal
import socket
import statistics
import threading
import time

from client import error_of, send_frame, subscribe
from hostility import MOST_BODY, MOST_OPEN, TOPICS, bursts, close_all
from measuring import busy_processes
from slow import PACES, Pace, Slow
from steady import Steady, load

# A steady sender's seconds before and behind what is done beside it; how long that is, and at least, where only parts are done.
BEFORE, BEHIND = 4, 4
SECONDS, LEAST_SECONDS = 120, 6

# How long a stream may stand still in all, in seconds, and what part of its rate it has to have again. Beside those who come each second it
# may for a twentieth of the time more: 192 connections a second, for each of which the system takes some MB at once, take all processors.
MOST_STILL, RATE_AGAIN, OF_COMING = 1.5, 0.9, 0.05

# Until when a stream has its rate again beside one that reads as follows.
AGAIN_WITHIN = 70
SLOW_BUT_READING = Pace("200 KB a second", 2000, 0.01)

# Of those who share a slow topic: the octets of a SEND there; how many the system keeps of what one of them sends, since all of that is done
# once they have left; within how many seconds the log is to say that they wait, and how many octets the system's buffers take at most then.
SHARED, SHARED_ROOM, MOST_FILLING, BUFFERED = 1000, 65536, 60, 8 << 20

# How many SENDs each sender of a burst has, and what else the load generator has to know of each.
OF_A_BURST = 2000
BURSTS = [
    "publishers=2 size=16",
    "publishers=8 size=16",
    "publishers=64 size=16",
    "publishers=4 size=1000 readers=4",
    "publishers=4 size=1000 sends=20",
    "publishers=4 size=20000",
]


def one_slow_subscriber(trial):
    """One that never reads, one that reads an octet each millisecond, and one that reads 1 KiB each 90 ms, at a topic each, beside a steady
    sender there and another subscriber."""
    return beside_slow(trial, 1)


def many_slow_subscribers(trial):
    """64 of each, at once."""
    return beside_slow(trial, 64)


def slow_subscribers_one_after_another(trial):
    """64 of each; one begins each 0.15 seconds."""
    return beside_slow(trial, 64, every=0.15)


def slow_subscribers_that_come_anew(trial):
    """64 of each; each connects anew once it was ended."""
    return beside_slow(trial, 64, anew=SECONDS)


def slow_subscribers_that_come_each_second(trial):
    """64 of each; each connects anew a second after it came."""
    return beside_slow(trial, 64, OF_COMING, anew=1)


def slow_subscribers_that_subscribe_again(trial):
    """64 of each; each unsubscribes and subscribes again each second."""
    return beside_slow(trial, 64, again=True)


def beside_slow(trial, count, more=0.0, **way):
    """Streams beside slow subscribers of each pace, each pace at a topic of its own, and one at a topic without any. They may stand still for
    such a part of the time more."""
    seconds, count, topics = max(LEAST_SECONDS, trial.part(SECONDS)), trial.part(count), [trial.topic_alone() for _ in (None, *PACES)]
    with contextlib.ExitStack() as block:
        streams = [block.enter_context(Steady(trial, prefix, BEFORE + seconds + BEHIND, 250)) for prefix, _ in topics]
        time.sleep(BEFORE)
        slow = [block.enter_context(Slow(trial, topic, count, pace, **way)) for pace, (_, topic) in zip(PACES, topics[1:])]
        time.sleep(seconds)
        for it in slow:
            it.may_come = False
        alone, *reports = (it.report() for it in streams)
        trial.expect(alone["still"] <= MOST_STILL, f"a stream without slow subscribers stood still for {alone['still']:.2f} s")
        still = alone["still"] + more * seconds
        said = (judged(trial, it, report, still) for it, report in zip(slow, reports))
        return f"a stream without slow subscribers was still for {alone['still']:.2f} s; {'; '.join(said)}"


def judged(trial, slow, report, alone):
    """Whether a stream stood still for too long, and has its rate again; in words what it had. What the machine stops stands still beside
    no slow subscribers, too."""
    what = f"{slow.came} that read {slow.pace.name}"
    if report["trouble"]:
        return f"beside {what} the stream ended"
    before, behind = (statistics.median(it) for it in (report["seconds"][1:BEFORE], report["seconds"][-BEHIND + 1 :]))
    trial.expect(report["still"] - alone <= MOST_STILL, f"beside {what} a stream stood still for {report['still']:.2f} s")
    trial.expect(behind >= RATE_AGAIN * before, f"behind {what} a stream has {behind:,.0f}/s, and had {before:,.0f}")
    trial.expect(slow.refused == 0, f"{slow.refused} of {what} couldn't connect")
    return f"beside {what} {report['still']:.2f} s, {before:,.0f}/s before and {behind:,.0f}/s behind"


def slow_for_a_minute(trial):
    """One that reads 200 KB a second, in messages of 100 octets: another has its rate again within 70 seconds."""
    prefix, topic = trial.topic_alone()
    with Steady(trial, prefix, BEFORE + AGAIN_WITHIN + BEHIND, 100) as stream:
        time.sleep(BEFORE)
        with Slow(trial, topic, 1, SLOW_BUT_READING):
            rates = stream.report()["seconds"]
    before = statistics.median(rates[1:BEFORE])
    # A second is slow where most of it and its two neighbours are: the machine may stop all for a moment.
    slow = [at for at in range(BEFORE, len(rates) - 1) if statistics.median(rates[at - 1 : at + 2]) < RATE_AGAIN * before]
    until = slow[-1] + 1 - BEFORE if slow else 0
    trial.expect(until <= AGAIN_WITHIN, f"a stream hasn't its rate again: {rates[-BEHIND:]} a second, and {before:,.0f} before")
    held = statistics.median(rates[it] for it in slow) if slow else before
    return f"another's {before:,.0f}/s were {held:,.0f}/s in {len(slow)} seconds, the last of them its second {until}"


def fast_enough(trial, count=6000):
    """6,000 SENDs of 10,000 octets that come at once, to one that reads 2 MB a second without a rest, alone at its topic."""
    return comes_whole(trial, trial.part(count), 10_000, 2_000_000)


def fast_enough_for_large_sends(trial, count=120):
    """120 SENDs of 1 MiB that come at once, of which few may wait, to one that reads 7 MB a second."""
    return comes_whole(trial, trial.part(count), MOST_BODY, 7_000_000)


def fast_enough_where_the_server_stands_still(trial, count=3000):
    """3,000 SENDs of 10,000 octets that come at once, to one that reads 2 MB a second, where the server is stopped for two seconds, twice, as by
    its machine's host."""
    stopping = threading.Thread(target=stop_twice, args=(trial.server.number,), daemon=True)
    stopping.start()
    try:
        return comes_whole(trial, trial.part(count), 10_000, 2_000_000)
    finally:
        stopping.join()


def stop_twice(number, seconds=2):
    """Stops this process for so many seconds, three seconds from now, and again as long after that."""
    for _ in range(2):
        time.sleep(3)
        os.kill(number, signal.SIGSTOP)
        time.sleep(seconds)
        os.kill(number, signal.SIGCONT)


def fast_enough_with_pauses(trial, count=4000):
    """4,000 SENDs of 10,000 octets that come at once, to one that reads 2 MB a second, and from the sixth second on stands still for 0.9 s each
    three seconds."""
    return comes_whole(trial, trial.part(count), 10_000, 2_000_000, Pauses(6, 3, 0.9))


def fast_enough_with_early_pauses(trial, count=2000):
    """2,000 SENDs of 10,000 octets that come at once, to one that reads 2 MB a second, and from its first half second on stands still for 0.8 s
    each 1.3 seconds: within its first 8 MiB, too."""
    return comes_whole(trial, trial.part(count), 10_000, 2_000_000, Pauses(0.5, 1.3, 0.8))


# Those that come whole beside busy processes, too.
ALL_FAST_ENOUGH = (fast_enough, fast_enough_for_large_sends, fast_enough_with_pauses, fast_enough_where_the_server_stands_still)


class Pauses:
    """Pauses of so many seconds, from so many seconds on, and again each so many."""

    def __init__(self, first, each, length):
        self.due, self.each, self.length = time.monotonic() + first, each, length

    def rest(self):
        """Rests, where it is time."""
        if time.monotonic() >= self.due:
            self.due += self.each
            time.sleep(self.length)


def comes_whole(trial, count, size, rate, pauses=None):
    """So many SENDs at once, to one that reads so many octets a second, but for these pauses."""
    _, topic = trial.topic_alone()
    (reader, sender), begun = trial.open(2), time.monotonic()
    reader.ask(subscribe(topic))
    sending = threading.Thread(target=sender.send, args=(count * send_frame(topic, b"x" * size),), daemon=True)
    sender.socket.settimeout(None)
    sending.start()
    came, number = read_frames(reader, count, rate, 120, pauses)
    close_all([reader, sender])
    sending.join()
    trial.expect(number is None and came == count, f"{came:,} of {count:,} came, then {number}")
    return f"{came:,} of {count:,} SENDs came in {time.monotonic() - begun:.1f} s"


def read_frames(client, count, rate, seconds, pauses):
    """Reads so many octets a second, but for pauses, until so many frames came; how many did whole, and the number of an ERROR that was the
    last."""
    begun, read, came, tail = time.monotonic(), 0, 0, b""
    while came < count and time.monotonic() < begun + seconds:
        if pauses:
            pauses.rest()
        due = int(rate * (time.monotonic() - begun)) - read
        piece = client.socket.recv(min(due, 1 << 16)) if due >= 1000 else None
        if piece is None:
            time.sleep(0.0005)
            continue
        if not piece:
            break
        read, came, tail = read + len(piece), came + piece.count(b"\0"), (tail + piece)[-1000:]
    number = error_of(tail)
    return came - (number is not None), number


def read_after_the_last(trial, count=1000):
    """1,000 SENDs of 100,000 octets. One subscriber reads each before the next is sent; another only after the last: it has lagged."""
    count, (_, topic) = max(200, trial.part(count)), trial.topic_alone()
    (late, reader, sender), body, begun, came = trial.open(3), b"x" * 99990, time.monotonic(), 0
    for it in (late, reader):
        it.ask(subscribe(topic))
    for at in range(count):
        sender.send(send_frame(topic, b"%s%010d" % (body, at)))
        came += reader.wait_for(b"%010d\0\n" % at, 30).count(b"MESSAGE\n")
    took, text = time.monotonic() - begun, late.read_to_end(60)
    close_all([late, reader, sender])
    lately, number = text.count(b"MESSAGE\n"), error_of(text)
    trial.expect(came == count, f"{came} of {count} came at one that reads each")
    trial.expect(number == 74 and lately >= MOST_OPEN, f"one that read after the last got {lately} and {number}, and not 74")
    return f"{came} came at one that reads each, in {took:.1f} s; {lately} and ERROR {number} at one that read after the last"


def waiting_for_receipts(trial, seconds=20):
    """Two clients that commit transactions of 40 SENDs, and wait for each RECEIPT, beside one that reads all the time."""
    words = ("publishers=2", "sends=40", "receipts", "window=65536", "warm=0", f"measured={1000 * max(2, trial.part(seconds))}")
    report = load(trial, trial.topic_alone()[0], *words)
    return f"{report['all_came']:,} SENDs of two clients came whole"


def sharing_a_slow_topic(trial, seconds=20):
    """64 clients commit transactions to 64 topics without a rest, and wait for the last of these, whose subscriber reads 200 KB a second: so they
    get on at its pace, and a steady sender at the first keeps half of its rate. The slow topic is one that nobody has used: a slow one that ends
    there while it is behind empties the purse, and the next is passed over, so that nobody waits."""
    stream, seconds, topics = ByClock(trial), max(5, trial.part(seconds)), [*TOPICS[:-1], trial.topic_alone()[1]]
    before, said = stream.run(BEFORE)[0] / BEFORE, trial.server.log_size()
    with Slow(trial, topics[-1], 1, SLOW_BUT_READING) as slow, contextlib.ExitStack() as block:
        for it in trial.open(trial.part(64), send_room=SHARED_ROOM):
            block.callback(hang_up, it)
            threading.Thread(target=commit_without_end, args=(it, topics), daemon=True).start()
        filled = wait_until_they_wait(trial, stream, said, topics[-1])
        read = slow.octets
        during, shared = stream.run(seconds)
        read = slow.octets - read
    stream.close()
    during, others = during / seconds, f"the others committed {shared:,} transactions, and the slow one took {read // SHARED:,}"
    trial.expect(filled < MOST_FILLING, f"nobody waited within {filled} s")
    trial.expect(during >= before / 2, f"a steady sender had {during:,.0f}/s, and {before:,.0f} before")
    trial.expect(read / 2 <= shared * SHARED <= 2 * read + BUFFERED, others)
    return f"a steady sender had {during:,.0f}/s beside {trial.part(64)} that wait at another topic, and {before:,.0f} before; {others}"


def wait_until_they_wait(trial, stream, said, topic):
    """Goes on with a stream until the log says, behind so many octets, that senders wait at this topic: the system's buffers for who is slow there
    are full then. Behind how many seconds that was."""
    line = b"senders to the topic %s wait for" % topic
    for second in range(MOST_FILLING):
        if line in trial.server.log_since(said):
            return second
        stream.run(1)
    return MOST_FILLING


def commit_without_end(client, topics):
    """Commits transactions to these topics, with the most octets to the last, until the connection ends."""
    within = b"transaction:t\n"
    sends = b"".join(send_frame(it, b"o" * (SHARED if it == topics[-1] else 1), within) for it in topics)
    client.socket.settimeout(None)
    with contextlib.suppress(OSError):
        while True:
            client.send(b"BEGIN\n" + within + b"\n\0" + sends + b"COMMIT\n" + within + b"\n\0")


def hang_up(client):
    """Closes, also where a thread waits until it may send."""
    with contextlib.suppress(OSError):
        client.socket.shutdown(socket.SHUT_RDWR)
    client.close()


class ByClock:
    """One that sends 2,000 SENDs a second to the first topic, as far as they are taken, and one that reads what comes there."""

    def __init__(self, trial):
        self.sender, self.reader = trial.open(2)
        self.reader.ask(subscribe(TOPICS[0]))
        for it in (self.sender, self.reader):
            it.socket.settimeout(0.001)
        self.to_send, self.heard = b"", b""

    def run(self, seconds):
        """Goes on for so many seconds: how many of these SENDs came, and how many of others."""
        frames, steady, came, turns, begun = send_frame(TOPICS[0], b"steady") * 20, 0, 0, 0, time.monotonic()
        while time.monotonic() < begun + seconds:
            if time.monotonic() >= begun + 0.01 * turns:
                self.to_send, turns = self.to_send + frames, turns + 1
            with contextlib.suppress(TimeoutError):
                self.to_send = self.to_send[self.sender.socket.send(self.to_send) :]
            with contextlib.suppress(TimeoutError):
                self.heard += self.reader.socket.recv(1 << 16)
            steady, came = steady + self.heard.count(b"steady\0"), came + self.heard.count(b"\0")
            self.heard = self.heard[self.heard.rfind(b"\0") + 1 :]
        return steady, came - steady

    def close(self):
        close_all([self.sender, self.reader])


def bursts_of_many(trial):
    """Senders that write all they have at once, or never wait, to those who read all the time."""
    came, each = 0, max(20, trial.part(OF_A_BURST))
    for plan in BURSTS:
        words = (*plan.split(), "burst", f"most={each}", f"window={each}", "warm=0", "measured=150000")
        came += load(trial, trial.topic_alone()[0], *words)["all_came"]
    words = ("publishers=8", "unpaced", "window=1048576", "warm=0", f"measured={trial.part(4000)}")
    without_end = load(trial, trial.topic_alone()[0], *words)["all_came"]
    return f"{came:,} MESSAGEs of bursts came, and {without_end:,} of senders that never wait"


def busy_machine(trial, count=16):
    """All that says who is ended, beside 16 processes that never rest."""
    rows = (bursts, bursts_of_many, waiting_for_receipts, read_after_the_last, *ALL_FAST_ENOUGH)
    with busy_processes(trial.part(count)):
        return "; ".join(row(trial) for row in rows)


ROWS = [
    one_slow_subscriber,
    many_slow_subscribers,
    slow_subscribers_one_after_another,
    slow_subscribers_that_come_anew,
    slow_subscribers_that_come_each_second,
    slow_subscribers_that_subscribe_again,
    slow_for_a_minute,
    *ALL_FAST_ENOUGH,
    fast_enough_with_early_pauses,
    read_after_the_last,
    waiting_for_receipts,
    sharing_a_slow_topic,
    bursts_of_many,
    busy_machine,
]

# Rows that are run again in the same server: behind the second time memory is to be what the first one left.
AGAIN = [sharing_a_slow_topic, slow_subscribers_that_come_anew, slow_subscribers_that_come_each_second]
