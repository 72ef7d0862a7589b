"""What bench/hostile does to a server. Each row is a function of a Trial; it returns what it measured, in words, and says by
`trial.expect` what has to be so."""

import itertools
import socket
import statistics
import threading
import time

from client import Client, Ended, error_of, exchange, send_frame, subscribe
from steady import load

# The limits of docs/PROTOCOL.md and docs/PROGRAMS.md.
MOST_CONNECTIONS = 256
MOST_OPEN = 64
MOST_LINE = 4096
MOST_HEADERS = 64
MOST_BODY = 1 << 20
MOST_IDS = 65536
MOST_TOPICS = 1024
# And of docs/OPERATING.md: after so many seconds of silence the system asks a client whether it is there.
ASKED_AFTER = 60

TOPICS = [b"/topic/T%d" % at for at in range(64)]
MINE = b"/topic/own0"
# Topics that one row uses alone, each /topic/ with this and 0 behind it, as the load generator names its first. A server begins with some of
# them; the others are made by who uses them. None is used twice: the purse of one where a slow subscriber was may be empty for ten minutes.
ALONE = [f"alone{at}." for at in range(64)]
NAMES = [*(it.decode() for it in (*TOPICS, MINE)), *(f"/topic/{it}0" for it in ALONE)]
NOT_USED = (f"alone{at}." for at in itertools.count())


class Trial:
    """One row's server, what part of each count is done, how many milliseconds are at once, and what wasn't as it has to be."""

    def __init__(self, server, parts, at_once):
        self.server, self.address, self.parts, self.at_once, self.faults = server, server.address, parts, at_once, []

    def part(self, count):
        """A count, or of a slow build a part of it."""
        return max(1, count // self.parts)

    def topic_alone(self):
        """A topic that no row has used: the load generator's prefix, and its name."""
        prefix = next(NOT_USED)
        return prefix, b"/topic/%s0" % prefix.encode()

    def expect(self, is_so, what):
        if not is_so:
            self.faults.append(what)

    def open(self, count, more=b"", **words):
        """So many connections that are connected, with these frames behind their CONNECTs."""
        found = []
        for _ in range(count):
            it = Client(self.address, **words)
            found.append(it)
            it.connect(more)
        return found


def close_all(clients):
    for it in clients:
        it.close()


def plain_use(trial, count=MOST_CONNECTIONS - 1):
    """255 connections that subscribe to one topic each, get what is sent there, and leave, and one more that comes and goes while they
    are there. Each topic is used, and as many threads are there as may be: what these keep from then on is there before the other rows."""
    clients = []
    for at in range(trial.part(count)):
        clients += trial.open(1, subscribe(TOPICS[at % len(TOPICS)]))
    for it in clients:
        it.ask(b"")
    exchange(trial.address, MINE)
    for at, it in enumerate(clients[: len(TOPICS)]):
        it.send(send_frame(TOPICS[at], b"to all"))
    for it in clients:
        it.wait_for(b"to all\0\n", 30)
        it.send(b"DISCONNECT\nreceipt:bye\n\n\0")
    for it in clients:
        it.wait_for(b"receipt-id:bye\n\n\0\n", 30)
    close_all(clients)
    return f"{len(clients)} came, were served and left"


def silent(trial, seconds=10):
    """255 connections that never say CONNECT: some say nothing, some one octet a second, some what TLS says first. The system is to ask each
    whether it is there, where nothing comes for a minute."""
    texts = [b"", b"CONNECT\n" + b"h" * 2 * seconds, b"\x16\x03\x01\x02" + b"\0" * 2 * seconds]
    begun, said = time.monotonic(), trial.server.log_size()
    clients = [Client(trial.address) for _ in range(trial.part(MOST_CONNECTIONS - 1))]
    longest = exchange(trial.address, MINE)
    kept = [it for it in trial.server.keep_alive() if it is not None and it <= ASKED_AFTER]
    trial.expect(len(kept) >= len(clients), f"the system asks only {len(kept)} of {len(clients)} silent ones whether they are there")
    for second in range(seconds - 1):
        for at, it in enumerate(clients):
            it.send(texts[at % 3][second : second + 1])
        time.sleep(max(0.0, begun + second + 1 - time.monotonic()))
    for it in clients:
        trial.expect(it.read_to_end(2 * seconds) == b"", "a silent connection was told something")
    passed = time.monotonic() - begun
    close_all(clients)
    logged = trial.server.log_since(said)
    trial.expect(longest < trial.at_once, f"another client waited {longest:.0f} ms")
    trial.expect(seconds - 1 < passed < 2 * seconds, f"they were closed after {passed:.1f} s")
    trial.expect(b"left: no CONNECT within ten seconds, not STOMP: TLS?\n" in logged, "the log has no word of TLS")
    return f"{len(clients)} were closed after {passed:.1f} s; another client was served within {longest:.0f} ms"


def small_writes(trial, count=200, most=2.0):
    """A client whose system keeps small writes back sends each frame of a transaction by a write of its own, and waits for its receipt."""
    times = []
    with Client(trial.address) as it:
        it.connect()
        for at in range(trial.part(count)):
            begun = time.monotonic()
            it.send(b"BEGIN\ntransaction:x\n\n\0")
            for topic in TOPICS[:2]:
                it.send(send_frame(topic, b"small", b"transaction:x\n"))
            it.send(b"COMMIT\ntransaction:x\nreceipt:r%d\n\n\0" % at)
            it.wait_for(b"receipt-id:r%d\n\n\0\n" % at)
            times.append(1e3 * (time.monotonic() - begun))
    median = statistics.median(times)
    trial.expect(median <= most, f"half of the transactions took more than {median:.1f} ms")
    return f"a transaction took {median:.2f} ms, the slowest {max(times):.1f} ms"


def comes_and_goes(trial, count=10000, most=100):
    """One that connects and goes, over and over: the log has 100 lines of it a second, and says how many more there were."""
    begun, said = time.monotonic(), trial.server.log_size()
    for _ in range(trial.part(count)):
        Client(trial.address).close()
    time.sleep(2.5)
    passed, lines = time.monotonic() - begun, trial.server.log_since(said).splitlines()
    told = sum(it.endswith((b" came", b" left: its peer closed it")) for it in lines)
    left_out = sum(int(it.split()[2]) for it in lines if it.endswith(b" lines of who came or left were left out"))
    due = 2 * (trial.part(count) - sum(int(it.split()[3]) for it in lines if it.endswith(b" are there")))
    trial.expect(told <= most * (passed + 1), f"{told} lines in {passed:.1f} s")
    trial.expect(told + left_out == due, f"{told} lines and {left_out} left out aren't {due}")
    return f"{told} lines of {due}, {left_out} left out"


def one_octet_a_second(trial, seconds=20):
    """255 connections that send one octet a second of a frame."""
    text = b"SEND\ndestination:" + b"h" * seconds
    slow = trial.open(trial.part(MOST_CONNECTIONS - 1))
    taken, longest = trial.server.time(), 0.0
    for second in range(seconds):
        begun = time.monotonic()
        for it in slow:
            it.send(text[second : second + 1])
        longest = max(longest, exchange(trial.address, MINE))
        time.sleep(max(0.0, 1.0 - (time.monotonic() - begun)))
    taken = (trial.server.time() - taken) / seconds
    close_all(slow)
    trial.expect(longest < trial.at_once, f"another client waited {longest:.0f} ms")
    return f"another client was served within {longest:.0f} ms; {1e3 * taken:.1f} ms of processor time a second"


def rate_of_another(trial, runs=5, milliseconds=500):
    """What one connection that sends to itself gets, a second: the median of some runs."""
    return statistics.median(rate_once(trial, milliseconds) for _ in range(runs))


def rate_once(trial, milliseconds):
    """What one connection that sends to itself gets, a second."""
    report = load(trial, "own", "own", f"measured={milliseconds}")
    return report["came"] / report["time"] * 1e9 if report["time"] else 0.0


def never_read(trial, seconds=20):
    """254 connections that subscribe to 64 topics each and never read, while others send to these topics."""
    before = rate_of_another(trial)
    wanted = b"".join(subscribe(topic, at) for at, topic in enumerate(TOPICS[:-1]))
    wanted += subscribe(TOPICS[-1], MOST_OPEN - 1, b"receipt:s\n")
    stuck = trial.open(trial.part(MOST_CONNECTIONS - 2), wanted, receive_room=4096)
    for it in stuck:
        it.wait_for(b"receipt-id:s\n\n\0\n", 30)
    sent, during = flood(trial, seconds)
    with_them = rate_of_another(trial)
    memory = trial.server.memory()
    close_all(stuck)
    loss = 1 - with_them / before if before > 0 else 1
    trial.expect(loss <= 0.2, f"another connection lost {loss:.0%} of its rate")
    return (
        f"{sent:,} SENDs of 1 KiB; another connection's rate {before:,.0f}/s before, {during:,.0f}/s while they were sent, "
        f"{with_them:,.0f}/s behind ({loss:.0%} lost); {memory:,} KiB then, {trial.server.most_memory():,} at most"
    )


def flood(trial, seconds):
    """Sends to all topics, as often as a subscription lags by, or for so long; how many SENDs that were, and another's rate then."""
    body, rates = b"x" * 1024, []
    other = threading.Thread(target=lambda: rates.append(rate_once(trial, 1500)))
    other.start()
    sent, until = 0, time.monotonic() + seconds
    with Client(trial.address) as sender:
        sender.connect()
        for _ in range(3 * MOST_OPEN):
            if time.monotonic() > until:
                break
            sender.ask(b"".join(send_frame(topic, body) for topic in TOPICS), b"ask", 60)
            sent += len(TOPICS)
    other.join()
    return sent, rates[0] if rates else 0.0


def slow_and_talking(trial, seconds=70):
    """A subscriber that has lagged, reads 2,000 octets a second, and sends an end of line each millisecond. It takes some all the time,
    so it isn't closed as one that takes nothing for a minute: it gets what was accepted for it, and 74."""
    (slow,), ended = trial.open(1, receive_room=4096), threading.Event()
    slow.ask(subscribe(TOPICS[0]))
    with Client(trial.address) as sender:
        sender.connect()
        sender.ask(send_frame(TOPICS[0], b"x" * 100000) * (2 * MOST_OPEN + 12), seconds=60)
    talker = threading.Thread(target=talk, args=(slow, ended))
    talker.start()
    try:
        for _ in range(20 * seconds):
            slow.came += slow.socket.recv(100)
            time.sleep(0.05)
    finally:
        ended.set()
        talker.join()
    read, text = len(slow.came), slow.read_to_end(60)
    slow.close()
    came, number = text.count(b"MESSAGE\n"), error_of(text)
    trial.expect(number == 74, f"it was answered by {number} and not 74")
    trial.expect(came >= MOST_OPEN, f"only {came} MESSAGEs came")
    return f"it read {read:,} octets in {seconds} s, and in all {came} MESSAGEs and ERROR {number}"


def talk(client, ended):
    """Sends ends of lines until this is set, or the server ends the connection."""
    while not ended.is_set():
        try:
            client.send(b"\n")
        except OSError:
            return
        time.sleep(0.001)


def bursts(trial, count=20, sends=200):
    """SENDs that come at once, three times as many as a queue holds, to one that reads all the time: its own, and another's."""
    frames = send_frame(TOPICS[0], b"one") * (sends - 1) + send_frame(TOPICS[0], b"the last")
    lagged = {True: 0, False: 0}
    for at in range(2 * trial.part(count)):
        reader, other = trial.open(2)
        reader.ask(subscribe(TOPICS[0]))
        (reader if at % 2 else other).send(frames)
        try:
            reader.wait_for(b"the last\0\n", 30)
        except Ended:
            lagged[at % 2 == 1] += 1
        close_all([reader, other])
    trial.expect(sum(lagged.values()) == 0, f"{lagged[True]} lagged by their own, {lagged[False]} by another's")
    return f"{2 * trial.part(count)} bursts of {sends} SENDs came whole"


def opened_and_reset(trial, seconds=120):
    """10,000 connections that are opened and reset: at once, within a CONNECT, or once they have subscribed."""
    count = trial.part(10000)
    fronts = [b"", b"CONNECT\naccept-ver", b"CONNECT\naccept-version:1.2\nhost:h\n\n\0" + subscribe(TOPICS[0])]
    begun, done, refused = time.monotonic(), 0, 0
    while done < count and time.monotonic() - begun < seconds:
        try:
            it = Client(trial.address)
            it.send(fronts[done % len(fronts)])
            it.reset()
        except OSError:
            refused += 1
        done += 1
    took = time.monotonic() - begun
    trial.expect(done == count, f"only {done:,} in {seconds} s")
    return f"{done:,} in {took:.1f} s; {refused:,} of them couldn't be opened or were reset by the server"


def begins(trial):
    """10,000 BEGINs that are never committed: of one connection, and of as many as it takes, each with a SEND."""
    count = trial.part(10000)
    names = [b"BEGIN\ntransaction:%d\n\n\0" % at for at in range(count)]
    with Client(trial.address) as one:
        one.connect()
        try:
            one.send(b"".join(names))
        except OSError:
            pass
        number = error_of(one.read_to_end())
    trial.expect(number == 70, f"{count:,} BEGINs of one connection were answered by {number} and not 70")
    names = [it + send_frame(TOPICS[0], b"x" * 64, b"transaction:%d\n" % at) for at, it in enumerate(names)]
    before, clients, each = trial.server.memory(), [], MOST_OPEN - 1
    for at in range(0, count, each):
        clients += trial.open(1)
        clients[-1].ask(b"".join(names[at : at + each]))
    memory = trial.server.memory() - before
    close_all(clients)
    return (
        f"one connection: {number} at its 65th; {len(clients)} connections with {count:,} open, each with a SEND: "
        f"{memory / count:.1f} KiB each"
    )


def longest_send(body, headers=0, line=0):
    """A SEND with as many headers as may be, all but two of them of the greatest length, and so many more headers and octets."""
    names = [b"h%03d:" % at for at in range(MOST_HEADERS - 2 + headers)]
    lines = [it + b"v" * (MOST_LINE - len(it)) for it in names]
    lines[-1] += b"v" * line
    return send_frame(TOPICS[0], body, b"\n".join(lines) + b"\n")


def every_limit(trial):
    """Frames at every limit at once, and then one beyond each."""
    body, frames, rounds = bytes(MOST_BODY), 0, trial.part(20)
    with Client(trial.address) as it:
        it.connect(subscribe(TOPICS[0]))
        for _ in range(rounds):
            it.send(longest_send(body))
            came = it.wait_for(b"content-length:%d\n" % MOST_BODY, 30) + it.wait_for(body + b"\0\n", 30)
            frames += came.count(b"MESSAGE\n")
            trial.expect(came.count(b"v" * (MOST_LINE - 5)) == MOST_HEADERS - 2, "a header didn't come as it was sent")
    beyond = {
        "a line": (longest_send(body, line=1), 8),
        "a header": (longest_send(body, headers=1), 9),
        "a body": (longest_send(body + b"x"), 10),
        "a subscription": (b"".join(subscribe(TOPICS[0], at) for at in range(MOST_OPEN + 1)), 69),
        "a transaction": (b"".join(b"BEGIN\ntransaction:%d\n\n\0" % at for at in range(MOST_OPEN + 1)), 70),
        "a SEND": (b"BEGIN\ntransaction:t\n\n\0" + (MOST_OPEN + 1) * send_frame(TOPICS[0], b"", b"transaction:t\n"), 71),
    }
    for what, (text, number) in beyond.items():
        found = answer_to(trial, text)
        trial.expect(found == number, f"{what} too many was answered by {found} and not {number}")
    size, numbers = len(longest_send(body)), ", ".join(str(it[1]) for it in beyond.values())
    return f"{frames} MESSAGEs of SENDs of {size:,} octets came whole; one too many of each was answered by {numbers}"


def answer_to(trial, text):
    """The number of the ERROR by which a connection that sends this ends."""
    with Client(trial.address) as it:
        it.connect()
        try:
            it.send(text)
        except OSError:
            pass
        return error_of(it.read_to_end())


def half_closed(trial):
    """Connections that shut their side once they have sent, and then read."""
    count = trial.part(100)
    text = subscribe(TOPICS[0]) + b"".join(send_frame(TOPICS[0], b"x", b"receipt:%d\n" % at) for at in range(5))
    clients = trial.open(count)
    longest = 0.0
    for it in clients:
        begun = time.monotonic()
        it.send(text)
        it.socket.shutdown(socket.SHUT_WR)
        came = it.read_to_end()
        longest = max(longest, time.monotonic() - begun)
        trial.expect(came.count(b"RECEIPT\n") == 5, f"{came.count(b'RECEIPT')} of 5 receipts came")
    close_all(clients)
    trial.expect(longest < 5, "a connection wasn't ended")
    return f"{count} got their receipts and then the end, within {1000 * longest:.0f} ms"


def few_descriptors(trial, count=100):
    """100 connections to a server that may have 64 descriptors."""
    served, refused, clients = 0, 0, []
    for _ in range(count):
        try:
            it = Client(trial.address, 5)
            clients.append(it)
            it.send(b"CONNECT\naccept-version:1.2\nhost:h\n\n\0")
        except OSError:
            refused += 1
    for it in clients:
        try:
            it.wait_for(b"CONNECTED\n", 0.5)
            served += 1
        except Ended:
            refused += 1
    descriptors = trial.server.descriptors()
    close_all(clients)
    trial.expect(served > 0, "nobody was served")
    trial.expect(trial.server.is_running(), "the server has ended")
    return f"{served} were served, {refused} weren't; {descriptors} descriptors then"


def claimed_ids(trial, at_once=64):
    """65,536 client-ids are claimed, some connections at once. They are kept as long as the server runs."""
    before, begun, most = trial.server.memory(), time.monotonic(), trial.part(MOST_IDS)
    for first in range(0, most, at_once):
        names = [b"id%d" % it for it in range(first, min(first + at_once, most))]
        for name, number in zip(names, claim(trial, names)):
            trial.expect(number is None, f"{name!r} was answered by {number}")
    memory = trial.server.memory() - before
    took = time.monotonic() - begun
    if most == MOST_IDS:
        trial.expect(claim(trial, [b"one more"]) == [78], "one more id wasn't answered by 78")
        trial.expect(claim(trial, [b"id0"]) == [None], "an id that is kept wasn't served")
    return f"{most:,} in {took:.0f} s; {1024 * memory / most:.0f} octets of memory each, which stay"


def claim(trial, names):
    """Connections of these ids come and go, all at once; of each the number of the ERROR that answers it, None where it is served."""
    clients = [Client(trial.address) for _ in names]
    for it, name in zip(clients, names):
        it.send(b"CONNECT\naccept-version:1.2\nhost:h\nclient-id:" + name + b"\n\n\0DISCONNECT\nreceipt:bye\n\n\0")
    came = [it.read_to_end() for it in clients]
    close_all(clients)
    return [None if b"receipt-id:bye" in it else error_of(it) for it in came]


def named_topics(trial):
    """One connection sends to topics that nobody named before, until 1,024 are there. They are kept as long as the server runs."""
    before, begun = trial.server.memory(), time.monotonic()
    names = [b"/topic/new%d" % at for at in range(trial.part(MOST_TOPICS - len(NAMES)))]
    with Client(trial.address) as it:
        it.connect()
        for name in names:
            it.send(send_frame(name, b"x", b"receipt:r\n"))
            it.wait_for(b"receipt-id:r\n\n\0\n")
    memory, took = trial.server.memory() - before, time.monotonic() - begun
    if len(names) + len(NAMES) == MOST_TOPICS:
        expect_no_more_topics(trial)
    trial.expect(exchange(trial.address, names[-1]) < trial.at_once, "the last topic isn't served")
    return f"{len(names)} in {took:.1f} s; {memory / len(names):.1f} KiB of memory each, which stay"


def expect_no_more_topics(trial):
    """A new name is answered by 75, what can't be a name by 76, and to a topic that is there may be sent."""
    one_more = b"/topic/one-more"
    for text, number in (
        (send_frame(one_more, b"x"), 75),
        (subscribe(one_more), 75),
        (b"BEGIN\ntransaction:t\n\n\0" + send_frame(one_more, b"x", b"transaction:t\n"), 75),
        (send_frame(b"two words", b"x"), 76),
    ):
        found = answer_to(trial, text)
        trial.expect(found == number, f"{text!r} was answered by {found} and not {number}")


# The rows that one server has, one after another, behind plain use; and those that have one of their own: how many descriptors it may
# have, and whether what they leave stays.
ROWS = [silent, small_writes, comes_and_goes, one_octet_a_second, bursts, never_read, slow_and_talking, opened_and_reset, begins, every_limit, half_closed]
OF_THEIR_OWN = [(few_descriptors, 64, False), (named_topics, None, True), (claimed_ids, None, True)]
