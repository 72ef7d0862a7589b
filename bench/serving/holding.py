"""What bench/hostile does to see how much memory clients make the server hold: rows as in hostility.py."""

import contextlib
import select
import threading
import time

from client import Client, Ended, error_of, exchange, send_frame, subscribe
from hostility import MINE, MOST_BODY, MOST_CONNECTIONS, MOST_LINE, MOST_TOPICS, NAMES, close_all
from waiting import hang_up

KIB, MIB = 1024, 1 << 20

# How many octets may wait for a connection beside a MESSAGE, and at a topic beside one item.
WIRE, QUEUED = 65536, 64 * MIB

# A MESSAGE's command and headers, at most, of the SENDs here.
HEAD = 200

# How many octets a second a subscriber reads, so fast that to wait for it costs nothing.
PACE = 12 * MIB

# By how much more memory may be: what the C library rounds up to, and what the connections take besides.
FIFTH, TENTH = 1.2, 1.1

# For so many seconds the server tries to tell its last words to one that doesn't read, and a bit.
LAST_WORDS = 12

WITHIN = b"transaction:t\n"


def transaction(topic, bodies, receipt=b""):
    """A transaction of these bodies to one topic."""
    sends = b"".join(send_frame(topic, it, WITHIN) for it in bodies)
    return b"BEGIN\n" + WITHIN + b"\n\0" + sends + b"COMMIT\n" + WITHIN + receipt + b"\n\0"


def file_of(client):
    """What comes at a client from now on, as a file."""
    client.socket.settimeout(30)
    return client.socket.makefile("rb", MIB)


def next_message(file):
    """The message-id and the body of the next MESSAGE."""
    headers, line = {}, file.readline()
    if line != b"MESSAGE\n":
        raise Ended(f"{line!r} came and no MESSAGE")
    while (line := file.readline()) not in (b"\n", b""):
        name, _, value = line.rstrip(b"\n").partition(b":")
        headers[name] = value
    body = file.read(int(headers.get(b"content-length", 0)))
    if file.read(2) != b"\0\n":
        raise Ended("a MESSAGE was cut")
    return headers[b"message-id"], body


def is_next_item(file, bodies):
    """Whether the next MESSAGEs are of one transaction, and have these bodies, in their order."""
    stamps = set()
    for place, body in enumerate(bodies):
        name, came = next_message(file)
        stamp, _, number = name.rpartition(b".")
        stamps.add(stamp)
        if came != body or number != b"%d" % place:
            return False
    return len(stamps) == 1


def one_large_transaction(trial, readers=60, sends=64, size=256 * KIB):
    """A transaction of 16 MiB, committed once, while 60 subscribers don't read: the server holds it once, and for each of them what may
    wait. Then each reads all of it."""
    _, topic = trial.topic_alone()
    bodies = [b"%04d" % at * (size // 4) for at in range(sends)]
    readers = trial.open(trial.part(readers))
    for it in readers:
        it.ask(subscribe(topic))
    before = trial.server.memory()
    trial.server.forget_most_memory()
    with Client(trial.address) as sender:
        sender.connect()
        sender.ask(transaction(topic, bodies), seconds=30)
        time.sleep(1)
    held = trial.server.most_memory() - before
    most = FIFTH * (len(readers) * (WIRE + size + HEAD) + sends * size) / KIB
    trial.expect(held <= most, f"it held {held:,} KiB, and {most:,.0f} are what it may")
    for it in readers:
        with file_of(it) as file:
            trial.expect(is_next_item(file, bodies), "the transaction didn't come whole")
    close_all(readers)
    return f"{len(readers)} that don't read and a transaction of {sends * size // MIB} MiB: {held:,} KiB of {most:,.0f}"


def large_transactions(trial, senders=2, count=25, sends=8, seconds=4):
    """Two senders commit 25 transactions of 8 MiB each to one that reads 12 MiB a second, for four seconds, and then without a rest: they
    wait for it, so little of that is in the server. All of it comes."""
    _, topic = trial.topic_alone()
    bodies, count = [b"%04d" % at * (MIB // 4) for at in range(sends)], trial.part(count)
    item = sends * (MOST_BODY + HEAD)
    reader, *others = trial.open(1 + senders)
    reader.ask(subscribe(topic))
    before = trial.server.memory()
    trial.server.forget_most_memory()
    with file_of(reader) as file, contextlib.ExitStack() as block:
        for it in others:
            it.socket.settimeout(None)
            sending = threading.Thread(target=send_times, args=(it, transaction(topic, bodies), count), daemon=True)
            sending.start()
            block.callback(sending.join)
            block.callback(hang_up, it)
        until = time.monotonic() + seconds
        whole = sum(is_next_item(Paced(file, until), bodies) for _ in range(senders * count))
    held = trial.server.most_memory() - before
    most = FIFTH * (QUEUED + item + senders * item + WIRE + MOST_BODY + HEAD) / KIB
    close_all([reader, *others])
    trial.expect(whole == senders * count, f"{whole} of {senders * count} transactions came whole")
    trial.expect(held <= most, f"it held {held:,} KiB, and {most:,.0f} are what it may")
    return f"{whole} transactions of {item // MIB} MiB came to one that reads {PACE // MIB} MiB a second: {held:,} KiB of {most:,.0f}"


def send_times(client, text, times):
    """Sends this so often, as long as the connection is there."""
    with contextlib.suppress(OSError):
        for _ in range(times):
            client.send(text)


class Paced:
    """A file that is read at a pace, until this moment."""

    def __init__(self, file, until):
        self.file, self.until = file, until

    def readline(self):
        return self.file.readline()

    def read(self, size):
        if size > 2 and time.monotonic() < self.until:
            time.sleep(size / PACE)
        return self.file.read(size)


def long_names(trial):
    """One connection makes topics of the longest names until 1,024 are there; then 255 others, which had a subscription before, have one to
    the last of these, and so know all. A name is there once. Their SUBSCRIBE comes in two pieces: a read that comes full takes more room from
    then on, which the C library keeps."""
    longest = MOST_LINE - len(b"destination:")
    names = [b"/topic/%d." % at for at in range(trial.part(MOST_TOPICS - len(NAMES)))]
    names = [it + b"n" * (longest - len(it)) for it in names]
    others = trial.open(trial.part(MOST_CONNECTIONS - 1), subscribe(MINE))
    last = subscribe(names[-1])
    with Client(trial.address) as maker:
        maker.connect()
        maker.ask(b"".join(send_frame(it, b"x") for it in names), seconds=30)
        time.sleep(1)
        before = trial.server.memory()
        for it in others:
            it.send(b"UNSUBSCRIBE\nid:0\n\n\0" + last[: longest // 2])
        time.sleep(1)
        for it in others:
            it.ask(last[longest // 2 :], seconds=30)
        time.sleep(1)
        after = trial.server.memory()
    close_all(others)
    trial.expect(after <= TENTH * before, f"it held {after:,} KiB, and {before:,} before the others knew the names")
    each = (after - before) / len(others)
    return f"{len(names)} names of {longest:,} octets: {before:,} KiB, {after:,} once {len(others)} more knew them, {each:.1f} for each"


def is_told(client):
    """Whether something came at this client that is an ERROR; it reads what came."""
    while select.select([client.socket], [], [], 0)[0]:
        client.read_some(time.monotonic() + 1, b"ERROR")
        if error_of(client.came) is not None:
            return True
    return False


class Opening:
    """A client that opens transactions of 64 SENDs of 1 MiB each, and commits none."""

    def __init__(self, client):
        self.client, self.sent = client, 0

    def goes_on(self, body=b"m" * MIB):
        """One SEND more; whether it was told nothing. Who was told, and is gone, can't send."""
        within = b"transaction:%d\n" % (self.sent // 64)
        with contextlib.suppress(BrokenPipeError, ConnectionResetError):
            if self.sent % 64 == 0:
                self.client.send(b"BEGIN\n" + within + b"\n\0")
            self.client.send(send_frame(MINE, body, within))
            self.sent += 1
        return not is_told(self.client)


def transactions_without_end(trial, most=1280):
    """One client opens transactions, and commits none, until it is told 72; another one is served meanwhile."""
    before, longest = trial.server.memory(), 0.0
    trial.server.forget_most_memory()
    with Client(trial.address, 30) as client:
        opening, is_on = Opening(client.connect()), True
        while is_on and opening.sent < most:
            is_on = opening.goes_on()
            if opening.sent % 64 == 0:
                longest = max(longest, exchange(trial.address, MINE))
        told = error_of(client.came)
    held = (trial.server.most_memory() - before) / KIB
    trial.expect(told == 72, f"it was told {told} after {opening.sent} MiB")
    trial.expect(480 <= opening.sent <= 544, f"it was told {told} after {opening.sent} MiB")
    trial.expect(longest < trial.at_once, f"another client waited {longest:.0f} ms")
    return f"{opening.sent:,} MiB were open as it was told {told}, {held:,.0f} held; another client was served within {longest:.0f} ms"


def transactions_of_many(trial, clients=250, rounds=10, most=2048):
    """250 clients open transactions side by side, 10 MiB each, until they are told 72. Who holds little is told nothing."""
    before = trial.server.memory()
    trial.server.forget_most_memory()
    clients = trial.open(trial.part(clients), seconds=30)
    openings, told = [Opening(it) for it in clients], []
    for _ in range(rounds):
        for it in [it for it in openings if it not in told]:
            if not it.goes_on():
                told.append(it)
    held = (trial.server.most_memory() - before) / KIB
    least = min((it.sent for it in told), default=0)
    trial.expect(all(error_of(it.client.came) == 72 for it in told), "one was told something else than 72")
    trial.expect(told and least > 4, f"{len(told)} were told, one after {least} MiB")
    trial.expect(held <= TENTH * most, f"it held {held:,.0f} MiB, and {most:,} are what it may")
    close_all(clients)
    return f"{len(clients)} clients: {len(told)} were told 72, none before it held {least} MiB; {held:,.0f} MiB were held in all"


def queues_that_nobody_takes(trial, topics=5, rounds=4, sends=64, most=1000):
    """A client commits transactions of 64 MiB to five topics by turns, each of which has a subscriber that never reads. These are passed
    over, and end by 72 when memory is short; the sender goes on."""
    names, said = [trial.topic_alone()[1] for _ in range(topics)], trial.server.log_size()
    bodies = [b"%04d" % at * (MIB // 4) for at in range(sends)]
    readers = [it for name in names for it in trial.open(1, subscribe(name), receive_room=4096)]
    before = trial.server.memory()
    trial.server.forget_most_memory()
    with Client(trial.address, 60) as sender:
        sender.connect()
        for name in names * rounds:
            sender.ask(transaction(name, bodies), seconds=60)
    held = (trial.server.most_memory() - before) / KIB
    time.sleep(LAST_WORDS)
    ended = trial.server.log_since(said).count(b"left: ERROR 72 NoMemory")
    close_all(readers)
    trial.expect(held <= most, f"it held {held:,.0f} MiB, and {most:,} are what it may")
    trial.expect(ended > 0, "none of those who don't read was ended by 72")
    return f"{topics * rounds} transactions of {sends} MiB went through; {ended} of {topics} that don't read ended; {held:,.0f} MiB were held"


def queues_of_one(trial, topics=42, sends=64, most=1024):
    """A client subscribes to 42 topics, and never reads; another one commits a transaction of 64 MiB to each. Nobody waits for room there, so
    nobody is passed over. The one ends by 72 when memory is short; the other goes on."""
    names, said = [b"/topic/one%d" % at for at in range(trial.part(topics))], trial.server.log_size()
    bodies = [b"%04d" % at * (MIB // 4) for at in range(sends)]
    reader = Client(trial.address, receive_room=4096)
    reader.connect().ask(b"".join(subscribe(name, at) for at, name in enumerate(names)))
    before = trial.server.memory()
    trial.server.forget_most_memory()
    with Client(trial.address, 60) as sender:
        sender.connect()
        for name in names:
            sender.ask(transaction(name, bodies), seconds=60)
    held = (trial.server.most_memory() - before) / KIB
    time.sleep(LAST_WORDS)
    ended = trial.server.log_since(said).count(b"left: ERROR 72 NoMemory")
    reader.close()
    trial.expect(held <= TENTH * most, f"it held {held:,.0f} MiB, and {most:,} are what it may")
    trial.expect(ended == 1, f"{ended} were ended by 72")
    return f"{len(names)} transactions of {sends} MiB to one that never reads went through, and it ended; {held:,.0f} MiB were held"


class Trickle:
    """Reads a little of what comes at these clients ten times a second, until it is stopped."""

    def __init__(self, clients):
        self.clients, self.goes_on = clients, True
        self.thread = threading.Thread(target=self.read, daemon=True)

    def __enter__(self):
        self.thread.start()

    def __exit__(self, *_):
        self.goes_on = False
        self.thread.join()

    def read(self):
        while self.goes_on:
            for it in select.select([it.socket for it in self.clients], [], [], 0)[0]:
                with contextlib.suppress(OSError):
                    it.recv(8192)
            time.sleep(0.1)


def commits_and_leaves(address, topic, bodies):
    """One comes, commits this, and leaves: the number of the ERROR that it was told, if one was."""
    client = Client(address, 30)
    try:
        client.connect().ask(transaction(topic, bodies), seconds=30)
    except (Ended, OSError):
        with contextlib.suppress(Ended, OSError):
            client.read_to_end(1)
        return error_of(client.came)
    finally:
        client.close()
    return None


def commits_of_those_who_left(trial, readers=3, topics=64, times=4, most=2048):
    """Three clients subscribe to 64 topics each, and read a little at a time; others come, one after the other, each of which commits 4 MB to
    one of these topics, and leaves: so nobody that is there holds much. They are told 72 once all that is held is 2 GiB."""
    names = [b"/topic/left%d" % at for at in range(trial.part(readers * topics))]
    bodies, told, count = [b"m" * 1_000_000] * 4, 0, 0
    readers = trial.open(readers, receive_room=4096)
    for at, name in enumerate(names):
        readers[at % len(readers)].ask(subscribe(name, at))
    before = trial.server.memory()
    trial.server.forget_most_memory()
    with Trickle(readers):
        for name in names * times:
            came = commits_and_leaves(trial.address, name, bodies)
            trial.expect(came in (None, 72), f"one was told {came}")
            count, told = count + 1, told + (came == 72)
            if told == 20:
                break
    held = (trial.server.most_memory() - before) / KIB
    close_all(readers)
    until = time.monotonic() + 30
    while trial.server.memory() - before > 64 * KIB and time.monotonic() < until:
        time.sleep(0.1)
    trial.expect(held <= TENTH * most, f"it held {held:,.0f} MiB, and {most:,} are what it may")
    trial.expect(told > 0, "none was told 72")
    return f"{count} came, committed 4 MB and left; {told} of them were told 72; {held:,.0f} MiB were held"


def queues_of_many(trial, clients=150, topics=16, sends=64, size=20_000, most=1024):
    """150 clients, which never read, subscribe to 16 topics each, one after the other; behind each of them another client sends 64 SENDs of
    20,000 octets to each topic. So each has other SENDs in its queues, all of them light. Those that are passed over end by 72 when
    memory is short; the sender goes on."""
    names, said = [b"/topic/many%d" % at for at in range(topics)], trial.server.log_size()
    batches = [b"".join(send_frame(name, b"%05d" % at * (size // 5)) for at in range(sends)) for name in names]
    readers = trial.open(trial.part(clients), receive_room=4096)
    before = trial.server.memory()
    trial.server.forget_most_memory()
    with Client(trial.address, 60) as sender:
        sender.connect()
        for it in readers:
            with contextlib.suppress(Ended, OSError):
                it.ask(b"".join(subscribe(name, at) for at, name in enumerate(names)))
            for batch in batches:
                sender.ask(batch, seconds=60)
    held = (trial.server.most_memory() - before) / KIB
    time.sleep(LAST_WORDS)
    ended = trial.server.log_since(said).count(b"left: ERROR 72 NoMemory")
    close_all(readers)
    trial.expect(held <= FIFTH * most, f"it held {held:,.0f} MiB, and {most:,} are what it may")
    trial.expect(ended > 0, "none of those who don't read was ended by 72")
    return f"{len(readers)} that never read had {len(names)} queues each; {ended} of them ended by 72; {held:,.0f} MiB were held"


ROWS = [one_large_transaction, large_transactions, transactions_without_end, transactions_of_many, queues_that_nobody_takes]
OF_THEIR_OWN = [(queues_of_one, None, False), (queues_of_many, None, False), (commits_of_those_who_left, None, False), (long_names, None, True)]
