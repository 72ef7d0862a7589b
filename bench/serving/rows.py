"""The rows of bench/serve."""

import collections
import itertools

# A row's words are the load generator's plan (c/plan.h). A growth is the group of rows that are compared with one of them. Beside a row so
# many processes are busy.
Row = collections.namedtuple("Row", "name words topics kind growth busy", defaults=(1, "rate", None, 0))

# The octets of a transaction's bodies, and how many SENDs it has.
IN_TRANSACTION = 64
SENDS = 4

# The octets of a burst's bodies, how many of the largest all senders send together, and a run that ends once all came.
SIZES = {16: "16 octets", 1024: "1 KiB", 20000: "20,000 octets"}
OF_LARGEST = 80_000_000
UNTIL_ALL_CAME = "warm=0 measured=150000"

# How many SENDs of one that never waits are on their way to 1,000 subscribers: 16 times what a queue holds. What is in the sockets of more
# than that comes only minutes later, and the floor would hold it a thousand times.
OF_CEASELESS = 1024

IDLE = 256

# How many items the shape has room for at a subscription.
RING = 64

# How many messages of a publisher are on their way at once, beside the 32 of other rows; how many senders one topic has; how many processes
# never rest; how many seconds nothing happens before a message.
WINDOWS = (4, 16, 64, 200)
SENDERS = (4, 8, 64)
BUSY = 8
SILENCE = 10

# How many transactions are written in small pieces, and how many milliseconds half of them may take at ours.
SMALL, MOST_SMALL = 50, 2.0


# One sender and one subscriber, with small and with larger messages; and many of both.
SMALL_ONES = Row("1 to 1, 16 octets", "size=16")
LARGER_ONES = Row("1 to 1, 1 KiB", "size=1024")
EIGHT = Row("8 to 8, 4 topics, 256 octets", "size=256 publishers=8 readers=8 topics=4", 4)


def loads():
    """The rows of load."""
    yield SMALL_ONES
    yield LARGER_ONES
    yield Row("1 to 1, 64 KiB", "size=65536")
    yield Row("1 to 1, 16 octets, window 1", "size=16 window=1")
    yield Row("1 to 16, 1 KiB", "size=1024 readers=16")
    yield EIGHT
    pair = f"size={IN_TRANSACTION} sends={SENDS} topics=2 each=2"
    yield Row("transactions of 4 SENDs to 2 topics, 1 to 1", pair, 2)
    yield Row("transactions of 4 SENDs to 2 topics, 4 to 4", f"{pair} publishers=4 readers=4", 2)
    yield Row("1 to 1, 16 octets, 1,000 a second", "size=16 rate=1000", 1, "latency")


def windows():
    """Rows of load at other windows."""
    for row in (SMALL_ONES, LARGER_ONES, EIGHT):
        for window in WINDOWS:
            yield row._replace(name=f"{row.name}, window {window}", words=f"{row.words} window={window}")


def fan_in():
    """Many senders to one topic, which one reads."""
    for count in SENDERS:
        yield Row(f"{count} to 1, 16 octets", f"size=16 publishers={count}")


def beside_busy():
    """Rows of load beside processes that never rest."""
    for row in (SMALL_ONES, LARGER_ONES, EIGHT):
        yield row._replace(name=f"{row.name}, beside {BUSY} busy processes", busy=BUSY)


def latencies():
    """Times of messages: at half of the rate that the server just had, and of the first one behind a silence."""
    yield Row("1 to 1, 16 octets, at half of its rate", "size=16", 1, "half")
    yield Row(f"1 to 1, 16 octets, behind {SILENCE} idle seconds", "", 1, "first")


def counted(count, what):
    return f"{count} {what}" + ("" if count == 1 else "s")


def burst(what, plan, topics, size, senders, subscribers):
    """Senders that write all they have at once: 2,000 SENDs each, or of the largest so many transactions that it is 80 MB in all."""
    each = 2000 if size < max(SIZES) else SENDS * round(OF_LARGEST / (SENDS * size * senders))
    name = f"{what}: {counted(senders, 'sender')}, {SIZES[size]}, {counted(subscribers, 'subscriber')}"
    words = f"{plan} publishers={senders} readers={subscribers} size={size} most={each} window={each} burst {UNTIL_ALL_CAME}"
    return Row(name, words.strip(), topics, "burst")


def bursts():
    """Senders that don't wait until what they sent has come."""
    transactions = f"sends={SENDS} topics=2 each=2"
    for size, senders, subscribers in itertools.product(SIZES, (1, 2, 8, 64), (1, 16)):
        yield burst("burst", "", 1, size, senders, subscribers)
    for size, senders, subscribers in itertools.product(SIZES, (1, 2, 8, 64), (1, 16)):
        yield burst("burst of transactions", transactions, 2, size, senders, subscribers)
    ceaseless = "publishers=8 size=16 unpaced warm=0 measured=4000"
    yield Row("burst for 4 seconds: 8 senders, 16 octets, 1 subscriber", f"{ceaseless} window=1048576", 1, "burst")
    many = f"{ceaseless} window={OF_CEASELESS} readers=20 each=50"
    yield Row("burst for 4 seconds: 8 senders, 16 octets, 1,000 subscribers", many, 1, "burst", "waiting")


def growths():
    """The rows of growth: one number grows, and each SEND still has one delivery, or (subscribers) as many as there are."""
    for n in (1, 16, 64, 250):
        yield Row(f"connections: {n}", f"own publishers={n} readers={n} topics={n}", n, "rate", "connections")
    for n in (1, 64, 1024):
        readers = min(n, 16)
        yield Row(f"topics: {n:,}", f"readers={readers} each={n // readers} topics={n}", n, "rate", "topics")
    for n, readers in ((1, 1), (64, 16), (1000, 20)):
        yield Row(f"subscribers of one topic: {n:,}", f"readers={readers} each={n // readers}", 1, "rate", "subscribers")


def idle():
    """Connections that do nothing."""
    yield Row(f"{IDLE} idle connections", "", 1, "idle")


def small():
    """A client that leaves its small writes to the system: no TCP_NODELAY."""
    yield Row("small writes: BEGIN, SEND, SEND, COMMIT", "", 2, "small")


# The kinds of rows without the load generator.
WITHOUT_LOAD = ("idle", "small", "first")


def all_rows():
    yield from loads()
    yield from windows()
    yield from fan_in()
    yield from beside_busy()
    yield from latencies()
    yield from bursts()
    yield from growths()
    yield from small()
    yield from idle()


def on_their_way(row):
    """How many messages may be on their way to a topic at once."""
    words = dict(it.split("=") for it in row.words.split() if "=" in it)
    return int(words.get("publishers", 1)) * int(words.get("window", 32)) / row.topics


def programs_for(row, programs):
    """The programs that a row is for: the shape drops what it has no room for."""
    overflows = row.kind in ("burst", "half") or on_their_way(row) > RING
    return {name: it for name, it in programs.items() if not (overflows and name == "shape")}


def names(row, prefix):
    """The names of a row's topics, which no other row's have."""
    return [f"/topic/{prefix}{at}" for at in range(row.topics)]


# The row of each growth with which the others are compared.
BASES = {
    "connections": "connections: 16",
    "topics": "topics: 1",
    "subscribers": "subscribers of one topic: 1",
    "waiting": "subscribers of one topic: 1,000",
}
