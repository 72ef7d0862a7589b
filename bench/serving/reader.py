#!/usr/bin/env python3
"""Subscribes to a topic, and reads without a rest what sender.py sends, until a body says that it is the end. bench/hostile starts it.

    reader.py PORT TOPIC SIZE

It prints a line once it has subscribed; then how many came of each sender, from 0 on, as they are to come: each sender's in its order,
none twice, none left out. Else it says what came in place of that.
"""

import sys

from client import Client, Ended, error_of, subscribe

END, DIGITS = b"the end", 12


class Wrong(Exception):
    """What came isn't what was to come."""


def hear(piece, size, counts):
    """Counts a MESSAGE, without its NULL and the LF behind it; False where it is the end."""
    head, _, body = piece.partition(b"\n\n")
    if body == END:
        return False
    if not head.startswith(b"MESSAGE\n") or len(body) != size:
        raise Wrong(f"ERROR {error_of(piece)}" if head.startswith(b"ERROR\n") else f"{piece[:200]!r}")
    sender, number = int(body[-DIGITS:-8]), int(body[-8:])
    if number != counts.get(sender, 0):
        raise Wrong(f"{number} of sender {sender} came in place of {counts.get(sender, 0)}")
    counts[sender] = number + 1
    return True


def read_all(client, size):
    """Reads until the end came; how many came of each sender, and what was wrong, if something was."""
    counts, tail = {}, client.came
    try:
        while True:
            some = client.socket.recv(1 << 18)
            if not some:
                raise Wrong("the connection was closed")
            *pieces, tail = (tail + some).split(b"\0\n")
            if not all(hear(it, size, counts) for it in pieces):
                return counts, ""
    except (Wrong, OSError) as fault:
        return counts, f"{type(fault).__name__}: {fault}"


def main(port, topic, size):
    with Client(("127.0.0.1", int(port)), 120) as it:
        it.connect()
        it.ask(subscribe(topic.encode()))
        it.socket.settimeout(120)
        print("subscribed", flush=True)
        counts, wrong = read_all(it, int(size))
    print(" ".join(str(counts[at]) for at in sorted(counts)))
    print(wrong)


if __name__ == "__main__":
    try:
        main(*sys.argv[1:])
    except Ended as ended:
        sys.exit(str(ended))
