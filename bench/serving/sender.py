#!/usr/bin/env python3
"""Sends numbered bodies to a topic, as fast as the server takes them, and prints how many. bench/hostile starts it.

    sender.py PORT TOPIC NUMBER SIZE WRITE MOST SECONDS    WRITE SENDs at a time, until there were MOST or so many seconds have passed
    sender.py PORT TOPIC NUMBER SIZE WRITE MOST SECONDS wait    each WRITE SENDs in a transaction, whose RECEIPT it waits for

A body ends with the sender's number, of four digits, and its own, of eight.
"""

import sys
import time

from client import Client, send_frame


def frames(topic, number, size, begin, count, within=b""):
    """So many SENDs from this one on."""
    filler = b"x" * (size - 12)
    return b"".join(send_frame(topic, b"%s%04d%08d" % (filler, number, at), within) for at in range(begin, begin + count))


def send_some(client, topic, number, size, begin, count, waits):
    """So many SENDs at once; where it waits, a transaction of them, until its RECEIPT came."""
    if not waits:
        client.send(frames(topic, number, size, begin, count))
        return
    within = b"transaction:t\n"
    sends = frames(topic, number, size, begin, count, within)
    client.send(b"BEGIN\n" + within + b"\n\0" + sends + b"COMMIT\n" + within + b"receipt:r\n\n\0")
    client.wait_for(b"receipt-id:r\n\n\0\n", 120)


def main(port, topic, number, size, write, most, seconds, wait=""):
    sent, until = 0, time.monotonic() + int(seconds)
    with Client(("127.0.0.1", int(port)), 120) as it:
        it.connect()
        while sent < int(most) and time.monotonic() < until:
            count = min(int(write), int(most) - sent)
            send_some(it, topic.encode(), int(number), int(size), sent, count, wait != "")
            sent += count
        it.send(b"DISCONNECT\nreceipt:bye\n\n\0")
        it.wait_for(b"receipt-id:bye\n\n\0\n", 120)
    print(sent)


if __name__ == "__main__":
    main(*sys.argv[1:])
