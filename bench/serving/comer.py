#!/usr/bin/env python3
"""Connects, subscribes 64 times and resets, over and over, until it is ended, or who started it has: then it prints how often it came. bench/hostile starts it.

    comer.py PORT WAIT TOPIC..    WAIT is `no`, or `yes`: it waits until the server has done what it asked for
"""

import os
import signal
import sys

from client import CONNECT, Client, Ended, subscribe

MOST_OPEN = 64


def come(address, text, waits):
    """Comes once; whether it could."""
    try:
        it = Client(address)
        try:
            it.send(text)
            if waits:
                it.wait_for(b"receipt-id:last\n\n\0\n")
        finally:
            it.reset()
    except (OSError, Ended):
        return False
    return True


def main(port, wait, *topics):
    names = [topics[at % len(topics)].encode() for at in range(MOST_OPEN)]
    text = CONNECT + b"".join(subscribe(name, at) for at, name in enumerate(names[:-1]))
    text += subscribe(names[-1], MOST_OPEN - 1, b"receipt:last\n")
    came, parent = 0, os.getppid()
    signal.signal(signal.SIGTERM, lambda *_: sys.exit(print(came)))
    while os.getppid() == parent:
        came += come(("127.0.0.1", int(port)), text, wait == "yes")


if __name__ == "__main__":
    main(*sys.argv[1:])
