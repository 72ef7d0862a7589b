#!/usr/bin/env python3
# stomp.py (Debian: python3-stomp; tried with 8.0.0), against `stompd serve 127.0.0.1:61613 A B`.
# What it needs: Connection12 (STOMP 1.2), heartbeats=(0, 0), and ack='auto' or none. Anything is right as host.
import queue
import sys
import time

import stomp

PORT = int(sys.argv[1]) if len(sys.argv) > 1 else 61613


class Heard(stomp.ConnectionListener):
    """Puts what the server says where the main thread waits for it."""

    def __init__(self):
        self.said = queue.Queue()

    def on_message(self, frame):
        self.said.put(("MESSAGE", frame.headers["destination"], frame.body))

    def on_receipt(self, frame):
        self.said.put(("RECEIPT", frame.headers["receipt-id"], ""))

    def on_error(self, frame):
        self.said.put(("ERROR", frame.headers["message"], frame.headers.get("receipt-id", "")))

    def on_disconnected(self):
        self.said.put(("closed", "", ""))


def connection():
    """A connection, and what it hears."""
    heard = Heard()
    conn = stomp.Connection12([("127.0.0.1", PORT)], heartbeats=(0, 0), reconnect_attempts_max=1)
    conn.set_listener("heard", heard)
    conn.connect(wait=True)
    return conn, heard.said


def show(who, said, count=1):
    """Prints what is said next, in the order of its text where it may come in any."""
    for words in sorted(said.get(timeout=10) for _ in range(count)):
        print(who, *(word for word in words if word), flush=True)


subscriber, at_subscriber = connection()
sender, at_sender = connection()
subscriber.subscribe("A", id="a", headers={"receipt": "to-a"})
show("subscriber", at_subscriber)
subscriber.subscribe("B", id="b", headers={"receipt": "to-b"})
show("subscriber", at_subscriber)

sender.send("A", "hello", headers={"receipt": "sent"})
show("sender", at_sender)
show("subscriber", at_subscriber)

sender.begin(transaction="t")
sender.send("A", "one", headers={"transaction": "t"})
sender.send("B", "two", headers={"transaction": "t"})
sender.commit(transaction="t", headers={"receipt": "committed"})
show("sender", at_sender)
show("subscriber", at_subscriber, 2)

# 200 transactions, as stomp.py's manual writes one, each behind the receipt of the one before, and without TCP_NODELAY.
begun, in_time = time.monotonic(), 0
for _ in range(200):
    transaction = sender.begin()
    sender.send("A", "one", transaction=transaction)
    sender.send("B", "two", transaction=transaction)
    sender.commit(transaction, receipt="of " + transaction)
    in_time += at_sender.get(timeout=10)[:2] == ("RECEIPT", "of " + transaction) and time.monotonic() < begun + 1
print("sender", in_time, "RECEIPTs within a second", flush=True)
print("subscriber", [at_subscriber.get(timeout=10)[0] for _ in range(400)].count("MESSAGE"), "MESSAGEs", flush=True)

# There is no such transaction: the ERROR is the last that the server says, and it closes the connection.
sender.commit(transaction="u", headers={"receipt": "never"})
show("sender", at_sender)
show("sender", at_sender)

# stomp.py closes the connection itself once the RECEIPT has come.
subscriber.disconnect(receipt="bye")
show("subscriber", at_subscriber, 2)
