"""A client of STOMP 1.2 for bench/hostile: it may be slow, rude or wrong."""

import re
import socket
import struct
import time

CONNECT = b"CONNECT\naccept-version:1.2\nhost:h\n\n\0"


class Ended(Exception):
    """The server ended the connection, or didn't answer in time."""


class Client:
    def __init__(self, address, seconds=10.0, receive_room=None, send_room=None):
        self.socket = socket.socket()
        if receive_room is not None:
            self.socket.setsockopt(socket.SOL_SOCKET, socket.SO_RCVBUF, receive_room)
        if send_room is not None:
            self.socket.setsockopt(socket.SOL_SOCKET, socket.SO_SNDBUF, send_room)
        self.socket.settimeout(seconds)
        self.socket.connect(address)
        self.came = b""

    def send(self, text):
        self.socket.sendall(text)

    def wait_for(self, word, seconds=10.0):
        """Reads until this word came; the octets up to its end."""
        until = time.monotonic() + seconds
        at = self.came.find(word)
        while at < 0:
            self.read_some(until, word)
            at = self.came.find(word)
        front, self.came = self.came[: at + len(word)], self.came[at + len(word) :]
        return front

    def read_some(self, until, word):
        left = until - time.monotonic()
        try:
            self.socket.settimeout(max(left, 0.001))
            piece = self.socket.recv(1 << 16)
        except OSError as fault:
            raise Ended(f"{word!r} didn't come: {fault}") from fault
        if not piece:
            raise Ended(f"the end came and no {word!r}, after {self.came[-200:]!r}")
        self.came += piece

    def read_to_end(self, seconds=10.0):
        """All that comes until the server ends the connection."""
        until = time.monotonic() + seconds
        try:
            while True:
                self.read_some(until, b"the end")
        except Ended as ended:
            if "the end came" not in str(ended) and "reset" not in str(ended):
                raise
        return self.came

    def connect(self, more=b""):
        """CONNECT, with these frames behind it, and its CONNECTED."""
        self.send(CONNECT + more)
        self.wait_for(b"CONNECTED\n")
        self.wait_for(b"\n\n\0\n")
        return self

    def ask(self, frames, receipt=b"ask", seconds=10.0):
        """Sends frames, and one more that asks for a receipt, and waits for it: the server has then done what they ask for."""
        self.send(frames + b"BEGIN\ntransaction:" + receipt + b"\nreceipt:" + receipt + b"\n\n\0")
        self.send(b"ABORT\ntransaction:" + receipt + b"\n\n\0")
        self.wait_for(b"receipt-id:" + receipt + b"\n\n\0\n", seconds)

    def close(self):
        self.socket.close()

    def reset(self):
        """Closes so that the server's side is reset."""
        self.socket.setsockopt(socket.SOL_SOCKET, socket.SO_LINGER, struct.pack("ii", 1, 0))
        self.socket.close()

    def __enter__(self):
        return self

    def __exit__(self, *_):
        self.close()


def subscribe(topic, number=0, more=b""):
    return b"SUBSCRIBE\nid:%d\ndestination:%s\n%s\n\0" % (number, topic, more)


def send_frame(topic, body, more=b""):
    return b"SEND\ndestination:%s\n%scontent-length:%d\n\n%s\0" % (topic, more, len(body), body)


def error_of(text):
    """The number of the ERROR in a text; None without one."""
    found = re.search(rb"ERROR\nmessage:(\d+) ", text)
    return int(found.group(1)) if found else None


def exchange(address, topic):
    """A new client subscribes, sends, and gets its message; how many milliseconds that took."""
    begun = time.monotonic()
    with Client(address) as it:
        it.connect(subscribe(topic) + send_frame(topic, b"hello"))
        it.wait_for(b"hello\0\n")
        it.send(b"DISCONNECT\nreceipt:bye\n\n\0")
        it.wait_for(b"receipt-id:bye\n\n\0\n")
    return 1000 * (time.monotonic() - begun)
