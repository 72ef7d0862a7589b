"""STOMP 1.2 frames over a socket, as far as `subscribe` and `transaction` need them. No library is needed."""
import re
import socket

ESCAPES = {'\\': '\\\\', '\r': '\\r', '\n': '\\n', ':': '\\c'}
UNESCAPED = {'\\': '\\', 'r': '\r', 'n': '\n', 'c': ':'}


def escaped(text):
    """A name or a value as it is written, but for CONNECT."""
    return ''.join(ESCAPES.get(letter, letter) for letter in text)


def unescaped(text):
    """A name or a value as it was meant."""
    return re.sub(r'\\(.)', lambda found: UNESCAPED.get(found[1], found[0]), text)


class Connection:
    """A connection to the server at ADDR:PORT, after its CONNECTED; `room` is what the system may hold of it, `head` further
    header lines of its CONNECT."""

    def __init__(self, address, room=None, head=''):
        host, _, port = address.rpartition(':')
        self.socket = socket.socket(socket.AF_INET6 if ':' in host else socket.AF_INET)
        if room is not None:
            self.socket.setsockopt(socket.SOL_SOCKET, socket.SO_RCVBUF, room)
        self.socket.connect((host.strip('[]'), int(port)))
        self.file = self.socket.makefile('rb')
        self.socket.sendall(('CONNECT\naccept-version:1.2\nhost:h\n%s\n\0' % head).encode())
        self.receive()

    def send(self, command, body=b'', **headers):
        """Sends a frame."""
        head = ''.join('%s:%s\n' % (name, escaped(value)) for name, value in headers.items())
        counted = 'content-length:%d\n' % len(body) if command == 'SEND' else ''
        self.socket.sendall(('%s\n%s%s\n' % (command, head, counted)).encode() + body + b'\0')

    def command(self):
        """The next line that has something; at the end of the stream nothing. A frame may have EOLs behind its NULL."""
        line = self.file.readline()
        while line == b'\n':
            line = self.file.readline()
        return line.decode().rstrip('\n')

    def receive(self):
        """The next frame: its command, its headers, its body. At the end of the stream all are empty, and where it cuts a frame."""
        try:
            command = self.command()
            headers = {}
            for line in iter(self.file.readline, b'\n'):
                if not line:
                    return '', {}, b''
                name, _, value = line.decode().rstrip('\n').partition(':')
                headers.setdefault(unescaped(name), unescaped(value))
            body = self.file.read(int(headers.get('content-length', 0)))
            return (command, headers, body) if self.file.read(1) else ('', {}, b'')
        except ConnectionError:
            return '', {}, b''
