"""Brokers that are measured beside ours, where Debian's packages of them are installed: RabbitMQ with its STOMP plugin and ActiveMQ; and
NATS, mosquitto and Redis, which have protocols of their own. Each is started on ports that the system chose, on 127.0.0.1, with a directory
of its own, and stopped at the end."""

import os
import shutil
import signal
import socket
import subprocess
import tempfile
import time

from servers import Process, Stop

START_SECONDS = 240
STOP_SECONDS = 20

RABBITMQ = "/usr/lib/rabbitmq/bin/rabbitmq-server"
ACTIVEMQ = "/usr/share/activemq"
ACTIVEMQ_JAR = f"{ACTIVEMQ}/bin/activemq.jar"
# Those of Debian's /usr/share/activemq/activemq-options.
ACTIVEMQ_OPTIONS = ["-Xms512M", "-Xmx512M", "-Dorg.apache.activemq.UseDedicatedTaskRunner=true"]

# Those with protocols of their own, with nothing on disk: each one's protocol, and what starts it.
PLAIN = {
    "NATS": ("nats", ["/usr/sbin/nats-server", "-a", "127.0.0.1", "-p", "{port}"]),
    "mosquitto": ("mqtt", ["/usr/sbin/mosquitto", "-c", "{folder}/mosquitto.conf"]),
    "Redis": ("redis", ["/usr/bin/redis-server", *"--bind 127.0.0.1 --port {port} --dir {folder} --appendonly no --save".split(), ""]),
}
# Sent at once, as the others do of themselves.
MOSQUITTO_CONF = "listener {port} 127.0.0.1\nallow_anonymous true\npersistence false\nset_tcp_nodelay true\nlog_type error\n"

# Those of STOMP.
OF_STOMP = ("RabbitMQ", "ActiveMQ")

PACKAGES = {
    "RabbitMQ": "rabbitmq-server",
    "ActiveMQ": "activemq",
    "NATS": "nats-server",
    "mosquitto": "mosquitto",
    "Redis": "redis-server",
}


def free_ports(count):
    """Ports that nobody uses now."""
    sockets = [socket.create_server(("127.0.0.1", 0)) for _ in range(count)]
    ports = [it.getsockname()[1] for it in sockets]
    for it in sockets:
        it.close()
    return ports


def version_of(package):
    words = ["dpkg-query", "-W", "-f", "${Version}", package]
    return subprocess.run(words, stdout=subprocess.PIPE, stderr=subprocess.DEVNULL, text=True, check=False).stdout


class Peer(Process):
    """A broker that is running: what it is started by, after what it needs, each in a session of its own. Both end with it."""

    def __init__(self, name, needs, words, environment, program, port, protocol="stomp"):
        self.name, self.address, self.children, self.protocol = name, ("127.0.0.1", port), [], protocol
        self.folder = environment["HOME"]
        try:
            for each in (*needs, words):
                self.children.append(start(each, environment, self.folder))
            self.wait()
            super().__init__(find_process(self.children[-1].pid, program))
        except BaseException:
            self.stop()
            raise

    def wait(self):
        """Waits until it answers a CONNECT; one with a protocol of its own, until it takes a connection."""
        answers = says_connected if self.protocol == "stomp" else takes
        until = time.monotonic() + START_SECONDS
        while time.monotonic() < until and self.children[-1].poll() is None:
            if answers(self.address):
                return
            time.sleep(0.5)
        with open(os.path.join(self.folder, "output"), "rb") as output:
            raise Stop(f"bench/serve: {self.name} didn't start: {output.read()[-2000:]!r}")

    def stop(self):
        for child in reversed(self.children):
            end(child)
        shutil.rmtree(self.folder, ignore_errors=True)


def start(words, environment, folder):
    with open(os.path.join(folder, "output"), "ab") as output:
        return subprocess.Popen(
            words,
            env={**os.environ, **environment},
            cwd=folder,
            stdin=subprocess.DEVNULL,
            stdout=output,
            stderr=output,
            start_new_session=True,
        )


def end(child):
    """Ends a process with its session's others: those that are left after a while at once."""
    for how in (signal.SIGTERM, signal.SIGKILL):
        try:
            os.killpg(child.pid, how)
            child.wait(STOP_SECONDS)
        except (ProcessLookupError, subprocess.TimeoutExpired):
            pass


def takes(address):
    try:
        socket.create_connection(address, 2).close()
        return True
    except OSError:
        return False


def says_connected(address):
    try:
        with socket.create_connection(address, 2) as it:
            it.sendall(b"CONNECT\naccept-version:1.2\nhost:/\nlogin:guest\npasscode:guest\n\n\0")
            return it.recv(4096).startswith(b"CONNECTED")
    except OSError:
        return False


def find_process(session, program):
    """The process of this program in a session."""
    for number in map(int, filter(str.isdigit, os.listdir("/proc"))):
        try:
            with open(f"/proc/{number}/stat", encoding="ascii", errors="replace") as line:
                name, rest = line.read().split("(", 1)[1].rsplit(")", 1)
        except OSError:
            continue
        if name == program and int(rest.split()[3]) == session:
            return number
    raise Stop(f"bench/serve: there is no process {program}")


def start_rabbitmq():
    folder = tempfile.mkdtemp(prefix="bench_rabbitmq_")
    stomp, amqp, names, nodes = free_ports(4)
    with open(os.path.join(folder, "rabbitmq.conf"), "w", encoding="ascii") as it:
        it.write(f"listeners.tcp.1 = 127.0.0.1:{amqp}\nstomp.listeners.tcp.1 = 127.0.0.1:{stomp}\nlog.console.level = error\n")
    with open(os.path.join(folder, "enabled_plugins"), "w", encoding="ascii") as it:
        it.write("[rabbitmq_stomp].\n")
    environment = {
        "HOME": folder,
        "RABBITMQ_CONFIG_FILE": os.path.join(folder, "rabbitmq.conf"),
        "RABBITMQ_CONF_ENV_FILE": os.path.join(folder, "none"),
        "RABBITMQ_ENABLED_PLUGINS_FILE": os.path.join(folder, "enabled_plugins"),
        "RABBITMQ_MNESIA_BASE": os.path.join(folder, "mnesia"),
        "RABBITMQ_LOG_BASE": os.path.join(folder, "log"),
        "RABBITMQ_NODENAME": f"bench{stomp}@localhost",
        "RABBITMQ_DIST_PORT": str(nodes),
        "RABBITMQ_SERVER_ADDITIONAL_ERL_ARGS": "-kernel inet_dist_use_interface {127,0,0,1}",
        "ERL_EPMD_PORT": str(names),
        "ERL_EPMD_ADDRESS": "127.0.0.1",
    }
    epmd = ["epmd", "-port", str(names), "-address", "127.0.0.1"]
    return Peer("RabbitMQ", [epmd], [RABBITMQ], environment, "beam.smp", stomp)


def start_activemq():
    folder = tempfile.mkdtemp(prefix="bench_activemq_")
    (port,) = free_ports(1)
    words = ["java", *ACTIVEMQ_OPTIONS, f"-Dactivemq.home={ACTIVEMQ}", f"-Dactivemq.base={folder}", f"-Dactivemq.data={folder}"]
    # Sent at once, as RabbitMQ's listener does of itself: else small writes wait for the peer's late acknowledgement.
    broker = f"broker:(stomp://127.0.0.1:{port}?transport.tcpNoDelay=true)?persistent=false&useJmx=false&dataDirectory={folder}"
    return Peer("ActiveMQ", [], [*words, "-jar", ACTIVEMQ_JAR, "start", broker], {"HOME": folder}, "java", port)


def start_plain(name, protocol, words, before=()):
    """A broker with a protocol of its own, by these words, in which {port} and {folder} stand for its port and its directory."""
    folder = tempfile.mkdtemp(prefix=f"bench_{protocol}_")
    (port,) = free_ports(1)
    with open(os.path.join(folder, "mosquitto.conf"), "w", encoding="ascii") as it:
        it.write(MOSQUITTO_CONF.format(port=port))
    started = [*before, *(it.format(port=port, folder=folder) for it in words)]
    return Peer(name, [], started, {"HOME": folder}, os.path.basename(words[0]), port, protocol)


def installed():
    """The brokers of STOMP that are installed: their names, and what starts each."""
    if os.access(RABBITMQ, os.X_OK) and shutil.which("epmd"):
        yield "RabbitMQ", start_rabbitmq
    if os.path.exists(ACTIVEMQ_JAR) and shutil.which("java"):
        yield "ActiveMQ", start_activemq


def installed_plain():
    """Those with protocols of their own that are installed: their names, protocols, and words."""
    for name, (protocol, words) in PLAIN.items():
        if os.access(words[0], os.X_OK):
            yield name, protocol, words


def versions(names):
    """The versions of these."""
    return [f"{name} {version_of(PACKAGES[name])}" for name in names]
