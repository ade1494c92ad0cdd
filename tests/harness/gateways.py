"""Starts gateways to MQTT and their broker, and sends requests to them."""

import collections
import contextlib
import os
import select
import signal
import socket
import subprocess
import tempfile
import threading
import time

import messages
import proxies
from checks import CSM
from message_syntax import requested, uint
from peers import LOCAL, accepts, free_port, soon, started
from workspace import ROOT

CONFIGURATION = os.path.join(ROOT, "install", "mosquitto.conf")

# Seconds that a step may take, and within which a change reaches the other gateway.
LIMIT, SOON = 60, 1

GET, POST, PUT, DELETE = 1, 2, 3, 4
CREATED, DELETED, VALID, CHANGED, CONTENT = 0x41, 0x42, 0x43, 0x44, 0x45
BAD_REQUEST, BAD_OPTION, FORBIDDEN, NOT_FOUND, NOT_ALLOWED, NOT_ACCEPTABLE = 0x80, 0x82, 0x83, 0x84, 0x85, 0x86
PRECONDITION, TOO_LARGE = 0x8C, 0x8D
INTERNAL, UNAVAILABLE, TIMEOUT = 0xA0, 0xA3, 0xA4

IF_MATCH, ETAG, IF_NONE_MATCH, OBSERVE, LOCATION_PATH, URI_PATH, FORMAT, URI_QUERY = 1, 4, 5, 6, 8, 11, 12, 15
SIZE1 = 60

USER, PASSWORD, PREFIX = "gateways", "a password", "shared"

# The broker refuses publications on the first topic. The second one is not shared.
DENIED, END = f"{PREFIX}/denied", "end"


def encode(code, token, options=(), payload=b""):
    """Returns a message. `options` are pairs of number and value."""
    return requested(code, token, [], options, payload)


Response = collections.namedtuple("Response", ["code", "payload", "options"])


class Peer:
    """A CoAP peer. Its requests have tokens 1, 2, ..., and notifications are kept by token."""

    def __init__(self, port, source=LOCAL, context=None):
        self.socket = socket.create_connection((LOCAL, port), LIMIT, source_address=(source, 0))
        self.socket.setsockopt(socket.IPPROTO_TCP, socket.TCP_NODELAY, 1)
        if context:
            self.socket = context.wrap_socket(self.socket, server_hostname=LOCAL)
        self.left, self.token, self.received = b"", 0, collections.defaultdict(collections.deque)
        # A Max-Message-Size that is enough for each response.
        self.socket.sendall(bytes.fromhex(CSM))

    def __enter__(self):
        return self

    def __exit__(self, *_):
        self.socket.close()

    def send(self, code, path, options=(), payload=b"", form=None):
        """Sends a request, and returns its token."""
        self.token += 1
        token = self.token.to_bytes(4, "big")
        segments = path.split("/") if isinstance(path, str) else path
        options = [*options, *((URI_PATH, it.encode() if isinstance(it, str) else it) for it in segments)]
        options += [(FORMAT, uint(form))] if form is not None else []
        self.socket.sendall(encode(code, token, options, payload))
        return token

    def read(self, seconds):
        """Reads the bytes that arrive within this time. Returns false at a timeout, and raises at the end of the
        connection."""
        is_ready = hasattr(self.socket, "pending") and self.socket.pending()
        if not is_ready and not select.select([self.socket], [], [], max(seconds, 0))[0]:
            return False
        piece = self.socket.recv(65536)
        if not piece:
            raise ConnectionError("the gateway ended the connection")
        frames, self.left = messages.split(self.left + piece)
        for frame in frames:
            code, token, options, payload = messages.parse(frame)
            self.received[token].append(Response(code, payload, options))
        return True

    def wait(self, token, seconds=LIMIT):
        """Returns the next response with a token, or None at a timeout."""
        ends = time.monotonic() + seconds
        while not self.received[token]:
            if not self.read(ends - time.monotonic()):
                return None
        return self.received[token].popleft()

    def ask(self, *words, seconds=LIMIT, **more):
        return self.wait(self.send(*words, **more), seconds)

    def code(self, *words, **more):
        response = self.ask(*words, **more)
        return response and response.code

    def get(self, path):
        """Returns the code, the payload and the Content-Format of a resource."""
        response = self.ask(GET, path)
        return response and (response.code, response.payload, format_of(response))


def option_of(response, option):
    return next((value for at, value in response.options if at == option), None)


def format_of(response):
    value = option_of(response, FORMAT)
    return None if value is None else int.from_bytes(value, "big")


class Faults(threading.local):
    """Gateways and brokers of this thread that ended by themselves, and gateways that did not end with status 0. Each
    has the end of its log."""

    def __init__(self):
        self.found = []


FAULTS = Faults()


class Watched:
    """A program that a test starts and ends, with a log. An end that no test asked for is noted in FAULTS."""

    process, was_ended = None, False

    def begin(self, words, **how):
        self.process, self.was_ended = subprocess.Popen(words, stdin=subprocess.DEVNULL, **how), False

    def note_end(self):
        """Notes the end of the program, if it has ended by itself. It may end from now on."""
        if self.process.poll() is not None and not self.was_ended:
            FAULTS.found.append((self.process.returncode, self.log()[-3000:]))
        self.was_ended = True

    def kill(self):
        """Kills the program. Notes its end if it ends by itself before."""
        if self.process.poll() is None:
            self.process.kill()
            self.was_ended |= self.process.wait(LIMIT) == -signal.SIGKILL
        self.note_end()

    def ended(self):
        """Waits until the program has ended by itself, as the test expects, and returns its status."""
        self.was_ended = True
        return self.process.wait(LIMIT)


class Broker(Watched):
    """mosquitto, with the installed configuration."""

    def __init__(self, folder, changes=()):
        self.folder, self.port, self.changes = folder, free_port(), list(changes)
        os.makedirs(f"{folder}/kept", exist_ok=True)
        subprocess.run(["mosquitto_passwd", "-b", "-c", f"{folder}/passwd", USER, PASSWORD], check=True,
                       capture_output=True, timeout=LIMIT)
        with open(f"{folder}/acl", "w", encoding="ascii") as file:
            file.write(f"user {USER}\ntopic deny {DENIED}\ntopic readwrite {PREFIX}/#\ntopic readwrite {END}\n")
        with open(f"{folder}/password", "w", encoding="ascii") as file:
            file.write(f"{PASSWORD}\n")

    def __enter__(self):
        self.start()
        return self

    def __exit__(self, *_):
        self.kill()

    def configure(self):
        with open(CONFIGURATION, encoding="utf-8") as file:
            text = file.read()
        replaced = [("listener 1883 127.0.0.1", f"listener {self.port} {LOCAL}"),
                    ("/var/lib/mosquitto/", f"{self.folder}/kept/"),
                    ("/etc/mosquitto/gateways.passwd", f"{self.folder}/passwd"),
                    ("/etc/mosquitto/gateways.acl", f"{self.folder}/acl"), *self.changes]
        for old, new in replaced:
            if text.count(old) != 1:
                raise LookupError(f"{old!r} occurs {text.count(old)} times in the configuration")
            text = text.replace(old, new)
        with open(f"{self.folder}/mosquitto.conf", "w", encoding="utf-8") as file:
            # mosquitto that is started by root changes to a user of its own, who cannot read the folder.
            file.write(text + ("user root\n" if os.geteuid() == 0 else ""))

    def start(self):
        self.configure()
        with open(f"{self.folder}/mosquitto.log", "ab") as log:
            self.begin(["mosquitto", "-c", f"{self.folder}/mosquitto.conf"], stdout=log, stderr=log)
        if not soon(lambda: accepts(self.port)) or self.process.poll() is not None:
            raise OSError("the broker does not listen: %s" % self.log())

    def log(self):
        with open(f"{self.folder}/mosquitto.log", encoding="utf-8", errors="replace") as log:
            return log.read()

    def words(self):
        return ["-h", LOCAL, "-p", str(self.port), "-V", "5", "-u", USER, "-P", PASSWORD]

    def reply(self, topic, payload, *words, retain=True):
        """Publishes a message as another program would. Returns the status of mosquitto_pub, and its errors."""
        line = ["mosquitto_pub", *self.words(), "-q", "1", "-t", topic, *(["-r"] if retain else []), *words]
        line += ["-n"] if payload == b"" else ["-s"]
        done = subprocess.run(line, input=payload, capture_output=True, timeout=LIMIT)
        return done.returncode, done.stderr.decode()

    def publish(self, *message, **more):
        """Publishes a message as another program would. Raises if the broker does not accept it."""
        # After a refusal, the status is 0 too.
        if (reply := self.reply(*message, **more)) != (0, ""):
            raise OSError(f"a message is not published: {reply}")

    def saved(self, payload):
        """Waits until the broker has saved a message with these bytes, and returns true if it has."""
        return soon(lambda: payload in read_file(f"{self.folder}/kept/mosquitto.db"), True)

    def retained(self):
        """Returns the payload of each retained message of a resource, by topic."""
        # The broker sends the retained messages of the second topic after those of the first one.
        self.publish(END, b"end")
        line = ["mosquitto_sub", *self.words(), "-q", "1", "-t", f"{PREFIX}/#", "-t", END, "-F", "%t %x", "-W",
                str(LIMIT)]
        found = {}
        with started(line, stdin=subprocess.DEVNULL, stdout=subprocess.PIPE, stderr=subprocess.DEVNULL) as reader:
            for topic, _, payload in (it.rstrip(b"\n").rpartition(b" ") for it in reader.stdout):
                if topic == END.encode():
                    reader.kill()
                    return {topic: bytes.fromhex(payload) for topic, payload in found.items()
                            if payload and "/%gateway-" not in topic}
                found[topic.decode()] = payload.decode()
        raise OSError("the broker does not send its retained messages")


def read_file(name):
    """Returns the bytes of a file. A missing one has none."""
    with contextlib.suppress(FileNotFoundError), open(name, "rb") as file:
        return file.read()
    return b""


class Gateway(Watched):
    """A gateway. Its log is in a file."""

    def __init__(self, program, broker, folder, gateway=0, words=(), before=()):
        self.broker = broker
        self.line = [*before, program, "-A", LOCAL, "--broker-port", str(broker.port), "--username", USER,
                     "--password-file", f"{broker.folder}/password"]
        self.gateway, self.words, self.folder, self.port = gateway, list(words), folder, free_port()
        self.name = f"{folder}/gateway-{gateway}.log"

    def __enter__(self):
        self.start()
        return self

    def __exit__(self, *_):
        """Ends the gateway, unless the test did. Sanitizers and valgrind report by its status."""
        if self.process.poll() is None and self.stop() != 0:
            FAULTS.found.append((self.process.returncode, self.log()[-3000:]))
        self.note_end()

    def start(self, waits=True):
        open(self.name, "wb").close()
        words = [*self.line, "-p", str(self.port), "--id", str(self.gateway), "--log", "2", *self.words]
        with open(self.name, "ab") as log:
            self.begin(words, stdout=subprocess.DEVNULL, stderr=log)
        if waits and not self.says("listening on"):
            self.kill()
            raise OSError("the gateway does not listen: %s" % self.log())

    def log(self):
        with open(self.name, encoding="utf-8", errors="replace") as file:
            return file.read()

    def says(self, text, count=1, seconds=LIMIT):
        """Waits until the log has a text, `count` times."""
        ends = time.monotonic() + seconds
        while self.log().count(text) < count:
            if time.monotonic() > ends or self.process.poll() is not None:
                return self.log().count(text) >= count
            time.sleep(0.02)
        return True

    def stop(self):
        """Ends the gateway by SIGTERM, and returns its status."""
        self.note_end()
        self.process.terminate()
        try:
            return self.process.wait(LIMIT)
        except subprocess.TimeoutExpired:
            self.kill()
            return "killed"

    def peer(self):
        return Peer(self.port)


class GatewayFront(proxies.Front):
    """HAProxy with TLS in front of two gateways."""

    def __init__(self, program, broker, folder):
        super().__init__(program, folder, ("one", "two"), [], proxies.QUICK_CHECKS)
        self.broker = broker

    def gateway(self, name, broker):
        """Returns the gateway with this name, which is not started."""
        made = Gateway(self.server, broker, self.folder, list(self.ports).index(name) + 1)
        made.port = self.ports[name]
        return made

    def reach(self, source):
        """Returns a peer with this address, after its TLS handshake."""
        return Peer(self.port, source, proxies.context(self.folder, proxies.Kind(source)))

    def gateway_of(self, source):
        """Returns the id of the gateway that serves a peer with this address: the first bytes of its ETags."""
        with contextlib.suppress(OSError), self.reach(source) as peer:
            return int.from_bytes(option_of(peer.ask(GET, f"{PREFIX}/probe"), ETAG), "big") >> 48
        return None

    def sources(self):
        """Returns an address of peers for each gateway, by its id."""
        found = {}
        for source in ("127.0.0.%d" % at for at in range(10, 200)):
            found.setdefault(self.gateway_of(source), source)
            if {1, 2} <= found.keys():
                break
        return found


class Setting:
    """A broker and gateways with ids from 1 on."""

    def __init__(self, program, gateways=2, words=(), before=(), changes=()):
        self.program, self.count, self.words, self.before, self.changes = program, gateways, words, before, changes
        self.stack, self.gateways, self.broker, self.folder = contextlib.ExitStack(), [], None, None

    def __enter__(self):
        with contextlib.ExitStack() as stack:
            self.folder = stack.enter_context(tempfile.TemporaryDirectory(prefix="coap-mqtt-"))
            self.broker = stack.enter_context(Broker(self.folder, self.changes))
            for at in range(self.count):
                made = Gateway(self.program, self.broker, self.folder, at + 1, self.words, self.before)
                self.gateways.append(stack.enter_context(made))
            self.stack = stack.pop_all()
        return self

    def __exit__(self, *_):
        self.stack.close()

    def peers(self):
        return [self.stack.enter_context(it.peer()) for it in self.gateways]
