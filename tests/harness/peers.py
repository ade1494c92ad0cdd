"""Helpers of the tests over sockets: free ports, servers, runs of clients, and functions that read from and end
connections."""

import contextlib
import errno
import os
import re
import resource
import select
import signal
import socket
import struct
import subprocess
import time

# Timeout of each wait, in seconds.
LIMIT = 30

LOCAL = "127.0.0.1"

# Sizes of the socket buffers of a peer that never reads, and of its packets, in bytes. With these, the system buffers
# about 100,000 bytes of Pongs, and not some millions.
ROOM = 4096
PACKET = 1460


def family_of(host):
    return socket.AF_INET6 if ":" in host else socket.AF_INET


def authority(host, port):
    """Returns a host and a port in the form of a URI."""
    return ("[%s]:%d" if ":" in host else "%s:%d") % (host, port)


# Sockets that hold the free ports until this process ends.
HELD = []


def held(host, port):
    """Returns a socket that holds a port, or a free one if `port` is 0."""
    it = socket.socket(family_of(host))
    it.setsockopt(socket.SOL_SOCKET, socket.SO_REUSEADDR, 1)
    try:
        it.bind((host, port))
    except OSError:
        it.close()
        raise
    return it


def free_port(host=LOCAL, others=()):
    """Returns a port at which no program listens, at none of these addresses. It stays so while this process runs.

    The sockets that hold it never listen, so that a program that sets SO_REUSEADDR can. A listening socket that is
    closed at once would not do. A process that another thread is starting has a copy of them until it runs its program.
    """
    while True:
        first = held(host, 0)
        port = first.getsockname()[1]
        try:
            HELD.extend([first, *(held(it, port) for it in others)])
            return port
        except OSError as trouble:
            # Another program may have this port at another address.
            first.close()
            if trouble.errno != errno.EADDRINUSE:
                raise


def accepts(port, host=LOCAL):
    """Returns true if a program accepts connections at a port."""
    with contextlib.suppress(ConnectionError), socket.create_connection((host, port), LIMIT):
        return True
    return False


def soon(look, wanted=True, seconds=2 * LIMIT):
    """Returns the last result of a look, which is repeated until it is the wanted one, for at most these seconds."""
    ends = time.monotonic() + seconds
    while (found := look()) != wanted and time.monotonic() < ends:
        time.sleep(0.01)
    return found


@contextlib.contextmanager
def closed_port():
    """Yields a port of this machine at which no program listens, and none can."""
    with socket.socket() as taken:
        taken.bind((LOCAL, 0))
        yield taken.getsockname()[1]


def line_of(stream):
    """Returns the next line that a program writes. At a timeout or at the end, returns the bytes so far with a
    remark."""
    text = b""
    while not text.endswith(b"\n"):
        if not select.select([stream], [], [], LIMIT)[0]:
            return text + b" (and no more in time)"
        byte = os.read(stream.fileno(), 1)
        if not byte:
            return text + b" (and then the end)"
        text += byte
    return text


def processor_time(process):
    """Returns the processor time of a process, in seconds."""
    with open("/proc/%d/stat" % process.pid, encoding="ascii") as file:
        fields = file.read().rpartition(")")[2].split()
    return (int(fields[11]) + int(fields[12])) / os.sysconf("SC_CLK_TCK")


def resident(process):
    """Returns the resident memory of a process, in bytes."""
    with open("/proc/%d/status" % process.pid, encoding="ascii") as file:
        return int(re.search(r"VmRSS:\s+(\d+) kB", file.read())[1]) * 1024


@contextlib.contextmanager
def started(words, **how):
    """Runs a program, with `how` for Popen, and yields its process. If the program has not ended when the block ends,
    it is killed."""
    with subprocess.Popen(words, **how) as process:
        try:
            yield process
        finally:
            process.kill()


def client(program, words, stream=b"", seconds=LIMIT, **how):
    """Runs a client, with `how` for Popen. Returns its status, its output and its error output."""
    try:
        done = subprocess.run([program, *words], input=stream, capture_output=True, timeout=seconds, **how)
        return done.returncode, done.stdout, done.stderr
    except subprocess.TimeoutExpired:
        return "no end within %d s" % seconds


class EndedByItself(Exception):
    """A server ended although nobody ended it."""


class Server:
    """A server that listens at an address of this machine until its block ends. It must take its address from -A and
    -p.

    A test that ends the server itself calls `end`. If the server ends in another way, the block ends with an exception.
    """

    def __init__(self, program, words=(), host=LOCAL, port=None, files=None, says=True, **how):
        """Starts the server, with a limit on its open files if `files` is set, and with `how` for Popen.

        `said` is the first line that the server writes to standard error, or an empty text if not `says`.
        """
        self.host, self.port = host, port or free_port(host)
        limit = (lambda: resource.setrlimit(resource.RLIMIT_NOFILE, (files, files))) if files else None
        self.process = subprocess.Popen([program, "-A", host, "-p", str(self.port), *words], stdin=subprocess.DEVNULL,
                                        stdout=subprocess.DEVNULL, stderr=subprocess.PIPE,
                                        **{"preexec_fn": limit, **how})
        self.said, self.was_ended = line_of(self.process.stderr).decode() if says else "", False

    def end(self, number=signal.SIGKILL):
        """Ends the server by a signal, and returns its status."""
        self.was_ended = True
        self.process.send_signal(number)
        return self.process.wait(LIMIT)

    def accepts(self):
        """Waits until the server accepts connections, and returns true if it does. For servers that print no line."""
        soon(lambda: self.process.poll() is not None or accepts(self.port, self.host))
        return self.process.poll() is None

    def uri(self, path="/"):
        return "coap+tcp://" + authority(self.host, self.port) + path

    def connect(self):
        return socket.create_connection((self.host, self.port), LIMIT)

    def processor_time(self):
        return processor_time(self.process)

    def __enter__(self):
        return self

    def __exit__(self, kind, *_):
        """Kills the server, unless it has ended. Another exception goes first."""
        has_ended = self.process.poll() is not None and not self.was_ended
        self.process.kill()
        self.process.wait(LIMIT)
        with self.process.stderr as said:
            text = said.read().decode(errors="replace") if has_ended else ""
        if has_ended:
            why = "the server ended by itself, with status %d: %s" % (self.process.returncode, text)
            print(why)
            if kind is None:
                raise EndedByItself(why)


def read_bytes(peer, count):
    """Returns `count` bytes of a connection, or fewer at a timeout or at its end."""
    peer.settimeout(LIMIT)
    got = b""
    with contextlib.suppress(OSError):
        while len(got) < count and (piece := peer.recv(count - len(got))):
            got += piece
    return got


def read_to_end(peer):
    """Returns all bytes of a connection, and how it ended."""
    peer.settimeout(LIMIT)
    got = b""
    try:
        while piece := peer.recv(65536):
            got += piece
    except OSError as trouble:
        return got, repr(trouble)
    return got, "the end"


def is_silent(peer, seconds=0.3):
    """Returns true if no bytes and no end arrive on a connection for this time."""
    return not select.select([peer], [], [], seconds)[0]


def reset(peer):
    """Closes a connection so that the other side receives a reset."""
    peer.setsockopt(socket.SOL_SOCKET, socket.SO_LINGER, struct.pack("ii", 1, 0))
    peer.close()
