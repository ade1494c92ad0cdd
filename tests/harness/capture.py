"""Decodes the traffic between two ends with tshark, with each message in its own packet."""

import contextlib
import socket
import struct
import subprocess
import tempfile
import threading

import messages
from peers import LIMIT
from checks import CSM

# tshark 4.0 interprets the options of a CSM as those of a request. There, number 2 (here Max-Message-Size) is
# undefined, and number 4 (here Block-Wise-Transfer, which libcoap 4.3 sends too) is never empty. Any other remark of
# tshark is a failure.
KNOWN_REMARKS = {
    CSM: "Invalid Option Number 2",
    "50e12380010020": "Invalid Option Number 2,Invalid Option Range: 0 (1 < x < 8)",
}

SERVER_PORT = 5683
FIRST_CLIENT_PORT = 40000
FIELDS = ["tcp.srcport", "tcp.dstport", "tcp.payload", "coap.length", "coap.code", "_ws.expert.message",
          "_ws.malformed"]


class Conversation:
    """Bytes that both ends of a connection have sent so far: for each chunk, whether the server sent it, and its
    bytes."""

    def __init__(self):
        self.pieces = []
        self.changed = threading.Condition()

    def add(self, from_server, piece):
        with self.changed:
            self.pieces.append((from_server, piece))
            self.changed.notify_all()

    def stream(self, from_server):
        """Returns all bytes that one side has sent."""
        return b"".join(piece for side, piece in self.pieces if side == from_server)

    def wait_for(self, from_server, part):
        """Waits until one side has sent these bytes, and returns true if it has."""
        with self.changed:
            return self.changed.wait_for(lambda: part in self.stream(from_server), LIMIT)

    def pump(self, source, sink, from_server):
        """Forwards and records all bytes from `source` until it ends, even if `sink` is closed."""
        # If one of them is closed or silent for too long, the checks report the missing bytes.
        with contextlib.suppress(OSError):
            while piece := source.recv(65536):
                self.add(from_server, piece)
                with contextlib.suppress(OSError):
                    sink.sendall(piece)
        with contextlib.suppress(OSError):
            sink.shutdown(socket.SHUT_WR)

    def join(self, client, server):
        """Forwards the bytes of both ends until both have ended."""
        client.settimeout(LIMIT)
        server.settimeout(LIMIT)
        upward = threading.Thread(target=self.pump, args=(client, server, False))
        upward.start()
        self.pump(server, client, True)
        upward.join()

    def messages(self):
        return messages_of(self.pieces)


def cut(stream):
    """Returns the messages of a stream, and the bytes that are left."""
    try:
        return messages.split(stream)
    except messages.Malformed:
        return [stream], b""


def messages_of(pieces):
    """Returns the sender and the bytes of each message, in the order of completion. Incomplete messages come last."""
    sent, left = [], {False: b"", True: b""}
    for from_server, piece in pieces:
        frames, left[from_server] = cut(left[from_server] + piece)
        sent += [(from_server, frame) for frame in frames]
    return sent + [(side, rest) for side, rest in left.items() if rest]


def packet(source, target, sequence, acknowledged, payload):
    """Returns a record of a capture file: IPv4 and TCP headers without checksums, and a payload."""
    tcp = struct.pack(">HHIIBBHHH", source, target, sequence, acknowledged, 5 << 4, 0x18, 65535, 0, 0)
    local = socket.inet_aton("127.0.0.1")
    size = 20 + len(tcp) + len(payload)
    ip = struct.pack(">BBHHHBBH4s4s", 0x45, 0, size, 0, 0, 64, socket.IPPROTO_TCP, 0, local, local)
    return struct.pack("<IIII", 0, 0, size, size) + ip + tcp + payload


def packets_of(client_port, sent):
    """Returns the packets of one connection, one for each message, because tshark 4.0 reads only the first in a
    packet."""
    packets, following = [], {False: 1, True: 1}
    for from_server, message in sent:
        ports = (SERVER_PORT, client_port) if from_server else (client_port, SERVER_PORT)
        packets.append(packet(*ports, following[from_server], following[not from_server], message))
        following[from_server] += len(message)
    return b"".join(packets)


def decode(conversations):
    """Returns the output of tshark: for each conversation the messages of both sides, each a dictionary of FIELDS."""
    command = ["tshark", "-d", "tcp.port==%d,coap" % SERVER_PORT, "-o", "tcp.check_checksum:FALSE", "-T", "fields"]
    for field in FIELDS:
        command += ["-e", field]
    with tempfile.NamedTemporaryFile(suffix=".pcap") as capture:
        # The header of a capture file, with link type 101: each packet begins with its IP header.
        capture.write(struct.pack("<IHHiIII", 0xA1B2C3D4, 2, 4, 0, 0, 65535, 101))
        for number, sent in enumerate(conversations):
            capture.write(packets_of(FIRST_CLIENT_PORT + number, sent))
        capture.flush()
        how = {"capture_output": True, "encoding": "utf-8", "timeout": 120, "check": True}
        done = subprocess.run(command + ["-r", capture.name], **how)
    rows = [dict(zip(FIELDS, line.split("\t"))) for line in done.stdout.splitlines()]
    ports = [str(FIRST_CLIENT_PORT + number) for number in range(len(conversations))]
    return [[row for row in rows if port in (row["tcp.srcport"], row["tcp.dstport"])] for port in ports]


def of_side(rows, from_server):
    """Returns the rows of one side."""
    return [row for row in rows if (row["tcp.srcport"] == str(SERVER_PORT)) == from_server]


def fault(row):
    """Returns the error that tshark reports for a message, or an empty text."""
    payload, remarks = row["tcp.payload"], row["_ws.expert.message"]
    if row["coap.length"] != str(len(payload) // 2):
        return "unread"
    if remarks and remarks == KNOWN_REMARKS.get(payload):
        return ""
    if row["_ws.malformed"]:
        return "malformed"
    return remarks


def faults(rows):
    return [fault(row) for row in rows if fault(row)]
