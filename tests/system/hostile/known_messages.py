"""The codes and messages of all peers."""

import struct

from checks import CSM, GREETING

SETTINGS, RELEASE, ABORT = 0xE1, 0xE4, 0xE5

OWN_SETTINGS = bytes.fromhex(CSM)
PEER_SETTINGS = bytes.fromhex("00e1")
GET_ROOT = bytes.fromhex("010101")
ROOT = bytes.fromhex("a14501" + GREETING)

# Pings with their numbers as tokens, and their Pongs. PINGS is the maximum number for each flood, and BURST the number
# sent at once.
PINGS = 200_000
BURST = 500
FLOOD = b"".join(b"\x04\xe2" + struct.pack(">I", it) for it in range(PINGS))
PONGS = b"".join(b"\x04\xe3" + struct.pack(">I", it) for it in range(PINGS))
ONE_PING = 6
