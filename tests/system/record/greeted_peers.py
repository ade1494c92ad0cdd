"""Codes and options of the requests of peers, and a peer that is greeted."""

import socket

from checks import CSM, GREETING
from peers import read_to_end

# Codes and options.
GET, PUT, DELETE, PING = 0x01, 0x03, 0x04, 0xE2
IF_MATCH, CUSTODY, IF_NONE_MATCH, OBSERVE, OSCORE = 1, 2, 5, 6, 9
CONTENT_FORMAT, URI_QUERY, ACCEPT = 12, 15, 17

PEER_SETTINGS, GET_ROOT = bytes.fromhex("00e1"), bytes.fromhex("010101")

# The bytes that a server with default options sends for these two.
GREETED = bytes.fromhex(CSM + "a14501" + GREETING)


def ask(server):
    """Opens a connection, requests the root and ends the connection. Returns true if the response is right."""
    with server.connect() as peer:
        peer.sendall(PEER_SETTINGS + GET_ROOT)
        peer.shutdown(socket.SHUT_WR)
        return read_to_end(peer) == (GREETED, "the end")
