"""Forwards the bytes between one client and a server, and records both directions."""

import contextlib
import socket
import threading

from capture import Conversation
from peers import LIMIT, authority, family_of


class RecordingRelay:
    """Listens for one client, and connects it to the server."""

    def __init__(self, host, port):
        self.server = (host, port)
        self.listener = socket.create_server((host, 0), family=family_of(host))
        self.origin = "coap+tcp://" + authority(host, self.listener.getsockname()[1])
        self.conversation = Conversation()
        self.thread = threading.Thread(target=self.take)

    def take(self):
        """Forwards bytes between the client and the server until both have ended."""
        self.listener.settimeout(LIMIT)
        # If one of them is missing, the checks report that no message was sent.
        with contextlib.suppress(OSError):
            client, _ = self.listener.accept()
            with client, socket.create_connection(self.server, LIMIT) as server:
                self.conversation.join(client, server)

    def __enter__(self):
        self.thread.start()
        return self

    def __exit__(self, *_):
        # Ends the wait for a client that never connected.
        with contextlib.suppress(OSError):
            self.listener.shutdown(socket.SHUT_RDWR)
        self.thread.join()
        self.listener.close()
