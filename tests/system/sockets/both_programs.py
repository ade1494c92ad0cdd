"""The greeting of the server, and the texts of both programs."""

from checks import CSM, GREETING
from peers import authority

# An empty CSM and a GET of the root with the token 01, and all bytes that the server sends for them.
HELLO = bytes.fromhex("00e1" "010101")
GREETED = bytes.fromhex(CSM + "a14501" + GREETING)


def listens(server):
    """Returns the line of a server that listens."""
    return "coap-server: listening on %s\n" % authority(server.host, server.port)


def explained(why):
    """Returns the last line of a client that gives the cause of its end."""
    return b"coap-client: %s\n" % why.encode()


def cannot_connect(why):
    """Returns the text of a client that cannot connect to a host, with the error of the last address."""
    return explained("cannot connect") + explained(why)


def cannot_listen(why):
    """Returns the text of a server that cannot listen, with the reason."""
    return b"coap-server: cannot listen\ncoap-server: %s\n" % why.encode()
