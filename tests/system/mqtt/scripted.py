"""Gateways whose broker is scripted or stopped, and other functions that several checks of writes need."""

import contextlib
import signal
import tempfile

from gateway_checks import FakeSetting
from gateways import GET, Gateway
from scripted_broker import TAKEN, ScriptedBroker


@contextlib.contextmanager
def scripted(program, *words, decide=lambda published: TAKEN):
    """Runs a gateway with a scripted broker. Returns both and a peer."""
    with tempfile.TemporaryDirectory(prefix="coap-mqtt-") as folder, ScriptedBroker(decide) as broker:
        with open(f"{folder}/password", "w", encoding="ascii") as file:
            file.write("x\n")
        with Gateway(program, FakeSetting(broker.port, folder), folder, 1, words) as gateway, gateway.peer() as peer:
            yield gateway, broker, peer


@contextlib.contextmanager
def stopped(broker):
    """Stops mosquitto for a while."""
    broker.process.send_signal(signal.SIGSTOP)
    try:
        yield
    finally:
        broker.process.send_signal(signal.SIGCONT)


def codes(peer, tokens):
    return [peer.wait(it).code for it in tokens]


def taken(peer):
    """Returns once the gateway has taken all requests that a peer has sent before."""
    return peer.code(GET, "time")
