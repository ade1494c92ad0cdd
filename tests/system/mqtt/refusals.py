"""Checks publications that the broker refuses."""

import tempfile
import time

from gateways import (
    BAD_REQUEST, CHANGED, CREATED, DELETE, FORBIDDEN, INTERNAL, POST, PREFIX, PUT, UNAVAILABLE, Broker, Gateway,
    soon,
)
from scripted import scripted
from scripted_broker import TAKEN

REFUSALS = {0x80: INTERNAL, 0x83: INTERNAL, 0x87: FORBIDDEN, 0x90: BAD_REQUEST, 0x91: INTERNAL, 0x97: UNAVAILABLE,
            0x99: INTERNAL}


def check_reasons(checks, program):
    """Checks the response to each reason for which a broker can refuse a publication."""
    def decide(published):
        return (int(published.payload), False) if published.payload.isdigit() else TAKEN

    with scripted(program, decide=decide) as (gateway, broker, peer):
        for reason, code in REFUSALS.items():
            found = [peer.code(method, f"{PREFIX}/{reason}", payload=b"%d" % reason) for method in (PUT, POST)]
            checks.same(f"reason 0x{reason:02X}", found, 2 * [code])
            said = [f"refused a publication: 0x{reason:02X}: {PREFIX}/{reason}" in gateway.log(),
                    len([it for it in broker.published if it.topic.endswith(f"/{reason}")])]
            checks.same(f"the log, and publications with reason 0x{reason:02X}", said,
                        [True, 1 if reason == 0x87 else 2])
        checks.same("a topic that was not allowed", peer.code(DELETE, f"{PREFIX}/{0x87}"), FORBIDDEN)
        checks.same("another topic", peer.code(PUT, f"{PREFIX}/a", payload=b"a"), CREATED)
        checks.same("one connection", (broker.connections, len(broker.subscribed)), (1, 1))
        token = peer.send(PUT, f"{PREFIX}/b", payload=b"%d" % 0x10)
        checks.same("0x10: no subscriber", gateway.says("it has lost the subscription"), True)
        checks.same("the gateway connects again", gateway.says("connected again: 2 resources, 1 new"), True)
        checks.same("the retained message is the echo", (peer.wait(token).code, broker.connections), (CREATED, 2))


def check_many_refusals(checks, program):
    """Checks that 256 topics are remembered which the broker does not allow."""
    def decide(published):
        return TAKEN if published.topic == f"{PREFIX}/a" else (0x87, False)

    with scripted(program, decide=decide) as (_, broker, peer):
        checks.same("257 topics", {peer.code(PUT, f"{PREFIX}/n{at}", payload=b"1") for at in range(257)}, {FORBIDDEN})
        checks.same("they are published", len(broker.published), 257)
        checks.same("all but the first again",
                    {peer.code(PUT, f"{PREFIX}/n{at}", payload=b"1") for at in range(1, 257)}, {FORBIDDEN})
        checks.same("they are not published", len(broker.published), 257)
        checks.same("the first one again", (peer.code(PUT, f"{PREFIX}/n0", payload=b"1"), len(broker.published)),
                    (FORBIDDEN, 258))


def check_lost_by_refusals(checks, program):
    """Checks that a peer cannot hold the gateway off mosquitto, which ends a connection after a refusal."""
    with tempfile.TemporaryDirectory(prefix="coap-mqtt-") as folder:
        broker = Broker(folder)
        with open(f"{folder}/acl", "a", encoding="ascii") as file:
            file.write("".join(f"topic deny {PREFIX}/no{at}\n" for at in range(3)))
        with broker, Gateway(program, broker, folder, 1) as gateway, gateway.peer() as peer:
            checks.same("a resource", peer.code(PUT, f"{PREFIX}/a", payload=b"1"), CREATED)
            began = time.monotonic()
            for at in range(3):
                checks.same(f"refused topic {at}", peer.code(PUT, f"{PREFIX}/no{at}", payload=b"1"), FORBIDDEN)
                checks.same(f"the gateway connects again after {at}", gateway.says("connected again", at + 1), True)
                checks.same(f"topic {at} is refused at once",
                            [peer.code(it, f"{PREFIX}/no{at}", payload=b"1") for it in (PUT, POST, DELETE)],
                            3 * [FORBIDDEN])
            checks.same("it is logged", gateway.says("lost 3 connections by refusals within a minute"), True)
            found = [peer.code(it, f"{PREFIX}/b", payload=b"1") for it in (PUT, POST, DELETE)]
            checks.same("paths that have no resource", found, 3 * [UNAVAILABLE])
            checks.same("a path that has one",
                        [peer.code(PUT, f"{PREFIX}/a", payload=b"2"), peer.get(f"{PREFIX}/a")[1]], [CHANGED, b"2"])
            checks.same("the connections", gateway.log().count("refused a publication"), 3)
            checks.same("after a minute", soon(lambda: peer.code(PUT, f"{PREFIX}/b", payload=b"1"), CREATED, 70),
                        CREATED)
            checks.same("not before", time.monotonic() - began > 58, True)
            checks.same("a refused topic is tried again", peer.code(PUT, f"{PREFIX}/no0", payload=b"1"), FORBIDDEN)
            checks.same("it is refused again", gateway.says("refused a publication", 4), True)
