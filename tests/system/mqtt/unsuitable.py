"""Checks brokers that lack what the gateway needs, and brokers that refuse it."""

import contextlib

from connections import StrictBroker, alone
from gateways import PREFIX, Gateway, Setting
from scripted_broker import packet

# The filter, the marker and the record of the owner of a gateway with the id 7 need a packet of this size.
NEEDED = 1 + 1 + 2 + len(f"{PREFIX}/%gateway-7/marker") + 2 + 1 + 37


def packet_size_property(size):
    return b"\x27" + size.to_bytes(4, "big")


def puback(published, reason=0):
    return packet(0x40, published.number + bytes([reason, 0]))


def clear_retain(published):
    published.is_retained = False
    return published.again() + puback(published)


def refuse_record(published):
    return puback(published, 0x87) if published.is_retained else None


def swallow_record(published):
    return puback(published) if published.is_retained else None


def miss_subscriber(published):
    return puback(published, 0x10)


# Brokers that no gateway can use, by what they lack: how they are made, and the text of the log.
UNSUITABLE = {
    "Retain Available 0": ([b"\x25\0"], "unsuitable: it keeps no retained messages"),
    "Maximum QoS 0": ([b"\x24\0"], "unsuitable: it accepts no publications with QoS 1"),
    "Wildcard Subscription Available 0": ([b"\x28\0"], "unsuitable: it accepts no subscriptions with wildcards"),
    "a Maximum Packet Size": ([packet_size_property(NEEDED - 1)], "unsuitable: it accepts packets of at most "
                              f"{NEEDED - 1} bytes, and the gateway sends {NEEDED}"),
    "the least Maximum Packet Size": ([packet_size_property(1)], "unsuitable: it accepts packets of at most 1 bytes"),
    "no Retain As Published": ([b"", clear_retain], "unsuitable: it clears RETAIN"),
}

# Brokers that refuse or swallow what the gateway publishes for itself.
UNWILLING = {
    "a refused record": ([b"", refuse_record], "refused the record of the owner: Not authorized"),
    "a swallowed record": ([b"", swallow_record], "the record of the owner did not come back within 10 seconds"),
    "no subscriber": ([b"", miss_subscriber], "it has lost the subscription"),
}

# Settings of mosquitto with which no gateway can use it.
UNSUITABLE_SETTINGS = {"retain_available false": "keeps no retained messages",
                       "max_qos 0": "accepts no publications with QoS 1"}


def check_unsuitable(checks, program):
    """Checks brokers that lack something: they are named once, and nothing is served."""
    with contextlib.ExitStack() as stack:
        running = {}
        for name, (how, text) in {**UNSUITABLE, **UNWILLING}.items():
            broker = stack.enter_context(StrictBroker(*how))
            running[name] = broker, alone(stack, program, broker), text
        enough = stack.enter_context(StrictBroker(packet_size_property(NEEDED)))
        checks.same("a Maximum Packet Size that is enough", alone(stack, program, enough).says("listening"), True)
        for name, (broker, gateway, text) in running.items():
            checks.same(f"{name}: {text}", gateway.says(text) or gateway.log(), True)
            checks.same(f"{name}: it tries again", len(broker.connected(3)), 3)
            checks.same(f"{name}: not listening", (gateway.process.poll(), "listening" in gateway.log()), (None, False))
            if name in UNSUITABLE:
                checks.same(f"{name}: one line", gateway.log().count("unsuitable"), 1)
    for line, text in UNSUITABLE_SETTINGS.items():
        changes = [("message_size_limit 131072", f"message_size_limit 131072\n{line}")]
        with Setting(program, 0, changes=changes) as setting:
            gateway = Gateway(program, setting.broker, setting.folder, 1)
            gateway.start(waits=False)
            setting.stack.push(gateway)
            checks.same(f"mosquitto with {line}", (gateway.says(text), "listening" in gateway.log()), (True, False))
