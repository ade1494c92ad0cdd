"""Checks the lines for events: records, scripts, times, a status, and one connection of several."""

from explained import OPTIONS, SETTINGS, explain, message


def check_record(checks):
    """A record of two connections: an observation of the time, a stored resource, a malformed message, and the ends."""
    put = message(3, b"\x2a\x2b", [(11, b"a\"\x1b"), (12, b"")], b"21.5")
    status, said, error = explain([
        "# Record of coap-server 0.1.0, format 1",
        OPTIONS,
        "# replay: coap-server --script x\x1b[31m \"\xff\"",
        "open",
        "drain 1 7",
        "in 1 " + SETTINGS.hex(),
        "in 1 " + message(1, b"\x01", [(6, b""), (11, b"time")]).hex(),
        "drain 1 19",
        "tick 1795460854",
        "drain 1 4",
        "drain 1 15",
        "open",
        "in 2 " + SETTINGS.hex() + put[:5].hex(),
        "in 2 " + put[5:].hex(),
        "drain 2 7",
        "drain 2 4",
        "in 2 00e5",
        "drop 2",
        "open",
        "in 3 " + SETTINGS.hex() + "1001f0",
        "drain 3 21",
        "in 1 4e",
        "end 1",
        "end 3",
        "drop 1",
        "drop 3",
    ])
    checks.same("status of a record", (status, error), (0, ""))
    checks.same("output of a record", said.splitlines(), [
        "# Record of coap-server 0.1.0, format 1",
        OPTIONS,
        "# replay: coap-server --script x\\x1b[31m \\x22\\xff\\x22",
        "        time 1795460853 (2026-11-23T19:07:33Z)",
        "     1  opened",
        "     1  ->  7.01 CSM Max-Message-Size=1152 Extended-Token-Length=64",
        "     1  <-  7.01 CSM",
        "     1  <-  0.01 GET token 01 Observe=0 Uri-Path=\"time\"",
        "     1  ->  2.05 Content token 01 Observe=0 Content-Format=0 (text/plain) Max-Age=1 payload \"1795460853\"",
        "        time 1795460854 (2026-11-23T19:07:34Z)",
        "     1  ->  unfinished message, bytes so far: 4",
        "     1  ->  2.05 Content token 01 Observe=0 Content-Format=0 (text/plain) Max-Age=1 payload \"1795460854\"",
        "     2  opened",
        "     2  <-  7.01 CSM",
        "     2  <-  unfinished message, bytes so far: 5",
        "     2  <-  0.03 PUT token 2a2b Uri-Path=\"a\\x22\\x1b\" Content-Format=0 (text/plain) payload \"21.5\"",
        "     2  ->  7.01 CSM Max-Message-Size=1152 Extended-Token-Length=64",
        "     2  ->  2.01 Created token 2a2b",
        "     2  <-  7.05 Abort",
        "     2  stopped: Abort by the peer",
        "     2  dropped: 3 messages, 18 bytes in; 2 messages, 11 bytes out",
        "     3  opened",
        "     3  <-  7.01 CSM",
        "     3  <-  malformed message",
        "     3  stopped: malformed message",
        "     3  ->  7.01 CSM Max-Message-Size=1152 Extended-Token-Length=64",
        "     3  ->  7.05 Abort payload \"bad message\"",
        "     1  <-  unfinished message, bytes so far: 1",
        "     1  input ended within a message",
        "     3  input ended",
        "     1  dropped: 2 messages, 12 bytes in; 3 messages, 45 bytes out",
        "     3  dropped: 2 messages, 5 bytes in; 2 messages, 21 bytes out",
    ])


def check_scripts(checks):
    """The events of a script that no recorder writes: those that fail, and those of a program that embeds the
    server."""
    status, said, error = explain([
        "# options: -d 1 --connections 1",
        "put /a/b%20c 0 32312e35", "put /a/b%20c - 00ff", "put /d - -", "put /time - -", "remove /a/b%20c", "remove /a",
        "open", "open", "drain 1 100", "drain 1", "status 1", "in 1 00e1", "respond 1 01412a", "respond 1 0141",
        "release 1", "in 1 0001", "status 1",
        "in 123456 00", "drain 1234567 5", "end 2", "release 2", "respond 2 01412a", "drop 2", "status 2", "tick 9",
        "tick 8",
        "# options: --nothing", "", "#\xff",
    ])
    checks.same("status of a script", (status, error), (0, ""))
    checks.same("output of a script", said.splitlines(), [
        "# options: -d 1 --connections 1",
        "        put /a/b%20c Content-Format=0 (text/plain) payload \"21.5\"",
        "        put /a/b%20c payload 00ff",
        "        put fault 3",
        "        put fault 4",
        "        removed /a/b%20c",
        "        remove fault 1",
        "     1  opened",
        "        open fault 1",
        "     1  ->  7.01 CSM Max-Message-Size=65536 Extended-Token-Length=64",
        "     1  ->  bytes queued: 8 of 100",
        "     1  ->  no bytes",
        "     1  status 1 waiting kept 0 waiting 0 pending 0 observers 0",
        "     1  <-  7.01 CSM",
        "     1  respond 1 fault 2",
        "     1  respond 1 fault 3",
        "     1  released",
        "     1  <-  bytes accepted: 0 of 2",
        "     1  status 1 stopped 13 kept 0 waiting 2 pending 0 observers 0",
        "123456  in 123456 fault 1",
        "1234567  drain 1234567 fault 1",
        "     2  end 2 fault 1",
        "     2  release 2 fault 1",
        "     2  respond 2 fault 1",
        "     2  drop 2 fault 1",
        "     2  status 2 fault 1",
        "        time 9 (1970-01-01T00:00:09Z)",
        "        tick fault 1",
        "# options: --nothing",
        "",
        "#\\xff",
    ])


def check_times(checks):
    """The time at the start is that of the options. A time after the year 9999 has no date."""
    for number, wanted in ((253_402_300_799, " (9999-12-31T23:59:59Z)"), (253_402_300_800, ""), (2**64 - 1, "")):
        _, said, _ = explain(["# options: --starts %d,0,0" % number, "open"])
        checks.same("time %d at the start" % number, said.splitlines()[1], "        time %d%s" % (number, wanted))
        _, said, _ = explain(["tick %d" % number])
        checks.same("time %d" % number, said, "        time %d%s\n" % (number, wanted))


def check_start(checks):
    """A server that starts at second 1 has a first line, and one that starts at second 0 has none."""
    for options, wanted in (("# options: --starts 1,0,0", ["        time 1 (1970-01-01T00:00:01Z)"]),
                            ("# options: --starts 0,0,0", [])):
        status, said, error = explain([options, "open"])
        checks.same("lines of %r" % options, (status, said.splitlines(), error),
                    (0, [options, *wanted, "     1  opened"], ""))


def check_status(checks):
    """The line of a status has each number in its place: kept bytes, queued bytes, pending requests, observers."""
    delayed = [message(1, bytes([it]), [(11, b"async"), (15, b"9")]).hex() for it in range(3)]
    observe, ping, unfinished = message(1, b"\x09", [(6, b""), (11, b"time")]).hex(), message(0xE2).hex(), "40014161"
    record = ["open", *["in 1 " + it for it in (SETTINGS.hex(), *delayed, observe)], "drain 1", "in 1 " + ping,
              "in 1 " + unfinished, "status 1"]
    status, said, error = explain(record)
    checks.same("status of a script with a status", (status, error), (0, ""))
    checks.same("line of a status", said.splitlines()[-1:],
                ["     1  status 1 open kept 4 waiting 2 pending 3 observers 1"])


def check_connection(checks):
    """With `--connection`, only the lines of this connection are printed, and the time if it has changed."""
    record = ["# options: --starts 59,0,0", "# a comment", "open", "open", "tick 60", "in 1 00e1", "in 2 00e1",
              "tick 61", "tick 62",
              "drain 1", "put /a - -", "in 2 0001", "drain 2", "drop 1", "drop 2", "tick 63", "in 7 00"]
    wanted = [
        "        time 59 (1970-01-01T00:00:59Z)",
        "     2  opened",
        "        time 60 (1970-01-01T00:01:00Z)",
        "     2  <-  7.01 CSM",
        "        time 62 (1970-01-01T00:01:02Z)",
        "     2  <-  0.01 GET",
        "     2  ->  7.01 CSM Max-Message-Size=65536 Extended-Token-Length=64",
        "     2  ->  2.05 Content Content-Format=0 (text/plain) payload \"coap+tcp\"",
        "     2  dropped: 2 messages, 4 bytes in; 2 messages, 20 bytes out",
    ]
    status, said, error = explain(record, "--connection", "2")
    checks.same("one connection", (status, said.splitlines(), error), (0, wanted, ""))
    status, said, error = explain(record, "--connection=18446744073709551615")
    checks.same("a connection without lines", (status, said, error), (0, "", ""))
