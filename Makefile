# Proves, builds, runs, tests and measures. Requires Rattle's toolchain (`rt`) and Python 3. `make test` installs
# Debian's dpkg-dev, fish, g++, gcc, haproxy, libc6-dev, libcoap3-bin, libcoap3-dev, libmosquitto-dev, lintian, mandoc,
# mosquitto, mosquitto-clients, openssl, pkg-config, prometheus, socat, systemd, tshark, valgrind and zsh, if they are
# missing. `make bench` installs gcc, gnuplot-nox, haproxy, libc6-dev, libcoap3-bin and valgrind. `make lib` needs
# binutils, `make gateway` gcc and libmosquitto-dev too, and `make deb` dpkg-dev too.

# Only one build of proofs runs at a time, also with -j: each uses all processors itself.
.NOTPARALLEL:

.PHONY: all lib gateway run check test mutants faults bench try install install-lib install-gateway uninstall deb clean

# Prefix under which `make install` puts the programs, their manuals, the systemd unit and the configuration of HAProxy.
# DESTDIR is put before the prefix, for packaging.
PREFIX ?= /usr/local
DESTDIR ?=

# Programs of `make all`.
PROGRAMS = coap-server coap-client coap-explain coap-directory

# Proves every crate and builds the programs.
all: $(PROGRAMS:%=bin/%)

SOURCES := $(shell find crates -name out -prune -o -type f -print) crates.txt

bin/coap-server bin/coap-client &: $(SOURCES)
	tests/build program_server program_client

bin/coap-explain bin/coap-directory &: $(SOURCES)
	tests/build program_explain program_directory

# Proves the C library and builds its archive.
lib: bin/libdachreup.a

bin/libdachreup.a: $(SOURCES) install/library/build install/library/allocator.c
	tests/build c_api
	install/library/build crates/c_api/out/libc_api.a bin

# Builds the gateway to MQTT: C over the library and libmosquitto. The C is tested, not proved.
gateway: bin/coap-mqtt

# The variables of a distribution come last, and may have a value of _FORTIFY_SOURCE themselves.
FORTIFY = $(if $(findstring _FORTIFY_SOURCE,$(CPPFLAGS) $(CFLAGS)),,-D_FORTIFY_SOURCE=2)

GATEWAY_FLAGS = -std=c11 -D_GNU_SOURCE -O2 -Wall -Wextra -fPIE -fstack-protector-strong -fstack-clash-protection \
    $(FORTIFY)

bin/coap-mqtt: $(wildcard gateway/mqtt/*.c gateway/mqtt/*.h) include/dachreup.h VERSION bin/libdachreup.a
	$(CC) $(GATEWAY_FLAGS) $(CPPFLAGS) $(CFLAGS) -DCOAP_MQTT_VERSION='"'$$(cat VERSION)'"' -Iinclude gateway/mqtt/*.c \
	    bin/libdachreup.a -pie -Wl,-z,relro,-z,now,-z,noexecstack $(LDFLAGS) -lmosquitto -o $@

# Runs the server on short recorded streams, and prints the meaning of each message. If the program is not built yet,
# the same source runs unproved while the proofs begin. At the end, the program that they build runs.
run:
	@$(MAKE) --silent --question bin/coap-server || { \
	    python3 tests/vectors/demo.py --try & tried=$$!; \
	    $(MAKE) --silent bin/coap-server; built=$$?; \
	    wait $$tried && exit $$built; exit 1; }
	@python3 tests/vectors/demo.py bin/coap-server

# UNPROVED: builds all programs without proofs, in bin/unproved, and runs all rows and most tests on them, in minutes.
# Its success shows less than that of the gate.
check:
	tests/check

# Runs the gate: all proofs and programs from scratch, all rows and tests, and mutants of crates that differ from their
# last run.
test:
	tests/gate

# Tries all mutants, or those of some crates: make mutants CRATES="coap_conn coap_wire". Writes tests/mutants/last_runs.
mutants:
	tests/mutants/mutants.py --all $(CRATES)

# Tests that take too long for the gate: all 16,777,216 streams of three bytes, of which the gate plays a quarter, in
# some minutes on all processors. Then 200,000 writes through two gateways to MQTT, in eight minutes.
faults: bin/coap-server bin/coap-mqtt
	tests/vectors/bytes.py bin/coap-server --all
	tests/system/mqtt_soak.py bin/coap-mqtt

# Measures the server and libcoap's, then the server with a record, behind HAProxy, and with observers that do not read.
# Then counts instructions, copies and memory, and the instructions of the resource directory. Measures changes through
# two gateways to MQTT, beside mosquitto. Draws the new figures in docs/pictures. Fails if a target is missed.
bench: bin/coap-server bin/coap-directory bin/libdachreup.a bin/coap-mqtt
	tests/build test_rows
	bench/throughput; missed=$$?; bench/record || missed=1; bench/front || missed=1; bench/gateway || missed=1; \
	tests/system/flood.py bin/coap-server observers || missed=1; \
	bench/asymptotics || missed=1; bench/directory || missed=1; bench/instructions && exit $$missed

# UNPROVED: runs the source on the recorded streams before any proof, in about a minute, for work in progress.
try:
	python3 tests/vectors/demo.py --try

# Installs the output of `make all`, and completions of bash, zsh and fish. Builds nothing in this folder, so that
# another user can run it.
install:
	@for name in $(PROGRAMS); do test -x bin/$$name || \
	    { echo "Run 'make all' first: bin/ does not have all programs." >&2; exit 1; }; done
	install -D -m 0755 -t "$(DESTDIR)$(PREFIX)/bin" $(PROGRAMS:%=bin/%)
	install -D -m 0644 -t "$(DESTDIR)$(PREFIX)/share/man/man1" $(PROGRAMS:%=man/%.1)
	install -D -m 0644 -t "$(DESTDIR)$(PREFIX)/share/man/man7" man/dachreup.7
	install/completions.py "$(DESTDIR)$(PREFIX)/share" $(PROGRAMS)
	install -D -m 0644 install/coap-server.service.in "$(DESTDIR)$(PREFIX)/lib/systemd/system/coap-server.service"
	sed -i 's|@PREFIX@|$(PREFIX)|g' "$(DESTDIR)$(PREFIX)/lib/systemd/system/coap-server.service"
	install -D -m 0644 -t "$(DESTDIR)$(PREFIX)/share/doc/coap-server/examples" install/haproxy.cfg
	@if [ -e bin/libdachreup.a ]; then $(MAKE) --silent --no-print-directory install-lib; fi
	@if [ -e bin/coap-mqtt ]; then $(MAKE) --silent --no-print-directory install-gateway; fi

# Installs the output of `make lib`. `make install` does so too, if it exists.
install-lib:
	install -D -m 0644 -t "$(DESTDIR)$(PREFIX)/lib" bin/libdachreup.a
	install -D -m 0644 -t "$(DESTDIR)$(PREFIX)/include" include/dachreup.h
	install -D -m 0644 -t "$(DESTDIR)$(PREFIX)/share/man/man3" man/dachreup.3
	install -D -m 0644 install/library/dachreup.pc.in "$(DESTDIR)$(PREFIX)/lib/pkgconfig/dachreup.pc"
	sed -i -e 's|@PREFIX@|$(PREFIX)|g' -e 's|@LIBDIR@|lib|g' -e "s|@VERSION@|$$(cat VERSION)|g" \
	    "$(DESTDIR)$(PREFIX)/lib/pkgconfig/dachreup.pc"

# Installs the output of `make gateway`. `make install` does so too, if it exists.
install-gateway:
	install -D -m 0755 -t "$(DESTDIR)$(PREFIX)/bin" bin/coap-mqtt
	install -D -m 0644 -t "$(DESTDIR)$(PREFIX)/share/man/man1" man/coap-mqtt.1
	install/completions.py "$(DESTDIR)$(PREFIX)/share" coap-mqtt
	install -D -m 0644 install/coap-mqtt.service.in "$(DESTDIR)$(PREFIX)/lib/systemd/system/coap-mqtt@.service"
	sed -i 's|@PREFIX@|$(PREFIX)|g' "$(DESTDIR)$(PREFIX)/lib/systemd/system/coap-mqtt@.service"
	install -D -m 0644 -t "$(DESTDIR)$(PREFIX)/share/doc/coap-mqtt/examples" install/mosquitto.conf

# Removes the files that `make install` installed, and leaves the directories.
uninstall:
	for name in $(PROGRAMS) coap-mqtt; do \
	    rm -f "$(DESTDIR)$(PREFIX)/bin/$$name" "$(DESTDIR)$(PREFIX)/share/man/man1/$$name.1" \
	        "$(DESTDIR)$(PREFIX)/share/bash-completion/completions/$$name" \
	        "$(DESTDIR)$(PREFIX)/share/zsh/site-functions/_$$name" \
	        "$(DESTDIR)$(PREFIX)/share/fish/vendor_completions.d/$$name.fish"; \
	done
	rm -f "$(DESTDIR)$(PREFIX)/share/man/man7/dachreup.7"
	rm -f "$(DESTDIR)$(PREFIX)/lib/systemd/system/coap-server.service"
	rm -f "$(DESTDIR)$(PREFIX)/share/doc/coap-server/examples/haproxy.cfg"
	rm -f "$(DESTDIR)$(PREFIX)/lib/libdachreup.a" "$(DESTDIR)$(PREFIX)/lib/pkgconfig/dachreup.pc"
	rm -f "$(DESTDIR)$(PREFIX)/include/dachreup.h" "$(DESTDIR)$(PREFIX)/share/man/man3/dachreup.3"
	rm -f "$(DESTDIR)$(PREFIX)/lib/systemd/system/coap-mqtt@.service"
	rm -f "$(DESTDIR)$(PREFIX)/share/doc/coap-mqtt/examples/mosquitto.conf"

# Builds the Debian packages of the output of `make all`, `make lib` and `make gateway`:
# bin/NAME_VERSION_ARCHITECTURE.deb for the names dachreup, libdachreup-dev and dachreup-mqtt.
deb: all lib gateway
	install/debian/build $(PROGRAMS:%=bin/%) bin/libdachreup.a bin/coap-mqtt bin

clean:
	rm -rf bin crates/*/out
