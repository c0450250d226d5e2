# The engine for those who build C. `make` proves it and writes the library, target/lib/CPU/libdzervolat.a; the rest is below.
CPU ?= $(shell uname -m)
PREFIX ?= /usr/local
VERSION := $(shell sed -n 's/^.define DZ_VERSION //p' include/dzervolat.h)

.PHONY: library install tools install-tools check bench day
library:
	tests/library $(CPU)

# header, library and pkg-config file, below PREFIX (and DESTDIR, for packages)
install: library
	install -d '$(DESTDIR)$(PREFIX)/include' '$(DESTDIR)$(PREFIX)/lib/pkgconfig'
	install -m 644 include/dzervolat.h '$(DESTDIR)$(PREFIX)/include/'
	install -m 644 'target/lib/$(CPU)/libdzervolat.a' '$(DESTDIR)$(PREFIX)/lib/'
	sed -e 's|@PREFIX@|$(PREFIX)|' -e 's|@VERSION@|$(VERSION)|' include/dzervolat.pc.in >'$(DESTDIR)$(PREFIX)/lib/pkgconfig/dzervolat.pc'

# the programs of the operations desk: a capture into a trace, a trace into a capture, and why a trace's parents and decisions change
tools: library
	mkdir -p 'target/bin-c/$(CPU)'
	CPU=$(CPU) tests/cc examples/pcap-to-trace.c examples/stream.c -o 'target/bin-c/$(CPU)/pcap-to-trace'
	CPU=$(CPU) tests/cc examples/trace-to-pcap.c examples/stream.c -o 'target/bin-c/$(CPU)/trace-to-pcap'
	CPU=$(CPU) tests/cc examples/why.c -o 'target/bin-c/$(CPU)/why'

# into bin below PREFIX
install-tools: tools
	install -d '$(DESTDIR)$(PREFIX)/bin'
	install -m 755 'target/bin-c/$(CPU)/pcap-to-trace' 'target/bin-c/$(CPU)/trace-to-pcap' 'target/bin-c/$(CPU)/why' '$(DESTDIR)$(PREFIX)/bin/'

# the whole gate
check:
	.ci/run

# instructions of each call, beside C by hand
bench:
	bench/run

# a day on eighteen ports
day:
	examples/day
