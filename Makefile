# make [all]                                      builds the library, archive and shared library, and the programs
# make install [PREFIX=/usr/local] [DESTDIR=]     installs these, the header and feldrime.pc, and builds them if needed
# make uninstall [PREFIX=/usr/local] [DESTDIR=]   removes the files that install put there, and leaves the folders
# make check                                      runs ./check
# make clean                                      removes target/, where all is built, and out/, where ./draw draws
# The library is for x86-64. If a command is missing, make says how to install it; only ./check and ./draw install it.
PREFIX = /usr/local
DESTDIR =
SHELL = /bin/bash

# FELDRIME_VERSION of the header
version := $(shell sed -n 's/^\#define FELDRIME_VERSION //p' include/feldrime.h)
shared = target/shared/libfeldrime.so.$(version)
tools = set -euo pipefail; . tools/program.sh;

.PHONY: all install uninstall check clean

all:
	@$(tools) build_program
	@$(tools) build_listing
	@$(tools) mkdir -p target/shared; "$$cc" -shared -Wl,-soname,libfeldrime.so.$(version) -o $(shared) \
		-Wl,--whole-archive "$$archive" -Wl,--no-whole-archive

install: all
	install -d "$(DESTDIR)$(PREFIX)/include" "$(DESTDIR)$(PREFIX)/lib/pkgconfig" "$(DESTDIR)$(PREFIX)/bin"
	install -m 644 include/feldrime.h "$(DESTDIR)$(PREFIX)/include"
	install -m 644 target/staticlib/libfeldrime.a "$(DESTDIR)$(PREFIX)/lib"
	install -m 755 $(shared) "$(DESTDIR)$(PREFIX)/lib"
	ln -sf libfeldrime.so.$(version) "$(DESTDIR)$(PREFIX)/lib/libfeldrime.so"
	sed -e 's|@PREFIX@|$(PREFIX)|' -e 's|@VERSION@|$(version)|' tools/feldrime.pc.in \
		> "$(DESTDIR)$(PREFIX)/lib/pkgconfig/feldrime.pc"
	install -m 755 target/feldrime/feldrime "$(DESTDIR)$(PREFIX)/bin/feldrime"
	install -m 755 target/listing/feldrime-listing "$(DESTDIR)$(PREFIX)/bin/feldrime-listing"

uninstall:
	rm -f "$(DESTDIR)$(PREFIX)/include/feldrime.h"
	rm -f "$(DESTDIR)$(PREFIX)/lib/libfeldrime.a"
	rm -f "$(DESTDIR)$(PREFIX)/lib/libfeldrime.so.$(version)"
	rm -f "$(DESTDIR)$(PREFIX)/lib/libfeldrime.so"
	rm -f "$(DESTDIR)$(PREFIX)/lib/pkgconfig/feldrime.pc"
	rm -f "$(DESTDIR)$(PREFIX)/bin/feldrime"
	rm -f "$(DESTDIR)$(PREFIX)/bin/feldrime-listing"

check:
	./check

clean:
	rm -rf target out
