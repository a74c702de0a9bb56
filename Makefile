# The C library for board makers and app makers: headers, archive and a pkg-config file. The archive is for every x86-64 processor, where rt's own
# choice would be x86-64-v2.
#   make                          proves the library and builds the archive with rt, where it is absent or older than a source
#   make install PREFIX=/usr      installs; DESTDIR is put in front of every path, as packages want it
#   make uninstall PREFIX=/usr    removes what install put there
#   make test                     the C tests (tests/run-c)
PREFIX ?= /usr/local
INCLUDEDIR ?= $(PREFIX)/include
LIBDIR ?= $(PREFIX)/lib
PKGCONFIGDIR ?= $(LIBDIR)/pkgconfig
VERSION := $(shell cat VERSION)
RT ?= rt
INSTALL ?= install

HEADERS = include/nosingginger.h include/nosingginger_words.h
ARCHIVE = target/staticlib/libnosingginger_c.a
SOURCES = crates.txt $(wildcard crates/*/src/*.rt crates/*/specs/*.antt)

all: $(ARCHIVE)

$(ARCHIVE): $(SOURCES)
	cd crates/nosingginger_c && $(RT) lib --cpu x86-64
	mkdir -p target/staticlib
	cp crates/nosingginger_c/out/libnosingginger_c.a $@

target/nosingginger.pc: Makefile FORCE
	mkdir -p target
	printf '%s\n' 'prefix=$(PREFIX)' 'includedir=$(INCLUDEDIR)' 'libdir=$(LIBDIR)' '' \
	    'Name: nosingginger' 'Description: Keys for a hidden piece on a square-root grid, proved' 'Version: $(VERSION)' \
	    'Cflags: -I$${includedir}' 'Libs: -L$${libdir} -lnosingginger_c' > $@

install: $(ARCHIVE) target/nosingginger.pc
	$(INSTALL) -d '$(DESTDIR)$(INCLUDEDIR)' '$(DESTDIR)$(LIBDIR)' '$(DESTDIR)$(PKGCONFIGDIR)'
	$(INSTALL) -m 644 $(HEADERS) '$(DESTDIR)$(INCLUDEDIR)'
	$(INSTALL) -m 644 $(ARCHIVE) '$(DESTDIR)$(LIBDIR)/libnosingginger_c.a'
	$(INSTALL) -m 644 target/nosingginger.pc '$(DESTDIR)$(PKGCONFIGDIR)/nosingginger.pc'

uninstall:
	for header in $(notdir $(HEADERS)); do rm -f '$(DESTDIR)$(INCLUDEDIR)'/$$header; done
	rm -f '$(DESTDIR)$(LIBDIR)/libnosingginger_c.a' '$(DESTDIR)$(PKGCONFIGDIR)/nosingginger.pc'

test: $(ARCHIVE)
	tests/run-c

FORCE:

.PHONY: all install uninstall test FORCE
