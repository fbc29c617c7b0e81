# The libraries with their headers, manual pages and pkg-config files, and the programs. `make install PREFIX=/usr DESTDIR=..`
PREFIX = /usr/local
DESTDIR =
VERSION := $(shell cat VERSION)
INSTALL = install

libraries = wallathi wallathi_index wallathi_text
programs = report
archives = $(libraries:%=target/staticlib/lib%.a)
pages = $(libraries:%=target/man/%.3)
packages = $(libraries:%=target/pkgconfig/%.pc)
binaries = $(programs:%=target/bin/%)

all: $(archives) $(pages) $(packages) $(binaries)

# The proofs run first.
target/staticlib/lib%.a:
	host/archive $*

target/bin/%:
	host/archive program $*

# Plain C beside the proved libraries.
target/staticlib/libwallathi_text.a: host/text/wallathi_text.c $(libraries:%=host/include/%.h)
	mkdir -p target/staticlib
	$(CC) -std=c99 -O2 -Wall -Wextra -Ihost/include -c $< -o target/staticlib/wallathi_text.o
	$(AR) rcs $@ target/staticlib/wallathi_text.o
	rm target/staticlib/wallathi_text.o

target/man/%.3: host/include/%.h host/manpage
	mkdir -p target/man
	host/manpage $< >$@

target/pkgconfig/%.pc: Makefile VERSION
	mkdir -p target/pkgconfig
	printf 'prefix=%s\nName: %s\nDescription: %s\nVersion: %s\nCflags: -I$${prefix}/include\nLibs: -L$${prefix}/lib -l%s\n' \
	    '$(PREFIX)' '$*' '$(description_$*)' '$(VERSION)' '$*' >$@

description_wallathi = A proved message store in lent bytes
description_wallathi_index = A proved index of up to 64 keys in lent bytes
description_wallathi_text = The answers of both in words

install: all
	$(INSTALL) -d $(DESTDIR)$(PREFIX)/lib/pkgconfig $(DESTDIR)$(PREFIX)/include $(DESTDIR)$(PREFIX)/share/man/man3 \
	    $(DESTDIR)$(PREFIX)/bin $(DESTDIR)$(PREFIX)/share/man/man1
	$(INSTALL) -m 644 $(archives) $(DESTDIR)$(PREFIX)/lib
	$(INSTALL) -m 644 $(packages) $(DESTDIR)$(PREFIX)/lib/pkgconfig
	$(INSTALL) -m 644 $(libraries:%=host/include/%.h) $(DESTDIR)$(PREFIX)/include
	$(INSTALL) -m 644 $(pages) $(DESTDIR)$(PREFIX)/share/man/man3
	for name in $(programs); do \
	    $(INSTALL) -m 755 target/bin/$$name $(DESTDIR)$(PREFIX)/bin/wallathi-$$name && \
	    $(INSTALL) -m 644 host/man/wallathi-$$name.1 $(DESTDIR)$(PREFIX)/share/man/man1 || exit 1; \
	done

.PHONY: all install
.SECONDARY:
