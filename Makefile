# make              the programs (capture, count, send), the C library and the test driver
# make check        the gate: proofs from nothing, edits to be refused, tests
# make install      programs, library, header, pkg-config file, man pages, examples and pages to PREFIX (an absolute path), below DESTDIR
# make examples     the C examples, built in target/examples
# make clean        removes all that was built and proved
#
# Nothing is proved again until a source changes: what counts is what the files hold, not their times.

PREFIX = /usr/local
LIBDIR = lib
DESTDIR =
CFLAGS = -O2 -Wall -Wextra

VERSION := $(shell sed -n 's/^.define KUTAREHOPA_VERSION "\(.*\)"/\1/p' include/kutarehopa.h)
SONAME := libkutarehopa.so.0
PROGRAMS := capture count send
MANUALS := $(wildcard man/*)

# What rt built, and what is made of it.
BUILT := target/staticlib/libkutarehopa.a
LIB := target/lib
ARCHIVE := $(LIB)/libkutarehopa.a
SHARED := $(LIB)/libkutarehopa.so
DRIVER := target/bin/exercise
# The sources of the exports, of the library under them and of the crates that it rests on.
CRATES := kutarehopa_c kutarehopa $(shell sed -n 's/^kutarehopa: *//p' crates.txt)
SOURCES := crates.txt $(shell find $(CRATES:%=crates/%) -path '*/out' -prune -o \( -path '*/src/*.rt' -o -path '*/specs/*.antt' -o -path '*/proofs/*.antt' \) -print)

ifneq ($(filter-out /%,$(PREFIX))$(filter /%,$(LIBDIR))$(findstring ',$(PREFIX))$(findstring &,$(PREFIX))$(findstring \,$(PREFIX)),)
$(error PREFIX must be an absolute path without spaces, quotes, & and \, and LIBDIR a path below it)
endif

.PHONY: all programs library driver examples check install install-library install-programs uninstall clean FORCE

all: programs library driver

# The script proves and builds all three; no input, no output.
programs:
	@./capture /dev/null

library: $(ARCHIVE) $(SHARED)

driver: $(DRIVER)

# The sum of the sources, written anew only where it is another.
target/library.sources: FORCE
	@mkdir -p target
	@sha256sum $(sort $(SOURCES)) | sha256sum | cmp -s - $@ || sha256sum $(sort $(SOURCES)) | sha256sum >$@

# One build at a time, as with the script. (After rt ci, tools/after_ci makes this file.)
$(BUILT): target/library.sources
	@command -v rt >/dev/null || { echo "make: the library is not built yet, and the Rattle kit's command rt is not on the path (README.md)" >&2; exit 1; }
	@echo "proving and building the library; some minutes, if nothing is proved yet" >&2
	@mkdir -p $(@D)
	@flock crates.txt sh -c 'cd crates/kutarehopa_c && rt lib' >target/library.log 2>&1 </dev/null || \
	    { tail -n 20 target/library.log >&2; echo "make: the library could not be proved and built (target/library.log has it all)" >&2; exit 1; }
	@cp crates/kutarehopa_c/out/libkutarehopa_c.a $@

# RFC 1662's names give way to functions of these names in the program.
$(ARCHIVE): $(BUILT)
	@mkdir -p $(LIB)
	@objcopy --weaken-symbol=pppfcs16 --weaken-symbol=pppfcs32 $(BUILT) $@

$(SHARED): $(ARCHIVE)
	$(CC) -shared -Wl,-soname,$(SONAME) -Wl,-z,defs -Wl,--whole-archive $(ARCHIVE) -Wl,--no-whole-archive -o $(LIB)/$(SONAME)
	@cp $(LIB)/$(SONAME) $@

$(DRIVER): tests/exercise.c include/kutarehopa.h $(ARCHIVE)
	@mkdir -p target/bin
	$(CC) $(CFLAGS) -std=c99 -Iinclude -o $@ tests/exercise.c $(ARCHIVE)

examples: $(patsubst examples/c/%.c,target/examples/%,$(wildcard examples/c/*.c))

target/examples/%: examples/c/%.c include/kutarehopa.h $(ARCHIVE)
	@mkdir -p target/examples
	$(CC) $(CFLAGS) -std=c99 -Iinclude -o $@ $< $(ARCHIVE)

check:
	bash .ci/run

install: install-programs install-library

# The scripts go to bin/ and find the programs in libexec/.
install-programs: programs
	install -d '$(DESTDIR)$(PREFIX)/bin' '$(DESTDIR)$(PREFIX)/libexec/kutarehopa' '$(DESTDIR)$(PREFIX)/share/man/man1'
	install -m 755 $(PROGRAMS:%=target/bin/%) '$(DESTDIR)$(PREFIX)/libexec/kutarehopa'
	./capture --version >target/version
	sed 's/^[^)]*) //' target/version >'$(DESTDIR)$(PREFIX)/libexec/kutarehopa/version'
	chmod 644 '$(DESTDIR)$(PREFIX)/libexec/kutarehopa/version'
	install -m 755 $(PROGRAMS) '$(DESTDIR)$(PREFIX)/bin'
	install -m 644 $(filter %.1,$(MANUALS)) '$(DESTDIR)$(PREFIX)/share/man/man1'
	install -d '$(DESTDIR)$(PREFIX)/share/doc/kutarehopa'
	install -m 644 docs/READING.md docs/SEND.md '$(DESTDIR)$(PREFIX)/share/doc/kutarehopa'

install-library: library
	install -d '$(DESTDIR)$(PREFIX)/include' '$(DESTDIR)$(PREFIX)/$(LIBDIR)/pkgconfig' '$(DESTDIR)$(PREFIX)/share/man/man3' \
	    '$(DESTDIR)$(PREFIX)/share/doc/kutarehopa'
	install -m 644 include/kutarehopa.h '$(DESTDIR)$(PREFIX)/include'
	install -m 644 $(ARCHIVE) '$(DESTDIR)$(PREFIX)/$(LIBDIR)'
	install -m 755 $(LIB)/$(SONAME) '$(DESTDIR)$(PREFIX)/$(LIBDIR)'
	ln -sf $(SONAME) '$(DESTDIR)$(PREFIX)/$(LIBDIR)/libkutarehopa.so'
	sed 's|@PREFIX@|$(PREFIX)|; s|@LIBDIR@|$(LIBDIR)|; s|@VERSION@|$(VERSION)|' kutarehopa.pc.in \
	    >'$(DESTDIR)$(PREFIX)/$(LIBDIR)/pkgconfig/kutarehopa.pc'
	chmod 644 '$(DESTDIR)$(PREFIX)/$(LIBDIR)/pkgconfig/kutarehopa.pc'
	install -m 644 $(filter %.3,$(MANUALS)) '$(DESTDIR)$(PREFIX)/share/man/man3'
	install -m 644 docs/CLIBRARY.md docs/READING.md '$(DESTDIR)$(PREFIX)/share/doc/kutarehopa'
	install -d '$(DESTDIR)$(PREFIX)/share/doc/kutarehopa/examples'
	install -m 644 examples/c/*.c '$(DESTDIR)$(PREFIX)/share/doc/kutarehopa/examples'
	[ -n '$(DESTDIR)' ] || ldconfig 2>/dev/null || true

uninstall:
	rm -f $(PROGRAMS:%='$(DESTDIR)$(PREFIX)/bin/%') $(patsubst man/%.1,'$(DESTDIR)$(PREFIX)/share/man/man1/%.1',$(filter %.1,$(MANUALS))) \
	    $(patsubst man/%.3,'$(DESTDIR)$(PREFIX)/share/man/man3/%.3',$(filter %.3,$(MANUALS))) \
	    '$(DESTDIR)$(PREFIX)/include/kutarehopa.h' '$(DESTDIR)$(PREFIX)/$(LIBDIR)/pkgconfig/kutarehopa.pc' \
	    '$(DESTDIR)$(PREFIX)/$(LIBDIR)/libkutarehopa.a' '$(DESTDIR)$(PREFIX)/$(LIBDIR)/libkutarehopa.so' \
	    '$(DESTDIR)$(PREFIX)/$(LIBDIR)/$(SONAME)'
	rm -rf '$(DESTDIR)$(PREFIX)/libexec/kutarehopa' '$(DESTDIR)$(PREFIX)/share/doc/kutarehopa'

clean:
	rm -rf target crates/*/out
