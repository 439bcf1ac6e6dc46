# Builds the program `dasd` and the libraries from compiled/, which is the proved code as text for an assembler, and checks and installs them.
# It wants a C compiler, binutils and make, GNU's or BSD's; nothing is proved here, and nothing is fetched.
#
#     make              dasd, libdasd.a, libdasd.so.1, and libdasd_drive.a, a drive alone
#     make check        half a minute: vectors at each of them, rows of dasd, calls in C, the examples of README.md; wants Python 3.11
#     make check-all    everything else that needs no kit: all tests in C, C++, Python and Rust, all pages; some minutes
#     make install      what was built; PREFIX=/usr/local, and DESTDIR before it
#     make uninstall    takes it away again
#     make dasd-static  the program with its C library inside
#     make page         web/out/page/index.html, which shows packs and steps through decks; wants Python 3
#     make prove        proves everything, and compares what it gives with compiled/; wants the kit, and hours
#     make clean
#
# For another machine, and with another compiler:
#
#     make CC=aarch64-linux-gnu-gcc RUN='qemu-aarch64 -L /usr/aarch64-linux-gnu' check
#     make CC=clang
#     make CC=x86_64-w64-mingw32-gcc HEAP=compiled/heap-x86_64-windows.o libdasd.a libdasd_drive.a
#
# The last takes the objects for Windows, which a release has beside the tarball. LIBRARY, DRIVE and PROGRAM name other objects or archives
# in place of those that are made of compiled/.
.POSIX:
CC = cc
CFLAGS ?= -O2 -g
CPPFLAGS ?=
LDFLAGS ?=
RUN ?=
PYTHON ?= python3
DESTDIR ?=
PREFIX ?= /usr/local
BINDIR ?= $(PREFIX)/bin
LIBDIR ?= $(PREFIX)/lib
INCLUDEDIR ?= $(PREFIX)/include
MANDIR ?= $(PREFIX)/share/man
PKGCONFIGDIR ?= $(LIBDIR)/pkgconfig

INTERFACE != sed -n 's/^.define DASD_INTERFACE \(.*\)u/\1/p' c/dasd.h
SHARED = libdasd.so.$(INTERFACE)
O = out
LIBRARY = $(O)/libdasd.o
DRIVE = $(O)/libdasd_drive.o
PROGRAM = $(O)/dasd.o
HEAP = $(O)/heap.o
STRICT = -std=c11 -Wall -Wextra
HARD = -Wl,-z,relro,-z,now,--gc-sections
# what is built does not know in which folder, so that it is the same in each
NAMELESS = "-ffile-prefix-map=$$PWD=."
COMPILE = $(CC) $(STRICT) $(CPPFLAGS) $(CFLAGS) $(NAMELESS) -fPIC -c
ASSEMBLE = sh tools/build/assemble.sh
ONLY_NAMES = sh tools/build/only_names.sh "$(CC)"
WHOLE = -Wl,--whole-archive $(LIBRARY) -Wl,--no-whole-archive $(HEAP)

all: libdasd.a $(SHARED) libdasd_drive.a dasd

help:
	@sed -n 's/^#     make/make/p' Makefile

# The compiler and its flags: what was built with others is made again.
$(O)/compiler: FORCE
	@mkdir -p $(O)
	@echo '$(CC) $(CPPFLAGS) $(CFLAGS) $(LDFLAGS)' | cmp -s - $@ || \
	    { sh tools/build/needs.sh $(CC) && echo '$(CC) $(CPPFLAGS) $(CFLAGS) $(LDFLAGS)' > $@; }
FORCE:

# Each text has to have its sum in release/compiled.sha256.
$(O)/libdasd.o: $(O)/compiler release/compiled.sha256 tools/build/assemble.sh
	$(ASSEMBLE) libdasd $@ $(CC)
$(O)/libdasd_drive.o: $(O)/compiler release/compiled.sha256 tools/build/assemble.sh
	$(ASSEMBLE) libdasd_drive $@ $(CC)
$(O)/dasd.o: $(O)/compiler release/compiled.sha256 tools/build/assemble.sh
	$(ASSEMBLE) dasd $@ $(CC)
$(O)/heap.o: $(O)/compiler c/heap.c c/memory.h
	$(COMPILE) -o $@ c/heap.c
$(O)/system.o: $(O)/compiler c/system.c c/system.h
	$(COMPILE) -o $@ c/system.c

# One object, of whose names only those of the header are seen.
libdasd.a: $(LIBRARY) $(HEAP)
	$(ONLY_NAMES) 'dasd_*' $@ $(O) $(LIBRARY) $(HEAP)
libdasd_drive.a: $(DRIVE) $(HEAP)
	$(ONLY_NAMES) 'dasd_drive_*' $@ $(O) $(DRIVE) $(HEAP)
$(SHARED): $(LIBRARY) $(HEAP) c/exports.map
	$(CC) $(CFLAGS) $(LDFLAGS) $(HARD) -shared -Wl,-soname,$@ -Wl,-z,defs -Wl,--version-script=c/exports.map -o $@ $(WHOLE)
dasd: $(PROGRAM) $(O)/system.o $(HEAP)
	$(CC) $(CFLAGS) $(LDFLAGS) $(HARD) -Wl,--wrap=main -o $@ $(PROGRAM) $(O)/system.o $(HEAP)
dasd-static: $(PROGRAM) $(O)/system.o $(HEAP)
	$(CC) $(CFLAGS) $(LDFLAGS) $(HARD) -static -Wl,--wrap=main -o $@ $(PROGRAM) $(O)/system.o $(HEAP)

check: all
	@PYTHON='$(PYTHON)' sh tools/build/check.sh "$(CC)" "$(CFLAGS)" "$(RUN)"

check-all: all
	@PYTHON='$(PYTHON)' sh tools/build/check_all.sh "$(CC)" "$(CFLAGS)" "$(RUN)"

# For Windows, over the libraries alone.
check-windows:
	sh tools/build/check_windows.sh "$(CC)" "$(CFLAGS)" "$(RUN)"

prove:
	@command -v rt > /dev/null || { echo "make: rt is missing: it is in Rattle's kit, which is not public yet" >&2; exit 1; }
	cd crates/dasd_cmd && rt run
	cd crates/dasd_c && rt lib --cpu x86-64
	cd crates/lone_drive_c && rt lib --cpu x86-64
	release/check --sums-alone

page:
	@command -v python3 > /dev/null || { echo "make: python3 is missing: Debian's package python3 has it" >&2; exit 1; }
	web/make_page web/out/page/index.html

# Of what was built alone: nothing is built here, so that `sudo make install` makes no file of root's in the tree.
install:
	@test -f dasd && test -f libdasd.a && test -f $(SHARED) && test -f libdasd_drive.a || \
	    { echo "make: nothing is built: make, and then make install" >&2; exit 1; }
	mkdir -p "$(DESTDIR)$(BINDIR)" "$(DESTDIR)$(PKGCONFIGDIR)" "$(DESTDIR)$(INCLUDEDIR)" "$(DESTDIR)$(MANDIR)/man1"
	install -m 755 dasd "$(DESTDIR)$(BINDIR)/"
	install -m 644 libdasd.a libdasd_drive.a $(SHARED) "$(DESTDIR)$(LIBDIR)/"
	ln -sf $(SHARED) "$(DESTDIR)$(LIBDIR)/libdasd.so"
	install -m 644 c/dasd.h c/dasd.hpp c/dasd_drive.h c/dasd_drive.hpp "$(DESTDIR)$(INCLUDEDIR)/"
	install -m 644 docs/dasd.1 "$(DESTDIR)$(MANDIR)/man1/"
	for it in dasd dasd_drive; do \
	    sed -e 's|@PREFIX@|$(PREFIX)|' -e 's|@LIBDIR@|$(LIBDIR)|' -e 's|@INCLUDEDIR@|$(INCLUDEDIR)|' -e "s|@VERSION@|$$(cat VERSION)|" \
	        c/$$it.pc.in > "$(DESTDIR)$(PKGCONFIGDIR)/$$it.pc" && chmod 644 "$(DESTDIR)$(PKGCONFIGDIR)/$$it.pc" || exit 1; \
	done

install-completions:
	sh tools/build/completions.sh "$(DESTDIR)$(PREFIX)/share"

uninstall:
	rm -f "$(DESTDIR)$(BINDIR)/dasd" "$(DESTDIR)$(MANDIR)/man1/dasd.1"
	cd "$(DESTDIR)$(PKGCONFIGDIR)" && rm -f dasd.pc dasd_drive.pc
	cd "$(DESTDIR)$(LIBDIR)" && rm -f libdasd.a libdasd_drive.a $(SHARED) libdasd.so
	cd "$(DESTDIR)$(INCLUDEDIR)" && rm -f dasd.h dasd.hpp dasd_drive.h dasd_drive.hpp
	cd "$(DESTDIR)$(PREFIX)/share" && rm -f bash-completion/completions/dasd zsh/site-functions/_dasd fish/vendor_completions.d/dasd.fish

clean:
	rm -rf $(O) dasd dasd-static libdasd.a libdasd_drive.a libdasd.so.*

.PHONY: all help check check-all check-windows prove page install install-completions uninstall clean FORCE
