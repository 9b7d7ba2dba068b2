# Makes the library for C and Rust in build/lib: libquic_streams.a and libquic_streams.so, with what they need of the kit.
#
#   make            proves the library and the crates below it, and builds it
#   make check      the tests of the C interface and of the crates for Rust
#   make examples   the programs of examples/
#   make doc        the reference of the C calls: build/doc/html and build/doc/man (doxygen)
#   make install    to PREFIX (/usr/local), LIBDIR and INCLUDEDIR, below DESTDIR
#   make uninstall  removes what install put there
#   make dist       build/dist/quic-streams-VERSION-x86_64-linux.tar.gz
#
# The library is made by the Rattle kit (the command rt). Without it, or with PARTS= (nothing), the other commands work with the library that
# is in build/lib.
#
# ARCHIVE names a static library of the crate quic_streams_c that is there already; then nothing is proved. PROVE is the command that
# makes that library: `make PROVE="tools/library_of_gate quic_streams_c"` makes it over the crates that CI proved.

PREFIX ?= /usr/local
LIBDIR ?= $(PREFIX)/lib
INCLUDEDIR ?= $(PREFIX)/include
DESTDIR ?=
VERSION := 0.1.0
CC ?= cc
AR ?= ar
CFLAGS ?= -O2 -g
LDFLAGS ?=
WARNINGS := -Wall -Wextra -Wpedantic -Werror
KIT := $(if $(shell command -v rt 2> /dev/null),$(dir $(shell rt doc)))
CRATE := crates/quic_streams_c
ARCHIVE ?= $(CRATE)/out/libquic_streams_c.a
PROVE ?= cd $(CRATE) && rt lib
PARTS ?= $(if $(KIT),$(KIT)c/liblibc_c.a)
LIB := build/lib
SHARED := libquic_streams.so.$(VERSION)
DIST := build/dist/quic-streams-$(VERSION)-x86_64-linux.tar.gz
FILLED = sed 's|@LIBDIR@|$(LIBDIR)|; s|@INCLUDEDIR@|$(INCLUDEDIR)|; s|@VERSION@|$(VERSION)|'

.PHONY: all check examples doc install uninstall dist clean
.DELETE_ON_ERROR:

all: $(LIB)/libquic_streams.a $(LIB)/$(SHARED)

ifneq ($(PARTS),)
# The archive of the crate is made where a crate or the kit is newer. (rt may leave it as it is.)
ifeq ($(origin ARCHIVE),file)
SOURCES := $(shell find crates -path '*/out' -prune -o \( -name '*.rt' -o -name '*.antt' \) -print)
$(ARCHIVE): crates.txt $(SOURCES) $(KIT)KIT-ID
	$(PROVE)
	touch $@
endif

$(LIB)/libquic_streams.a: $(ARCHIVE) $(PARTS)
	mkdir -p $(LIB)
	rm -f $@
	printf 'CREATE %s\nADDLIB %s\nADDLIB %s\nSAVE\nEND\n' $@ $(ARCHIVE) $(PARTS) | $(AR) -M
else
$(LIB)/libquic_streams.a:
	@echo 'make: $@ is not there, and it is made by the Rattle kit, whose command rt is not on this path.' >&2
	@echo 'make: Install the kit, or unpack a release, which has the library.' >&2
	@exit 1
endif

# The names without a version are copies here: CI allows no link in the repository. An installation has links.
$(LIB)/$(SHARED): $(LIB)/libquic_streams.a packaging/exports.map
	$(CC) $(LDFLAGS) -shared -o $@ -Wl,-soname,libquic_streams.so.0 -Wl,--version-script,packaging/exports.map \
	    -Wl,-z,relro,-z,now -Wl,--whole-archive $< -Wl,--no-whole-archive
	cp $@ $(LIB)/libquic_streams.so.0
	cp $@ $(LIB)/libquic_streams.so

examples: build/bin/file_over_udp build/bin/echo
	cd examples/rust && QUIC_STREAMS_LIB_DIR=$(CURDIR)/$(LIB) cargo build --offline --release

build/bin/%: examples/c/%.c examples/c/packets.h include/quic_streams.h $(LIB)/libquic_streams.a
	mkdir -p $(dir $@)
	$(CC) -std=c11 $(WARNINGS) $(CFLAGS) -Iinclude $(LDFLAGS) -o $@ $< $(LIB)/libquic_streams.a

doc:
	@command -v doxygen > /dev/null || { echo 'make: the reference is made by doxygen, which is not on this path.' >&2; exit 1; }
	rm -rf build/doc
	mkdir -p build/doc
	{ cat packaging/Doxyfile; echo 'PROJECT_NUMBER = $(VERSION)'; } | doxygen -
	find build/doc/man/man3 -type f ! -name 'qs_*' ! -name 'QS_*' ! -name 'quic_streams.h.3' -delete
	python3 packaging/make_man.py build/doc/xml build/doc/man/man3 $(VERSION)

check: all
	python3 -m unittest tests.test_c
	cd tests && python3 -m unittest test_boundary test_c_sessions
	cd bindings/rust && QUIC_STREAMS_LIB_DIR=$(CURDIR)/$(LIB) cargo test --offline --workspace

install: all
	install -d $(DESTDIR)$(INCLUDEDIR) $(DESTDIR)$(LIBDIR)/pkgconfig $(DESTDIR)$(LIBDIR)/cmake/quic_streams
	install -m 644 include/quic_streams.h $(DESTDIR)$(INCLUDEDIR)/
	install -m 644 $(LIB)/libquic_streams.a $(DESTDIR)$(LIBDIR)/
	install -m 755 $(LIB)/$(SHARED) $(DESTDIR)$(LIBDIR)/
	ln -sf $(SHARED) $(DESTDIR)$(LIBDIR)/libquic_streams.so.0
	ln -sf libquic_streams.so.0 $(DESTDIR)$(LIBDIR)/libquic_streams.so
	$(FILLED) packaging/quic_streams.pc.in > $(DESTDIR)$(LIBDIR)/pkgconfig/quic_streams.pc
	for name in config config-version; do \
	    $(FILLED) packaging/quic_streams-$$name.cmake.in > $(DESTDIR)$(LIBDIR)/cmake/quic_streams/quic_streams-$$name.cmake; \
	done

uninstall:
	rm -f $(DESTDIR)$(INCLUDEDIR)/quic_streams.h $(DESTDIR)$(LIBDIR)/libquic_streams.a $(DESTDIR)$(LIBDIR)/libquic_streams.so \
	    $(DESTDIR)$(LIBDIR)/libquic_streams.so.0 $(DESTDIR)$(LIBDIR)/$(SHARED) $(DESTDIR)$(LIBDIR)/pkgconfig/quic_streams.pc
	rm -rf $(DESTDIR)$(LIBDIR)/cmake/quic_streams

dist: all
	python3 packaging/make_dist.py $(VERSION) $(LIB) $(DIST)

clean:
	rm -rf build bindings/rust/target examples/rust/target
