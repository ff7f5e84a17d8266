# The C kit (header, archive, shared library, command-line tool, demonstration) and what compares it with plain Rust.
# What is built goes to target/.
#
#   make            archive, shared library, tool and demonstration
#   make tool       the tool only: target/kit/ngulo
#   make shared     the shared library only: target/kit/libngulo.so.VERSION
#   make archive    the archive only, proved: target/staticlib/libngulo.a
#   make demo       the incident, run
#   make check      the tests of the C kit and its tarball, without proofs; the same as make test-c
#   make test       all tests but the proofs and their must-fail edits
#   make dist       target/dist/ngulo-VERSION-linux-x86_64.tar.gz, for machines without the Rattle kit
#   make install    below PREFIX=/usr/local; also DESTDIR, BINDIR, INCLUDEDIR, LIBDIR, MANDIR, DOCDIR
#   make uninstall  takes that away again, with the same variables
#   make clean      removes target/kit and target/dist, and not the proved archive
#   make help       this list
#   make WERROR=    with any of these: a compiler's warnings are not taken as errors
#
#   make test-exported  the tables at the end of docs/TRUST.md are as tests/exported prints them, and no exported
#                   function lacks a must-fail edit; docs/ARCHITECTURE.md has the table that tests/believed prints
#   make compare    the comparison with the second interpreter; compare/run --help for longer ones
#   make seeded     the comparison must find each fault of compare/faults
#   make fuzz       the same comparison by libFuzzer; fuzz/run SECONDS for longer
#   make bench      check, pass and run, timed beside plain Rust
#   make valgrind   the C programs under valgrind
#
# Needed: a C and a C++ compiler and GNU make; for the archive rt, the Rattle kit; for check also pkg-config and
# python3; for test-sweep, compare, seeded and bench rustc; for fuzz rustc and clang with libFuzzer; for valgrind valgrind.
# CC, CXX, CPPFLAGS, CFLAGS, CXXFLAGS, LDFLAGS and WERROR may come from the environment.

VERSION := $(shell sed -n 's/^.define NGULO_VERSION "\(.*\)"$$/\1/p' include/ngulo.h)
PREFIX ?= /usr/local
BINDIR ?= $(PREFIX)/bin
INCLUDEDIR ?= $(PREFIX)/include
LIBDIR ?= $(PREFIX)/lib
MANDIR ?= $(PREFIX)/share/man
DOCDIR ?= $(PREFIX)/share/doc/ngulo
DESTDIR ?=

ifeq ($(origin CC),default)
CC = gcc
endif
ifeq ($(origin CXX),default)
CXX = g++
endif
CFLAGS ?= -O2
CXXFLAGS ?= -O2
WERROR ?= -Werror
STRICT = -Wall -Wextra $(WERROR) -pedantic -Iinclude
C99 = $(CC) -std=c99 $(STRICT) $(CPPFLAGS) $(CFLAGS) $(LDFLAGS)
CPP11 = $(CXX) -x c++ -std=c++11 $(STRICT) $(CPPFLAGS) $(CXXFLAGS) $(LDFLAGS)
# -x none ends -x c++, so that the archive is taken as one
LINK_CPP = -x none $(ARCHIVE)

KIT = target/kit
DIST = target/dist
ARCHIVE = target/staticlib/libngulo.a
# While the major number is 0, a new minor number may break programs, so it has another soname.
SONAME = libngulo.so.$(basename $(VERSION))
SHARED = $(KIT)/libngulo.so.$(VERSION)
NAME = ngulo-$(VERSION)
TARBALL = $(DIST)/$(NAME)-linux-x86_64.tar.gz
DOCUMENTS = docs/FORMAT.md docs/TRUST.md CHANGELOG.md NOTICE
HEADERS = $(wildcard include/*.h tool/*.h demo/*.h)
TOOL = $(wildcard tool/*.c)
DEMO = $(wildcard demo/*.c) $(addprefix tool/,input.c records.c listing.c explain.c probe.c differ.c words.c)
VALGRIND = valgrind -q --error-exitcode=9 --leak-check=full --show-leak-kinds=all --errors-for-leak-kinds=all \
    --vgdb=no

.PHONY: all archive shared tool demo check test test-exported test-c test-calls test-strict test-tool test-sweep test-format \
    test-demo test-readme test-install test-dist compare seeded fuzz bench valgrind dist install uninstall clean help
.DELETE_ON_ERROR:

all: archive shared tool $(KIT)/incident

help:
	@sed -n '4,/^$$/s/^# \{0,1\}//p' $(firstword $(MAKEFILE_LIST))

# Proved and built again only if something it is made of changed.
PROVED = crates.txt $(shell find crates -type f \( -path '*/src/*' -o -path '*/specs/*' -o -path '*/proofs/*' \))
$(ARCHIVE): $(PROVED)
	@command -v rt >/dev/null || { exec >&2; \
	    echo 'rt, the Rattle kit, is not found: it has to prove and build $@.'; \
	    echo 'On a machine with it, make dist makes a tarball that needs a C compiler only (docs/KIT.md).'; exit 1; }
	cd crates/ngulo && rt lib
	mkdir -p $(dir $@)
	cp crates/ngulo/out/libngulo.a $@

archive: $(ARCHIVE)
shared: $(SHARED)
tool: $(KIT)/ngulo

# The archive whole. No start-up code: the library has no state that would need it.
$(SHARED): $(ARCHIVE) Makefile ngulo.map include/ngulo.h | $(KIT)
	$(CC) $(CFLAGS) $(LDFLAGS) -shared -nostartfiles -Wl,-soname,$(SONAME) -Wl,--version-script,ngulo.map \
	    -Wl,-z,defs,-z,text,-z,noexecstack,-z,relro,-z,now -Wl,--whole-archive $(ARCHIVE) -Wl,--no-whole-archive -o $@

$(KIT)/ngulo: $(TOOL) $(HEADERS) $(ARCHIVE) | $(KIT)
	$(C99) $(TOOL) $(ARCHIVE) -o $@
$(KIT)/ngulo-cpp: $(TOOL) $(HEADERS) $(ARCHIVE) | $(KIT)
	$(CPP11) $(TOOL) $(LINK_CPP) -o $@
$(KIT)/incident: $(DEMO) $(HEADERS) $(ARCHIVE) | $(KIT)
	$(C99) $(DEMO) $(ARCHIVE) -o $@
$(KIT)/incident-cpp: $(DEMO) $(HEADERS) $(ARCHIVE) | $(KIT)
	$(CPP11) $(DEMO) $(LINK_CPP) -o $@
$(KIT)/%: tests/%.c $(HEADERS) $(ARCHIVE) | $(KIT)
	$(C99) $< $(ARCHIVE) -o $@
$(KIT)/%-cpp: tests/%.c $(HEADERS) $(ARCHIVE) | $(KIT)
	$(CPP11) $< $(LINK_CPP) -o $@
$(KIT):
	mkdir -p $@

demo: $(KIT)/incident
	@$(KIT)/incident samples

test: test-exported test-c test-sweep compare seeded

test-exported:
	tests/exported --check
	tests/believed --check

check: test-c
test-c: test-calls test-strict test-tool test-format test-demo test-readme test-install test-dist

# The calls, the header and the stack that the calls take, as C and as C++.
test-calls: $(KIT)/calls $(KIT)/calls-cpp $(KIT)/header $(KIT)/header-cpp $(KIT)/stack $(KIT)/stack-cpp
	$(KIT)/header
	$(KIT)/header-cpp
	$(KIT)/calls
	$(KIT)/calls-cpp
	tests/stack $(KIT)/stack
	tests/stack $(KIT)/stack-cpp

test-strict:
	CC='$(CC)' CXX='$(CXX)' tests/strict

test-tool: $(KIT)/ngulo $(KIT)/ngulo-cpp
	tests/tool $(KIT)/ngulo
	tests/tool $(KIT)/ngulo-cpp
	tests/sweep --long $(KIT)/ngulo

test-format: $(KIT)/ngulo
	tests/format $(KIT)/ngulo

test-demo: $(KIT)/incident $(KIT)/incident-cpp
	tests/demo $(KIT)/incident
	tests/demo $(KIT)/incident-cpp

# The commands of README.md call make themselves.
test-readme: $(KIT)/ngulo $(KIT)/incident
	env -u MAKEFLAGS -u MAKELEVEL tests/readme

# Listings, traces, explanations and diff on blocks of the comparison.
test-sweep: $(KIT)/ngulo
	tests/sweep $(KIT)/ngulo

test-install: all
	CC='$(CC)' CXX='$(CXX)' tests/install

test-dist: dist
	CC='$(CC)' CXX='$(CXX)' tests/dist $(TARBALL)

compare seeded fuzz bench: archive
compare:
	compare/run
seeded:
	compare/seeded
fuzz:
	fuzz/run
bench:
	bench/run

valgrind: $(KIT)/ngulo $(KIT)/incident $(KIT)/calls $(KIT)/header
	$(VALGRIND) $(KIT)/header
	$(VALGRIND) $(KIT)/calls
	tests/demo $(VALGRIND) $(KIT)/incident
	tests/tool $(VALGRIND) $(KIT)/ngulo

# The prefix that ngulo.pc names: the installed one in full, so that pkg-config knows the system's own places; in the
# tarball by ngulo.pc's own place, so that the folder can be moved.
PC_PREFIX = $(PREFIX)
below_prefix = $(patsubst $(PREFIX)/%,$${prefix}/%,$(1))

install: archive shared tool
	$(foreach v,PREFIX BINDIR INCLUDEDIR LIBDIR MANDIR DOCDIR,$(if \
	    $(or $(filter-out 1,$(words $($(v)))),$(filter-out /%,$($(v))),$(findstring |,$($(v))),$(findstring &,$($(v)))),$(error \
	    $(v) is not an absolute path without spaces, | or &: '$($(v))')))
	install -d '$(DESTDIR)$(BINDIR)' '$(DESTDIR)$(INCLUDEDIR)' '$(DESTDIR)$(LIBDIR)/pkgconfig' \
	    '$(DESTDIR)$(MANDIR)/man1' '$(DESTDIR)$(DOCDIR)'
	install -m 755 $(KIT)/ngulo '$(DESTDIR)$(BINDIR)/ngulo'
	install -m 644 include/ngulo.h '$(DESTDIR)$(INCLUDEDIR)/ngulo.h'
	install -m 644 $(ARCHIVE) '$(DESTDIR)$(LIBDIR)/libngulo.a'
	install -m 755 $(SHARED) '$(DESTDIR)$(LIBDIR)/libngulo.so.$(VERSION)'
	ln -sf libngulo.so.$(VERSION) '$(DESTDIR)$(LIBDIR)/$(SONAME)'
	ln -sf $(SONAME) '$(DESTDIR)$(LIBDIR)/libngulo.so'
	sed -e 's|@PREFIX@|$(PC_PREFIX)|' -e 's|@INCLUDEDIR@|$(call below_prefix,$(INCLUDEDIR))|' \
	    -e 's|@LIBDIR@|$(call below_prefix,$(LIBDIR))|' -e 's|@VERSION@|$(VERSION)|' ngulo.pc.in \
	    >'$(DESTDIR)$(LIBDIR)/pkgconfig/ngulo.pc'
	chmod 644 '$(DESTDIR)$(LIBDIR)/pkgconfig/ngulo.pc'
	install -m 644 docs/ngulo.1 '$(DESTDIR)$(MANDIR)/man1/ngulo.1'
	install -m 644 $(DOCUMENTS) '$(DESTDIR)$(DOCDIR)'

LIBRARY = libngulo.a libngulo.so $(SONAME) libngulo.so.$(VERSION) pkgconfig/ngulo.pc
uninstall:
	rm -f '$(DESTDIR)$(BINDIR)/ngulo' '$(DESTDIR)$(INCLUDEDIR)/ngulo.h' '$(DESTDIR)$(MANDIR)/man1/ngulo.1' \
	    $(foreach f,$(LIBRARY),'$(DESTDIR)$(LIBDIR)/$(f)') $(foreach f,$(notdir $(DOCUMENTS)),'$(DESTDIR)$(DOCDIR)/$(f)')
	[ ! -d '$(DESTDIR)$(DOCDIR)' ] || rmdir --ignore-fail-on-non-empty '$(DESTDIR)$(DOCDIR)'

# The tarball is a prefix with examples and samples. The same bytes each time: names in order, no owner, one time for all.
EXTRAS = examples/bench.c examples/bench.py $(shell find samples -name '*.hex')
EPOCH = $(or $(SOURCE_DATE_EPOCH),$(shell git log -1 --format=%ct 2>/dev/null || stat -c %Y include/ngulo.h))
dist: archive shared tool
	rm -rf $(DIST)/$(NAME) $(TARBALL)
	$(MAKE) --no-print-directory install DESTDIR=$(DIST) PREFIX=/$(NAME) BINDIR=/$(NAME)/bin \
	    INCLUDEDIR=/$(NAME)/include LIBDIR=/$(NAME)/lib MANDIR=/$(NAME)/share/man DOCDIR=/$(NAME)/share/doc/ngulo \
	    PC_PREFIX='$$$${pcfiledir}/../..'
	for f in $(EXTRAS); do install -D -m 644 $$f $(DIST)/$(NAME)/$$f || exit 1; done
	install -m 644 docs/KIT.md $(DIST)/$(NAME)/README.md
	tar -C $(DIST) --format=ustar --sort=name --owner=0 --group=0 --numeric-owner --mode=u=rwX,go=rX \
	    --mtime=@$(EPOCH) -cf $(TARBALL:.gz=) $(NAME)
	gzip -9nf $(TARBALL:.gz=)
	rm -rf $(DIST)/$(NAME)

clean:
	rm -rf $(KIT) $(DIST)
	@echo "The proved archive stays; rm -rf target removes it too, and it takes minutes to make."
