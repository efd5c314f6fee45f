# make run    builds the proved library and the tool, and judges the sample sheets
# make test   runs the gate, .ci/run
# make compare  compares the library with the second program, the long run (some minutes)
# make bench    measures the library against two other judges and against reading each byte once
# make tool   builds the library and the tool, target/host/stragumella
# make library  builds the archive and the shared library, under target/lib
# make own-library  builds what programs of this machine can be linked with in tests; on x86-64 the same
# make python  installs the Python package for this machine under target/python
# make man    makes the manual pages, under target/man
# make install    builds, then installs tool, library, header, manual pages and completions below PREFIX (/usr/local), or DESTDIR/PREFIX
# make uninstall  takes away what make install put there
# make version  prints the version, which stands in include/stragumella.h alone
# make clean  removes what make built; the library and the proofs stay
#
# The library is x86-64 on every machine. Elsewhere the tool is built for x86-64 too, by host/bare.sh.

CC = cc
CFLAGS = -std=c11 -O2 -Wall -Wextra -Wpedantic -Werror
MACHINE := $(shell uname -m)

# The version, from the header.
number = $(shell sed -n 's/^.define STRAGUMELLA_VERSION_$(1) //p' include/stragumella.h)
MAJOR := $(call number,MAJOR)
MINOR := $(call number,MINOR)
VERSION := $(MAJOR).$(MINOR).$(call number,PATCH)

LIBRARY = target/staticlib/libcapi.a
ARCHIVE = target/lib/libstragumella.a
SHARED = target/lib/libstragumella.so.$(MAJOR)
NAMES = STRAGUMELLA_$(MAJOR).$(MINOR)
CHAIN = $(shell host/x86-64/toolchain)

# What programs of this machine are linked with, in tests: on x86-64 the library itself, on Arm its code compiled for Arm.
ifeq ($(MACHINE),x86_64)
OWN_ARCHIVE = $(ARCHIVE)
OWN_SHARED = $(SHARED)
else
OWN_ARCHIVE = target/native/libstragumella.a
OWN_SHARED = target/native/libstragumella.so.$(MAJOR)
endif

TOOL = target/host/stragumella
PARTS = main options many explain look texts whereabouts figures find record names layout writer text sheet input
SOURCES = $(PARTS:%=host/%.c)
HEADERS = $(wildcard host/*.h host/*.inc) include/stragumella.h
COMPILE = $(CC) $(CFLAGS) -D_POSIX_C_SOURCE=200809L -pthread -Iinclude

# Where things are installed. DESTDIR stands before each place when files are written and in no file: for packages.
PREFIX = /usr/local
BINDIR = $(PREFIX)/bin
LIBDIR = $(PREFIX)/lib
INCLUDEDIR = $(PREFIX)/include
DATADIR = $(PREFIX)/share
MANDIR = $(DATADIR)/man
DOCDIR = $(DATADIR)/doc/stragumella
PKGCONFIGDIR = $(LIBDIR)/pkgconfig
BASHDIR = $(DATADIR)/bash-completion/completions
ZSHDIR = $(DATADIR)/zsh/site-functions

PAGES = target/man
PLACES = DESTDIR PREFIX BINDIR LIBDIR INCLUDEDIR MANDIR DOCDIR PKGCONFIGDIR BASHDIR ZSHDIR
INSTALLED = TOOL ARCHIVE SHARED PAGES VERSION MACHINE
quoted = '$(subst ','\'',$(1))'
INSTALL = $(foreach name,$(PLACES) $(INSTALLED),$(name)=$(call quoted,$($(name)))) packaging/install.sh

.PHONY: run test compare bench tool library own-library python man install uninstall version clean

# A refused sheet is among the samples, so status 1 is as it should be.
run: $(TOOL)
	$(TOOL) check samples/*.dat || test $$? -eq 1

test:
	bash .ci/run

compare:
	second/run.sh

bench:
	bench/run.sh

tool: $(TOOL)

library: $(ARCHIVE) $(SHARED)

own-library: $(OWN_ARCHIVE) $(OWN_SHARED)

version:
	@echo $(VERSION)

man: $(PAGES)/stragumella.1 $(PAGES)/stragumella.3

install: tool library man
	@$(INSTALL) install

uninstall:
	@$(INSTALL) uninstall

# rt knows what is proved already; make only asks it when a crate changed. It builds into the crate's folder. The code is for every x86-64
# processor: rt's own choice, x86-64-v2, asks for more, and a library does not look whether it is there.
$(LIBRARY): crates.txt $(shell find crates -path 'crates/*/out' -prune -o -type f -not -path '*/must-fail/*' -print)
	cd crates/capi && rt lib --cpu x86-64
	@mkdir -p $(@D)
	cp crates/capi/out/libcapi.a $@

$(ARCHIVE): $(LIBRARY)
	@mkdir -p $(@D)
	cp $< $@

# The same code as a shared library: nothing but the header's names is seen from outside. By the kit's linker and C library, so it is
# the same on every machine.
$(SHARED): $(LIBRARY) packaging/shared.sh include/stragumella.h
	packaging/shared.sh $@ $< $(NAMES) $(CHAIN)/bin/ld.lld $(CHAIN)/lib/libc.so.6

# As `pip install ./python` does, but into a folder of its own.
python: $(OWN_SHARED)
	rm -rf target/python
	python3 -m pip --quiet --disable-pip-version-check install --no-index --target target/python ./python

target/native/libstragumella.a: $(LIBRARY) host/native.sh
	host/native.sh $@

target/native/libstragumella.so.$(MAJOR): target/native/libstragumella.a packaging/shared.sh include/stragumella.h
	packaging/shared.sh $@ $< $(NAMES) ld $$($(CC) -print-file-name=libc.so.6)

MANUAL = packaging/manual.sh packaging/calls.sh include/stragumella.h

$(PAGES)/stragumella.1: host/stragumella.1 $(MANUAL)
	packaging/manual.sh $@ $< $(VERSION)

$(PAGES)/stragumella.3: packaging/stragumella.3.in $(MANUAL)
	packaging/manual.sh $@ $< $(VERSION)

ifeq ($(MACHINE),x86_64)
$(TOOL): $(SOURCES) $(HEADERS) $(LIBRARY)
	@mkdir -p $(@D)
	$(COMPILE) -o $@ $(SOURCES) $(LIBRARY)
else
$(TOOL): $(SOURCES) $(HEADERS) $(LIBRARY) host/bare.sh
	host/bare.sh $@ $(LIBRARY) $(SOURCES)
endif

# The library's calls one by one.
ifeq ($(MACHINE),x86_64)
target/host/test_api: host/test_api.c host/system.h include/stragumella.h $(LIBRARY)
	@mkdir -p $(@D)
	$(COMPILE) -o $@ host/test_api.c $(LIBRARY)
else
target/host/test_api: host/test_api.c host/system.h include/stragumella.h $(LIBRARY) host/bare.sh
	host/bare.sh $@ $(LIBRARY) host/test_api.c
endif

# Both programs with the compiler's checks of the C side, for this machine.
SANITIZE = -g -fsanitize=address,undefined -fno-sanitize-recover=all

target/host/test_api-sanitized: host/test_api.c host/system.h include/stragumella.h $(OWN_ARCHIVE)
	@mkdir -p $(@D)
	$(COMPILE) $(SANITIZE) -o $@ host/test_api.c $(OWN_ARCHIVE)

target/host/sanitized: $(SOURCES) $(HEADERS) $(OWN_ARCHIVE)
	@mkdir -p $(@D)
	$(COMPILE) $(SANITIZE) -o $@ $(SOURCES) $(OWN_ARCHIVE)

# Both without these checks, for valgrind.
target/host/own: $(SOURCES) $(HEADERS) $(OWN_ARCHIVE)
	@mkdir -p $(@D)
	$(COMPILE) -g -o $@ $(SOURCES) $(OWN_ARCHIVE)

target/host/test_api-own: host/test_api.c host/system.h include/stragumella.h $(OWN_ARCHIVE)
	@mkdir -p $(@D)
	$(COMPILE) -g -o $@ host/test_api.c $(OWN_ARCHIVE)

# The tool with the compiler's check of threads.
target/host/threads: $(SOURCES) $(HEADERS) $(OWN_ARCHIVE)
	@mkdir -p $(@D)
	$(COMPILE) -g -fsanitize=thread -o $@ $(SOURCES) $(OWN_ARCHIVE)

# As on a machine that is not x86-64, to try that way here.
target/host/bare: $(SOURCES) $(HEADERS) $(LIBRARY) host/bare.sh
	host/bare.sh $@ $(LIBRARY) $(SOURCES)

# The program that answers for the library over pipes, for second/run.sh on such a machine.
target/host/answer: second/answer.c host/system.h include/stragumella.h $(LIBRARY) host/bare.sh
	host/bare.sh $@ $(LIBRARY) second/answer.c

clean:
	rm -rf target/host target/lib target/native target/python target/man
