# The library for C, and the line program:
#
#   make                                    target/c/libpartyid.a, libpartyid.so, partyid.pc and the manual pages; target/native/checklines
#   make install PREFIX=/usr/local DESTDIR= puts them in place, and the header
#   make uninstall PREFIX=.. DESTDIR=..     takes them away again
#   make test                               tests/run
#   make clean                              removes target/c; what is proved stays
#
# Needs rt, the command of the Rattle kit, where something is not proved yet or its sources have changed.

VERSION := $(shell sed -n 's/^\#define PARTYID_VERSION "\(.*\)"$$/\1/p' include/partyid.h)
# Goes up when a program linked against the former library would no longer work.
SONAME := libpartyid.so.0

PREFIX ?= /usr/local
BINDIR ?= $(PREFIX)/bin
LIBDIR ?= $(PREFIX)/lib
INCLUDEDIR ?= $(PREFIX)/include
PKGCONFIGDIR ?= $(LIBDIR)/pkgconfig
MANDIR ?= $(PREFIX)/share/man
# Where the script checklines looks for its program: beside its own folder, whatever that is called.
PROGRAMDIR = $(BINDIR)/../libexec/partyid
INSTALL ?= install
OBJCOPY ?= objcopy

# A folder is named from / on: a file of pkg-config is read from anywhere. White space and these characters have a meaning to make, to a shell, to
# sed or to pkg-config.
bad_characters := ' " \ | & ; < > ` $$ % * ? ( )
is_folder = $(and $(filter 1,$(words $(1))),$(filter /%,$(1)),$(if $(strip $(foreach c,$(bad_characters),$(findstring $(c),$(1)))),,good))
check_folder = $(if $(call is_folder,$($(1))),,$(error $(1)=$($(1)) is refused: a folder is named from / on, without white space or any of $(bad_characters)))
$(foreach folder,PREFIX BINDIR LIBDIR INCLUDEDIR PKGCONFIGDIR MANDIR,$(call check_folder,$(folder)))
$(if $(findstring ',$(DESTDIR)),$(error DESTDIR=$(DESTDIR) is refused: it has a quote in it))

OUT := target/c
PROVED := target/staticlib/libpartyid.a
PROGRAM := target/native/checklines

# The manual pages of section 1, and commands that are installed as they are.
MAN1 := $(OUT)/checklines.1
SCRIPTS := checklines

# Every library crate, with its folders: a file that is removed changes only its folder. Programs and must-fail edits are no part of it.
CRATES := $(patsubst %/src/lib.rt,%,$(wildcard crates/*/src/lib.rt))
sources_of = $(shell find $(wildcard $(foreach part,src specs proofs,$(1:%=%/$(part)))))
SOURCES := crates.txt $(call sources_of,$(CRATES))
MACHINE := machine/has_rt machine/is_native machine/object

.DELETE_ON_ERROR:
.PHONY: all install uninstall test clean FORCE

all: $(OUT)/libpartyid.a $(OUT)/libpartyid.so $(OUT)/partyid.pc $(PROGRAM) $(MAN1)

# The prover tells each step; it is shown where a step fails.
$(PROVED): $(SOURCES) $(MACHINE) machine/staticlib
	@mkdir -p $(OUT)
	@echo 'proving the library; from nothing this takes some minutes ..'
	@machine/staticlib partyid >$(OUT)/rt.log 2>&1 || { cat $(OUT)/rt.log >&2; exit 1; }

# Not beside the library: two runs of rt would prove the same crates into the same files.
$(PROGRAM): $(SOURCES) $(call sources_of,crates/checklines) $(MACHINE) machine/program | $(PROVED)
	@mkdir -p $(OUT)
	@echo 'proving the line program ..'
	@machine/program checklines >$(OUT)/program.log 2>&1 || { cat $(OUT)/program.log >&2; exit 1; }

# The version, the words and the reading of a tally, the one part of the library that is not proved. It decides nothing.
$(OUT)/words.o: c/words.c include/partyid.h
	@mkdir -p $(OUT)
	$(CC) -std=c11 -O2 -Wall -Wextra -Wpedantic -fPIC -Iinclude $(CFLAGS) -c -o $@ $<

# Where a loop lies to the boundaries of a line of the cache can double its time: each function begins at one, wherever a program puts it.
$(OUT)/libpartyid.a: $(PROVED) $(OUT)/words.o
	$(OBJCOPY) --set-section-alignment '.text*=64' $< $@
	$(AR) rs $@ $(OUT)/words.o

# -z defs refuses a symbol that neither the archive nor the C library has, -z text code that is not position-independent.
$(OUT)/$(SONAME): $(OUT)/libpartyid.a include/partyid.map
	@mkdir -p $(OUT)
	$(CC) -shared -Wl,-soname,$(SONAME) -Wl,--version-script=include/partyid.map -Wl,-z,defs -Wl,-z,text -Wl,-z,relro -Wl,-z,now \
	    $(LDFLAGS) -o $@ -Wl,--whole-archive $< -Wl,--no-whole-archive

# A copy and no link: rt takes no links in the folder of a repository.
$(OUT)/libpartyid.so: $(OUT)/$(SONAME)
	@rm -f $@
	cp $< $@

# A folder under the prefix follows it, also where pkg-config is given another one.
by_prefix = $(patsubst $(PREFIX)/%,$${prefix}/%,$(1))

# Written anew where a folder given on the command line makes it another file.
$(OUT)/partyid.pc: include/partyid.pc.in FORCE
	@mkdir -p $(OUT)
	@sed -e 's|@PREFIX@|$(PREFIX)|' -e 's|@LIBDIR@|$(call by_prefix,$(LIBDIR))|' -e 's|@INCLUDEDIR@|$(call by_prefix,$(INCLUDEDIR))|' \
	    -e 's|@VERSION@|$(VERSION)|' $< >$@.new
	@if cmp -s $@.new $@; then rm $@.new; else mv $@.new $@; fi

$(OUT)/checklines.1: checklines man/from-help
	@mkdir -p $(OUT)
	man/from-help ./checklines >$@

install: all
	$(INSTALL) -d '$(DESTDIR)$(BINDIR)' '$(DESTDIR)$(INCLUDEDIR)' '$(DESTDIR)$(LIBDIR)' '$(DESTDIR)$(PKGCONFIGDIR)' '$(DESTDIR)$(MANDIR)/man1'
	$(INSTALL) -d '$(DESTDIR)$(PROGRAMDIR)'
	$(INSTALL) -m 644 include/partyid.h '$(DESTDIR)$(INCLUDEDIR)'
	$(INSTALL) -m 644 $(OUT)/libpartyid.a '$(DESTDIR)$(LIBDIR)'
	$(INSTALL) -m 755 $(OUT)/$(SONAME) '$(DESTDIR)$(LIBDIR)'
	ln -sf $(SONAME) '$(DESTDIR)$(LIBDIR)/libpartyid.so'
	$(INSTALL) -m 644 $(OUT)/partyid.pc '$(DESTDIR)$(PKGCONFIGDIR)'
	$(INSTALL) -m 755 $(PROGRAM) '$(DESTDIR)$(PROGRAMDIR)'
	$(INSTALL) -m 755 $(SCRIPTS) '$(DESTDIR)$(BINDIR)'
	$(INSTALL) -m 644 $(MAN1) '$(DESTDIR)$(MANDIR)/man1'

# What install put there, and the one folder that is its own.
uninstall:
	rm -f '$(DESTDIR)$(INCLUDEDIR)/partyid.h' '$(DESTDIR)$(PKGCONFIGDIR)/partyid.pc'
	cd '$(DESTDIR)$(LIBDIR)' 2>/dev/null && rm -f libpartyid.a $(SONAME) libpartyid.so || true
	cd '$(DESTDIR)$(BINDIR)' 2>/dev/null && rm -f $(notdir $(SCRIPTS)) || true
	cd '$(DESTDIR)$(MANDIR)/man1' 2>/dev/null && rm -f $(notdir $(MAN1)) || true
	rm -f '$(DESTDIR)$(PROGRAMDIR)/$(notdir $(PROGRAM))'
	rmdir '$(DESTDIR)$(PROGRAMDIR)' 2>/dev/null || true

test:
	@tests/run

clean:
	rm -rf $(OUT)

include bindings/python/python.mk
