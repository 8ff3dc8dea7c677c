# SPDX-License-Identifier: BSD-2-Clause OR GPL-2.0-or-later
# Builds, checks and installs Sunderwath. GNU make; `make help` lists the targets.

# ---- what may be given on the command line

HOST := $(shell uname -m)
TARGETS := x86_64 aarch64 riscv64
TARGET ?= $(or $(filter $(TARGETS),$(HOST)),x86_64)
DESTDIR ?=
PREFIX ?= /usr/local
BINDIR ?= $(PREFIX)/bin
# Archives for other processors have a folder of their own, so that all can be installed beside the host's.
ifeq ($(TARGET),$(HOST))
LIBDIR ?= $(PREFIX)/lib
else
LIBDIR ?= $(PREFIX)/lib/sunderwath/$(TARGET)
endif
INCLUDEDIR ?= $(PREFIX)/include
DATADIR ?= $(PREFIX)/share
MANDIR ?= $(DATADIR)/man
DOCDIR ?= $(DATADIR)/doc/sunderwath
CARGO ?= cargo
INSTALL ?= install

ifndef V
.SILENT:
endif

ifneq ($(words $(filter $(TARGETS),$(TARGET))),1)
$(error TARGET is one of $(TARGETS), not '$(TARGET)')
endif

# ---- what is built

FOLDER := target/archive/$(TARGET)
ARCHIVE := $(FOLDER)/libsunderwath.a
COMMAND := target/cli/release/sunderwath
# The command line is for the machine that it is built on.
BUILT := $(ARCHIVE) $(if $(filter $(HOST),$(TARGET)),$(COMMAND))

.PHONY: all check install uninstall clean distclean help force

all: $(BUILT)

# `make` has rt and cargo look for changes. `make install` alone builds only what is not there, and needs neither otherwise.
ifneq ($(filter all,$(or $(MAKECMDGOALS),all)),)
$(BUILT): force
endif

$(ARCHIVE):
	./scripts/archive.sh $(TARGET)

$(COMMAND): | $(ARCHIVE)
	$(CARGO) build --offline --quiet --release --manifest-path cli/Cargo.toml --target-dir target/cli

check:
	./scripts/test.sh

# ---- what is installed, and where

# The files of one target, and those that all targets share.
OF_TARGET := $(LIBDIR)/libsunderwath.a $(LIBDIR)/pkgconfig/sunderwath.pc
ifeq ($(TARGET),riscv64)
OF_TARGET += $(LIBDIR)/rv64imac/libsunderwath.a $(LIBDIR)/rv64imac/pkgconfig/sunderwath.pc
endif
ifeq ($(TARGET),$(HOST))
OF_TARGET += $(BINDIR)/sunderwath $(MANDIR)/man1/sunderwath.1 $(DATADIR)/sunderwath/schema.json
endif
SHARED := $(INCLUDEDIR)/sunderwath.h $(DATADIR)/sunderwath/sunderwath_text.c $(DOCDIR)/LICENSE $(DOCDIR)/GPL-2.0.txt

# Folders that nothing else is installed into, the inner ones first; they go with their last file.
OWN := $(DATADIR)/sunderwath $(DOCDIR) $(if $(filter $(TARGET),riscv64),$(LIBDIR)/rv64imac/pkgconfig $(LIBDIR)/rv64imac) \
	$(filter $(PREFIX)/lib/sunderwath%,$(LIBDIR)/pkgconfig $(LIBDIR) $(PREFIX)/lib/sunderwath)

# A folder as the pkg-config file has it: told from the prefix where it lies below.
below = $(patsubst $(PREFIX)/%,$${prefix}/%,$(1))

# Installs one file: MODE, SOURCE, DESTINATION
put = $(INSTALL) -D -m $(1) $(2) "$(DESTDIR)$(3)"

# Installs the archive of a folder and its pkg-config file: FOLDER, LIBDIR
define put_library
	$(call put,644,$(1)/libsunderwath.a,$(2)/libsunderwath.a)
	$(call put,644,sunderwath.pc.in,$(2)/pkgconfig/sunderwath.pc)
	version=$$(./scripts/version.sh) && sed -e "/^#/d; s|@VERSION@|$$version|" \
		-e 's|@PREFIX@|$(PREFIX)|; s|@LIBDIR@|$(call below,$(2))|' \
		-e 's|@INCLUDEDIR@|$(call below,$(INCLUDEDIR))|; s|@DATADIR@|$(call below,$(DATADIR))|' \
		sunderwath.pc.in >"$(DESTDIR)$(2)/pkgconfig/sunderwath.pc"
endef

install: $(BUILT)
	$(call put_library,$(FOLDER),$(LIBDIR))
ifeq ($(TARGET),riscv64)
	$(call put_library,$(FOLDER)/rv64imac,$(LIBDIR)/rv64imac)
endif
	$(call put,644,include/sunderwath.h,$(INCLUDEDIR)/sunderwath.h)
	$(call put,644,include/sunderwath_text.c,$(DATADIR)/sunderwath/sunderwath_text.c)
	$(call put,644,LICENSE,$(DOCDIR)/LICENSE)
	$(call put,644,LICENSES/GPL-2.0.txt,$(DOCDIR)/GPL-2.0.txt)
ifeq ($(TARGET),$(HOST))
	$(call put,755,$(COMMAND),$(BINDIR)/sunderwath)
	$(call put,644,docs/sunderwath.1,$(MANDIR)/man1/sunderwath.1)
	$(call put,644,docs/schema.json,$(DATADIR)/sunderwath/schema.json)
endif

# What all targets share goes with the last of them.
uninstall:
	for file in $(OF_TARGET); do rm -f "$(DESTDIR)$$file" || exit 1; done
	if ! find "$(DESTDIR)$(PREFIX)/lib" -name libsunderwath.a 2>/dev/null | grep -q .; then \
		for file in $(SHARED); do rm -f "$(DESTDIR)$$file" || exit 1; done; \
	fi
	for folder in $(OWN); do rmdir "$(DESTDIR)$$folder" 2>/dev/null || true; done

# What was proved stays: proving all again takes minutes.
clean:
	rm -rf target/archive target/cli

distclean:
	rm -rf target crates/*/out

help:
	echo 'make             the library and, for this machine, the command line, below target/'
	echo 'make check       all proofs and all tests (scripts/test.sh)'
	echo 'make install     what make built; builds only what is not there'
	echo 'make uninstall   removes what make install with the same variables installs'
	echo 'make clean       removes the library and the command line; make distclean the proofs, too'
	echo
	echo 'TARGET=x86_64|aarch64|riscv64, now $(TARGET); for another processor than this machine no command line is made'
	echo 'DESTDIR=$(DESTDIR)'
	echo 'PREFIX=$(PREFIX)'
	echo 'BINDIR=$(BINDIR) LIBDIR=$(LIBDIR) INCLUDEDIR=$(INCLUDEDIR)'
	echo 'DATADIR=$(DATADIR) MANDIR=$(MANDIR) DOCDIR=$(DOCDIR)'
	echo 'CARGO=$(CARGO) INSTALL=$(INSTALL); V=1 shows the commands'
