# Installs the release (docs/release.md): what the proofs and the kit have made, as files. It needs
# Python alone, and neither the kit nor a compiler.
#   make install PREFIX=/usr/local DESTDIR=    the script, the library, headers, pages
#   make uninstall PREFIX=/usr/local DESTDIR=  removes them
#   make deb, make wheel, make crate           packages, in release/build
# RELEASED=1 takes the release also where it is of other sources than these.
PREFIX ?= /usr/local
LIBDIR ?= $(PREFIX)/lib
DESTDIR ?=
RELEASED ?=
export RELEASED
INSTALLING := python3 -B -m tool.installing

all:
	@echo "make install PREFIX=.. installs the release; ./zehimbado help says what there is to run"

install uninstall:
	$(INSTALLING) $@ '$(PREFIX)' '$(LIBDIR)' '$(DESTDIR)'

deb wheel crate:
	release/pack $@

.PHONY: all install uninstall deb wheel crate
