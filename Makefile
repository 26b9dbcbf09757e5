# Installs the programs, `irp` with its scripts, the host of drivers in C, lessons, examples and pages below PREFIX, and
# takes them away again. FLAGS=--unproved takes programs that were built without proofs. DESTDIR stands before PREFIX while
# somebody packs the files.
PREFIX ?= /usr/local
DESTDIR ?=
FLAGS ?=

.PHONY: help install uninstall
help:
	@echo 'make install [PREFIX=/usr/local] [DESTDIR=] [FLAGS=--unproved]; make uninstall; bin/prove builds the programs'

install:
	bin/release $(FLAGS) --install '$(DESTDIR)$(PREFIX)'

uninstall:
	bin/release --uninstall '$(DESTDIR)$(PREFIX)'
