# make install PREFIX=/usr/local DESTDIR=    copies the library, its headers, the program, its tools and their pages
# make uninstall PREFIX=/usr/local DESTDIR=  takes away what any version has installed there
# make reference                             writes docs/reference: definitions and contracts, as they stand in their files
# make site                                  renders the pages of a checkout, docs/reference and the man pages in site, by pandoc
#
# In an unpacked release all stands ready. In a checkout packaging/make_tree puts it together first; its head says from
# what. Of the Rattle toolchain nothing is run.
PREFIX ?= /usr/local
DESTDIR ?=
# The archive and the program to install, if they aren't those of this checkout.
ARCHIVE ?=
PROGRAM ?=
MACHINE := $(shell uname -s -m)

own_folders := include/paldwosk lib/cmake/paldwosk libexec/paldwosk share/paldwosk share/doc/paldwosk
own_files := bin/phaser_run bin/phaser-check bin/phaser-picture \
  lib/libpaldwosk.a lib/libpaldwosk.so lib/libpaldwosk.so.[0-9]* lib/pkgconfig/paldwosk.pc \
  share/man/man1/phaser_run.1 share/man/man1/phaser-check.1 share/man/man1/phaser-picture.1 \
  share/man/man3/paldwosk_*.3 share/man/man5/paldwosk-trace.5 \
  share/bash-completion/completions/phaser_run share/zsh/site-functions/_phaser_run \
  share/fish/vendor_completions.d/phaser_run.fish

# A checkout without a program has no libexec.
parts = $$(ls -d bin include lib libexec share 2> /dev/null)

.PHONY: help install machine reference site uninstall
help:
	@sed -n 's/^# \(make .*\)/\1/p' Makefile

machine:
	@[ "$(MACHINE)" = "Linux x86_64" ] || \
	  { echo "make: the library is built for Linux on x86_64 alone, and this is $(MACHINE)" >&2; exit 1; }

# Sets `from` to the folder that has what is installed.
ifeq ($(wildcard crates.txt),)
# Each file has to be the one whose digest was written when the release was made.
find_tree = sha256sum --check --quiet share/doc/paldwosk/*PROVED || \
  { echo "make: a file of this release isn't as it was made, see above; nothing is installed" >&2; exit 1; }; from=.
else
find_tree = room=$$(mktemp -d) && trap 'rm -rf "$$room"' EXIT && from=$$room/tree && \
  packaging/make_tree "$$from" "$(ARCHIVE)" "$(PROGRAM)" || exit
endif

install: machine
	@$(find_tree); mkdir -p "$(DESTDIR)$(PREFIX)" && to=$$(cd "$(DESTDIR)$(PREFIX)" && pwd) && cd "$$from" && \
	  find $(parts) -type d | while read -r it; do mkdir -p "$$to/$$it" || exit; done && \
	  find $(parts) -type f | while read -r it; do \
	    if [ -x "$$it" ]; then mode=755; else mode=644; fi; install -m $$mode "$$it" "$$to/$$it" || exit; done && \
	  find $(parts) -type l | while read -r it; do cp -P -f "$$it" "$$to/$$it" || exit; done && \
	  echo "installed in $$to"

reference:
	@tools/reference

site:
	@tools/site site

uninstall:
	@[ ! -d "$(DESTDIR)$(PREFIX)" ] || \
	  { cd "$(DESTDIR)$(PREFIX)" && rm -f $(own_files) && rm -rf $(own_folders); }
