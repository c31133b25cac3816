# Builds, checks and installs the command `rpki` and the library for C.
#
#   make                   proves and builds both: two hours of a processor or more, once
#   make program           proves and builds the command alone
#   make library           proves and builds the library alone
#   make check             runs every check (tests/all)
#   make install           installs both; proves and builds nothing
#   make install-program   installs the command, its pages and its completions
#   make install-lib       installs the libraries, the header, its pages and rpki.pc
#   make uninstall         removes what these have installed
#   make dist              makes the files for users without the kit, in dist/ (packaging/dist)
#
# Files go below PREFIX, and all that below DESTDIR:
#   make install PREFIX=$HOME/.local
#   make install PREFIX=/usr LIBDIR=/usr/lib/x86_64-linux-gnu DESTDIR=/tmp/package
# A folder's name may have spaces, but no ", ` or $.
# What isn't built as the sources are now is said, and then nothing is installed.

PREFIX ?= /usr/local
BINDIR ?= $(PREFIX)/bin
LIBDIR ?= $(PREFIX)/lib
INCLUDEDIR ?= $(PREFIX)/include
DATADIR ?= $(PREFIX)/share
MANDIR ?= $(DATADIR)/man
PKGCONFIGDIR ?= $(LIBDIR)/pkgconfig
BASHDIR ?= $(DATADIR)/bash-completion/completions
ZSHDIR ?= $(DATADIR)/zsh/site-functions
FISHDIR ?= $(DATADIR)/fish/vendor_completions.d
INSTALL ?= install

# what would end the quotes round a folder's name in a recipe, or stand for something else there
folders = $(DESTDIR)$(PREFIX)$(BINDIR)$(LIBDIR)$(INCLUDEDIR)$(MANDIR)$(PKGCONFIGDIR)
folders += $(BASHDIR)$(ZSHDIR)$(FISHDIR)
unfit = $(strip $(foreach sign," ` $$,$(findstring $(sign),$(folders))))
ifneq (,$(unfit))
$(error the name of a folder has $(unfit): nothing is installed or removed)
endif

# what tells whether both are proved and built as the sources are now
built = ./rpki built
# what `./rpki prove` and `./rpki library` build
tool = crates/rpki_command/out/rpki_command
library = callers/out
# the command's manual pages, each for the section that its name ends in
pages = $(notdir $(wildcard docs/rpki*.[0-9]))
# the number of the library's interface, which stands in its name
abi = sed -n 's/^.define RPKI_ABI //p' include/rpki.h
# its calls, each with a page of its own
calls = sed -n 's/^uint32_t \(rpki_[a-z_]*\)(.*/\1/p' include/rpki.h

all: program library

program:
	./rpki prove

library:
	./rpki library $(library)

check:
	tests/all

# both are asked for before anything is installed
install:
	@$(built)
	@$(MAKE) install-program install-lib

install-program:
	@$(built) program
	$(INSTALL) -d "$(DESTDIR)$(BINDIR)" "$(DESTDIR)$(MANDIR)/man1" "$(DESTDIR)$(MANDIR)/man5"
	$(INSTALL) -m 755 $(tool) "$(DESTDIR)$(BINDIR)/rpki"
	for page in $(pages); do \
	    $(INSTALL) -m 644 "docs/$$page" "$(DESTDIR)$(MANDIR)/man$${page##*.}/$$page" || exit; done
	$(INSTALL) -d "$(DESTDIR)$(BASHDIR)" "$(DESTDIR)$(ZSHDIR)" "$(DESTDIR)$(FISHDIR)"
	$(INSTALL) -m 644 completions/rpki.bash "$(DESTDIR)$(BASHDIR)/rpki"
	$(INSTALL) -m 644 completions/_rpki "$(DESTDIR)$(ZSHDIR)/_rpki"
	$(INSTALL) -m 644 completions/rpki.fish "$(DESTDIR)$(FISHDIR)/rpki.fish"

install-lib:
	@$(built) library
	$(INSTALL) -d "$(DESTDIR)$(LIBDIR)" "$(DESTDIR)$(INCLUDEDIR)" "$(DESTDIR)$(PKGCONFIGDIR)"
	$(INSTALL) -m 644 $(library)/rpki.h "$(DESTDIR)$(INCLUDEDIR)/rpki.h"
	$(INSTALL) -m 644 $(library)/librpki.a "$(DESTDIR)$(LIBDIR)/librpki.a"
	$(INSTALL) -m 755 $(library)/librpki.so "$(DESTDIR)$(LIBDIR)/librpki.so.$$($(abi))"
	ln -sf "librpki.so.$$($(abi))" "$(DESTDIR)$(LIBDIR)/librpki.so"
	version=$$(./rpki --version) && version=$$(printf '%s\n' "$$version" | sed -n '1s/.* //p') && \
	    { printf '%s\n' "prefix=$(PREFIX)" "libdir=$(LIBDIR)" \
	    "includedir=$(INCLUDEDIR)" && sed "s|@version@|$$version|" callers/c/rpki.pc.in; } \
	    > "$(DESTDIR)$(PKGCONFIGDIR)/rpki.pc"
	chmod 644 "$(DESTDIR)$(PKGCONFIGDIR)/rpki.pc"
	$(INSTALL) -d "$(DESTDIR)$(MANDIR)/man3"
	awk -f callers/c/page.awk include/rpki.h callers/c/holds.c > "$(DESTDIR)$(MANDIR)/man3/librpki.3"
	chmod 644 "$(DESTDIR)$(MANDIR)/man3/librpki.3"
	for name in $$($(calls)); do page="$(DESTDIR)$(MANDIR)/man3/$$name.3" && rm -f "$$page" && \
	    awk -v call="$$name" -f callers/c/page.awk include/rpki.h callers/c/*.c > "$$page" && \
	    chmod 644 "$$page" || exit; done

# a library of another interface has another name, and stays
uninstall:
	rm -f "$(DESTDIR)$(BINDIR)/rpki"
	for page in $(pages); do rm -f "$(DESTDIR)$(MANDIR)/man$${page##*.}/$$page" || exit; done
	rm -f "$(DESTDIR)$(BASHDIR)/rpki" "$(DESTDIR)$(ZSHDIR)/_rpki" "$(DESTDIR)$(FISHDIR)/rpki.fish"
	rm -f "$(DESTDIR)$(INCLUDEDIR)/rpki.h" "$(DESTDIR)$(PKGCONFIGDIR)/rpki.pc"
	rm -f "$(DESTDIR)$(LIBDIR)/librpki.a" "$(DESTDIR)$(LIBDIR)/librpki.so" \
	    "$(DESTDIR)$(LIBDIR)/librpki.so.$$($(abi))"
	for name in librpki $$($(calls)); do rm -f "$(DESTDIR)$(MANDIR)/man3/$$name.3" || exit; done

dist:
	@packaging/dist

.PHONY: all program library check install install-program install-lib uninstall dist
