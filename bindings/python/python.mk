# The Python package and its command partyid; Makefile includes this.
#
#   make wheel                  target/python/partyid-VERSION-py3-none-MACHINE.whl, with the library in it, for pip
#   make install, uninstall     also the command partyid with its manual page and its completion for bash

PYTHON ?= python3
BINDIR ?= $(PREFIX)/bin
MANDIR ?= $(PREFIX)/share/man
COMPLETIONDIR ?= $(PREFIX)/share/bash-completion/completions
PACKAGEDIR ?= $(LIBDIR)/partyid

PACKAGE := bindings/python/partyid

.PHONY: wheel install-python uninstall uninstall-python

wheel: $(OUT)/libpartyid.so
	$(PYTHON) -B bindings/python/wheel_backend.py target/python

install: install-python
install-python: $(OUT)/$(SONAME)
	$(INSTALL) -d '$(DESTDIR)$(BINDIR)' '$(DESTDIR)$(MANDIR)/man1' '$(DESTDIR)$(COMPLETIONDIR)' '$(DESTDIR)$(PACKAGEDIR)/partyid'
	$(INSTALL) -m 644 $(PACKAGE)/*.py $(PACKAGE)/py.typed '$(DESTDIR)$(PACKAGEDIR)/partyid'
	$(INSTALL) -m 755 $(OUT)/$(SONAME) '$(DESTDIR)$(PACKAGEDIR)/partyid/libpartyid.so'
	$(INSTALL) -m 644 bindings/python/man/partyid.1 '$(DESTDIR)$(MANDIR)/man1'
	$(INSTALL) -m 644 bindings/python/completion/partyid '$(DESTDIR)$(COMPLETIONDIR)'
	sed 's|@PACKAGEDIR@|$(PACKAGEDIR)|' bindings/python/launcher.in >'$(DESTDIR)$(BINDIR)/partyid'
	chmod 755 '$(DESTDIR)$(BINDIR)/partyid'

uninstall: uninstall-python
uninstall-python:
	rm -f '$(DESTDIR)$(BINDIR)/partyid' '$(DESTDIR)$(MANDIR)/man1/partyid.1' '$(DESTDIR)$(COMPLETIONDIR)/partyid'
	rm -rf '$(DESTDIR)$(PACKAGEDIR)/partyid'
	rmdir '$(DESTDIR)$(PACKAGEDIR)' 2>/dev/null || true
