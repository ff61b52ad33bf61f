# Installs what dist/ has, which needs no compiler: the library for C with its header, and the programs.
#
#     make install PREFIX=$HOME/.local
#     make uninstall PREFIX=$HOME/.local
#
# install-library, install-development and install-programs install a part: the shared library; the header, the static
# library, and what pkg-config and CMake find; the programs, where dist/ has them for the machine. These may be set:
#
#   PREFIX    /usr/local otherwise; BINDIR, LIBDIR, INCLUDEDIR and DOCDIR are bin, lib, include and share/doc/weoldrin
#             below it
#   DESTDIR   a folder that stands for / until the files are in their places, as where a package is made
#   TARGET    the machine: the name of a folder of dist/
#
# All that is installed finds the rest from its own place, so that the whole may be moved.

PREFIX = /usr/local
BINDIR = $(PREFIX)/bin
LIBDIR = $(PREFIX)/lib
INCLUDEDIR = $(PREFIX)/include
DOCDIR = $(PREFIX)/share/doc/weoldrin
DESTDIR =
TARGET = $(shell uname -m)-linux

DIST = dist/$(TARGET)
VERSION := $(shell sed -n 's/^.define WARG_VERSION "\(.*\)"$$/\1/p' include/warg.h)
numbers := $(subst ., ,$(VERSION))
# Below 1.0.0 the second number may change the calls too.
BINARY := $(word 1,$(numbers))$(if $(filter 0,$(word 1,$(numbers))),.$(word 2,$(numbers)))
SONAME = libwarg.so.$(BINARY)
PKGCONFIGDIR = $(LIBDIR)/pkgconfig
CMAKEDIR = $(LIBDIR)/cmake/warg
PROGRAMS = weoldrin warg_audit
DOCUMENTS = LICENSE NOTICE CHANGELOG.md

# The path from a folder to another one, whether they are there or not.
path = $(shell realpath -ms --relative-to="$(1)" "$(2)")
fill = sed -e 's|@VERSION@|$(VERSION)|' -e 's|@SONAME@|$(SONAME)|' -e 's|@BINARY_PATTERN@|$(subst .,\\\\.,$(BINARY))|' \
	-e 's|@PREFIX@|$(call path,$(PKGCONFIGDIR),$(PREFIX))|' -e 's|@INCLUDE@|$(call path,$(PREFIX),$(INCLUDEDIR))|' \
	-e 's|@HEADERS@|$(call path,$(CMAKEDIR),$(INCLUDEDIR))|' packaging/c/$(1).in > "$(DESTDIR)$(2)/$(1)" \
	&& chmod 644 "$(DESTDIR)$(2)/$(1)"

.PHONY: install install-library install-development install-programs install-documents uninstall is-there
.NOTPARALLEL:

install: install-library install-development install-programs install-documents

is-there:
	@test -f $(DIST)/libwarg.so || \
		{ echo "dist/ has no library for $(TARGET), but for: $(notdir $(wildcard dist/*-*))" >&2; exit 1; }

install-library: is-there
	install -d "$(DESTDIR)$(LIBDIR)"
	install -m 644 $(DIST)/libwarg.so "$(DESTDIR)$(LIBDIR)/libwarg.so.$(VERSION)"
	ln -sf libwarg.so.$(VERSION) "$(DESTDIR)$(LIBDIR)/$(SONAME)"

install-development: is-there
	install -d "$(DESTDIR)$(INCLUDEDIR)" "$(DESTDIR)$(LIBDIR)" "$(DESTDIR)$(PKGCONFIGDIR)" "$(DESTDIR)$(CMAKEDIR)"
	install -m 644 include/warg.h "$(DESTDIR)$(INCLUDEDIR)/warg.h"
	install -m 644 $(DIST)/libwarg.a "$(DESTDIR)$(LIBDIR)/libwarg.a"
	ln -sf $(SONAME) "$(DESTDIR)$(LIBDIR)/libwarg.so"
	$(call fill,warg.pc,$(PKGCONFIGDIR))
	$(call fill,warg-config.cmake,$(CMAKEDIR))
	$(call fill,warg-config-version.cmake,$(CMAKEDIR))

install-programs:
	install -d "$(DESTDIR)$(BINDIR)"
	for it in $(PROGRAMS); do \
		if [ -f $(DIST)/$$it ]; then install -m 755 $(DIST)/$$it "$(DESTDIR)$(BINDIR)/$$it" || exit 1; \
		else echo "left out: dist/ has no $$it for $(TARGET)"; fi; \
	done
	install -m 755 bin/weoldrin-sign "$(DESTDIR)$(BINDIR)/weoldrin-sign"

install-documents:
	install -d "$(DESTDIR)$(DOCDIR)"
	install -m 644 $(DOCUMENTS) "$(DESTDIR)$(DOCDIR)"

uninstall:
	rm -f "$(DESTDIR)$(LIBDIR)/libwarg.a" "$(DESTDIR)$(LIBDIR)/libwarg.so" "$(DESTDIR)$(LIBDIR)/$(SONAME)"
	rm -f "$(DESTDIR)$(LIBDIR)/libwarg.so.$(VERSION)" "$(DESTDIR)$(INCLUDEDIR)/warg.h"
	rm -f "$(DESTDIR)$(PKGCONFIGDIR)/warg.pc" "$(DESTDIR)$(CMAKEDIR)/warg-config.cmake"
	rm -f "$(DESTDIR)$(CMAKEDIR)/warg-config-version.cmake"
	for it in $(PROGRAMS) weoldrin-sign; do rm -f "$(DESTDIR)$(BINDIR)/$$it" || exit 1; done
	for it in $(DOCUMENTS); do rm -f "$(DESTDIR)$(DOCDIR)/$$it" || exit 1; done
	for it in "$(DESTDIR)$(CMAKEDIR)" "$(DESTDIR)$(DOCDIR)"; do if [ -d "$$it" ]; then rmdir "$$it"; fi; done
