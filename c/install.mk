# Installs the library and, if PROGRAMS is set, the commands. Both c/Makefile and the Makefile of a
# distributed tar file include this; they set HEADERS, ARCHIVE, SHARED, TEMPLATES and VERSION, and may
# set PROGRAMS, MANUALS and COMPLETIONS.
#
#   make install PREFIX=/usr LIBDIR=lib/x86_64-linux-gnu DESTDIR=root
#   make uninstall               with the same settings
#
# A PREFIX that is not an absolute path is a folder below this one; LIBDIR is a folder below PREFIX.

PREFIX ?= /usr/local
LIBDIR ?= lib
DESTDIR ?=
TO = $(abspath $(PREFIX))
LIB = $(DESTDIR)$(TO)/$(LIBDIR)
FILL = sed -e 's|@VERSION@|$(VERSION)|' -e 's|@LIBDIR@|$(LIBDIR)|' \
  -e "s|@PREFIX_FROM_PC@|$$(realpath -m -s --relative-to=/$(LIBDIR)/pkgconfig /)|" \
  -e "s|@PREFIX_FROM_CMAKE@|$$(realpath -m -s --relative-to=/$(LIBDIR)/cmake/sf /)|"
SHARE = $(DESTDIR)$(TO)/share
COMMANDS = $(notdir $(PROGRAMS))
# The functions that sf(3) documents: each is a name of that page, as in `man sf_check`.
FUNCTIONS = $(shell sed -n '/^\.SH NAME/{n;s/ .-.*//;s/,//g;p}' $(MANUALS)/sf.3)

.PHONY: install uninstall

install: $(ARCHIVE) $(SHARED)
	install -d $(DESTDIR)$(TO)/include $(LIB)/pkgconfig $(LIB)/cmake/sf
	install -m 644 $(HEADERS) $(DESTDIR)$(TO)/include
	install -m 644 $(ARCHIVE) $(LIB)/libsf.a
	install -m 644 $(SHARED) $(LIB)/libsf.so.0
	ln -sf libsf.so.0 $(LIB)/libsf.so
	$(FILL) $(TEMPLATES)/sf.pc.in >$(LIB)/pkgconfig/sf.pc
	$(FILL) $(TEMPLATES)/sf-config.cmake.in >$(LIB)/cmake/sf/sf-config.cmake
	$(FILL) $(TEMPLATES)/sf-config-version.cmake.in >$(LIB)/cmake/sf/sf-config-version.cmake
	chmod 644 $(LIB)/pkgconfig/sf.pc $(LIB)/cmake/sf/*.cmake
ifdef MANUALS
	install -d $(SHARE)/man/man3
	install -m 644 $(MANUALS)/sf.3 $(SHARE)/man/man3/sf.3
	for name in $(FUNCTIONS); do ln -sf sf.3 $(SHARE)/man/man3/$$name.3 || exit; done
endif
ifdef PROGRAMS
	install -d $(DESTDIR)$(TO)/bin $(SHARE)/man/man1 $(SHARE)/bash-completion/completions \
	  $(SHARE)/zsh/site-functions
	install -m 755 $(PROGRAMS) $(DESTDIR)$(TO)/bin
	install -m 644 $(COMMANDS:%=$(MANUALS)/%.1) $(SHARE)/man/man1
	install -m 644 $(COMMANDS:%=$(COMPLETIONS)/_%) $(SHARE)/zsh/site-functions
	for name in $(COMMANDS); do \
	  install -m 644 $(COMPLETIONS)/$$name.bash $(SHARE)/bash-completion/completions/$$name || exit; \
	done
endif

# Removes the files, and the folders that are sf's alone.
uninstall:
	rm -f $(addprefix $(DESTDIR)$(TO)/include/,$(notdir $(HEADERS))) $(LIB)/libsf.a $(LIB)/libsf.so.0 $(LIB)/libsf.so \
	  $(LIB)/pkgconfig/sf.pc $(LIB)/cmake/sf/sf-config.cmake $(LIB)/cmake/sf/sf-config-version.cmake
	if [ -d $(LIB)/cmake/sf ]; then rmdir --ignore-fail-on-non-empty $(LIB)/cmake/sf; fi
ifdef MANUALS
	rm -f $(SHARE)/man/man3/sf.3 $(FUNCTIONS:%=$(SHARE)/man/man3/%.3)
endif
ifdef PROGRAMS
	rm -f $(foreach name,$(COMMANDS),$(DESTDIR)$(TO)/bin/$(name) $(SHARE)/man/man1/$(name).1 \
	  $(SHARE)/bash-completion/completions/$(name) $(SHARE)/zsh/site-functions/_$(name))
endif
