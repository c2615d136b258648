# Installs what this folder has, without compiling anything: see install.mk for the settings.
VERSION = @VERSION@
HEADERS = include/sf.h include/sf_functions.h include/sf_inline.h
ARCHIVE = lib/libsf.a
SHARED = lib/libsf.so.0
TEMPLATES = templates
PROGRAMS = bin/sf bin/sflint
MANUALS = man
COMPLETIONS = completions

.PHONY: all
all:
	@echo 'nothing to build: make install PREFIX=/usr/local'

include install.mk
