# `make` proves and builds the program and the library, `make install` installs what was built.
#
#     make install DESTDIR= PREFIX=/usr/local LIBDIR=lib
#     make uninstall, with the same arguments
#
# They may also be in the environment, where an empty one is none.

ifneq ($(origin PREFIX),command line)
override PREFIX := $(or $(PREFIX),/usr/local)
endif
override LIBDIR := $(or $(LIBDIR),lib)
DESTDIR ?=
INSTALL = python3 -m packaging.install --destdir "$(DESTDIR)" --prefix "$(PREFIX)" --libdir "$(LIBDIR)"

all:
	./zkdump check < crates/zkdump/stdin
	python3 -m packaging.build_library
	python3 -m packaging.make_columns

install:
	$(INSTALL)

uninstall:
	$(INSTALL) --remove

.PHONY: all install uninstall
