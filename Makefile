# Builds and installs the library for C with its headers, and the program asn_tool.
#
#   make                          builds the library in build/library, without a proof
#   make program                  builds the program below build/program, without a proof
#   make install                  installs the library, its headers, and what pkg-config and CMake need to find it
#   make install-program          installs the program, its manual page and completions
#   make clean                    removes build, so that the next command builds anew
#
# Variables: PREFIX (/usr/local), LIBDIR, INCLUDEDIR and DESTDIR say where. TULVORN_ARCHIVES is a folder in which
# bindings/build.py left a library, and PROGRAM a program that is built: these are installed, and nothing is built.
# HOW=--proved builds a library that is proved.
PREFIX ?= /usr/local
LIBDIR ?= $(PREFIX)/lib
INCLUDEDIR ?= $(PREFIX)/include
LIBRARY = $(or $(TULVORN_ARCHIVES),build/library)
PROGRAM ?= build/program/bin/asn_tool
HOW ?= --unproved

TO_LIBRARIES = $(DESTDIR)$(LIBDIR)
TO_HEADERS = $(DESTDIR)$(INCLUDEDIR)
TO_CMAKE = $(TO_LIBRARIES)/cmake/tulvorn
# the headers as found from the folders of pkg-config's and of CMake's files
FROM_CONFIG = $(shell realpath -ms --relative-to=$(LIBDIR)/pkgconfig $(INCLUDEDIR))
FROM_CMAKE = $(shell realpath -ms --relative-to=$(LIBDIR)/cmake/tulvorn $(INCLUDEDIR))
# the version of the library, and the number of its header
VERSION = $(shell sed -n 's/^Version: //p' $(LIBRARY)/tulvorn.pc)
INTERFACE = $(shell sed -n 's/^interface=//p' $(LIBRARY)/tulvorn.pc)

library: $(LIBRARY)/tulvorn.pc
program: $(PROGRAM)

$(LIBRARY)/tulvorn.pc:
	python3 bindings/build.py $(HOW) $(LIBRARY)

$(PROGRAM):
	python3 install.py build/program

install: $(LIBRARY)/tulvorn.pc
	install -d $(TO_HEADERS) $(TO_LIBRARIES)/pkgconfig $(TO_CMAKE)
	install -m 644 $(LIBRARY)/tulvorn.h bindings/cpp/tulvorn.hpp $(TO_HEADERS)
	install -m 644 $(LIBRARY)/libtulvorn.a $(LIBRARY)/libtulvorn.so.$(INTERFACE) $(TO_LIBRARIES)
	ln -sf libtulvorn.so.$(INTERFACE) $(TO_LIBRARIES)/libtulvorn.so
	sed -e 's|^libdir=.*|libdir=$${pcfiledir}/..|' -e 's|^includedir=.*|includedir=$${pcfiledir}/$(FROM_CONFIG)|' \
	    $(LIBRARY)/tulvorn.pc >$(TO_LIBRARIES)/pkgconfig/tulvorn.pc
	for file in Config ConfigVersion; do \
	    sed -e 's|@INCLUDE@|$(FROM_CMAKE)|' -e 's|@INTERFACE@|$(INTERFACE)|' -e 's|@VERSION@|$(VERSION)|' \
	        packaging/tulvorn$$file.cmake.in >$(TO_CMAKE)/tulvorn$$file.cmake || exit 1; \
	done

install-program: $(PROGRAM)
	python3 install.py --program $(PROGRAM) $(DESTDIR)$(PREFIX)

clean:
	rm -rf build

.PHONY: library program install install-program clean
