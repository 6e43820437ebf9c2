# Builds the programs and the library, each proved first, and installs them:
#
#     make                             proves and builds, with `tools/build`
#     make shared                      links the library once more, as a shared one, which Python's module loads
#     make install PREFIX=$HOME/.local programs, man pages, library and header; DESTDIR is put in front, for packages
#     make uninstall PREFIX=..         takes them away again
#
# The gate is .ci/run.
PREFIX ?= /usr/local
DESTDIR ?=
INSTALL ?= install

PROGRAMS = card day pages qdimacs session tag untag
BIN = $(DESTDIR)$(PREFIX)/bin
LIB = $(DESTDIR)$(PREFIX)/lib
INCLUDE = $(DESTDIR)$(PREFIX)/include
MAN = $(DESTDIR)$(PREFIX)/share/man/man1
# Beside lib, where the module looks for the shared library.
MODULE = $(DESTDIR)$(PREFIX)/share/bullacetop

ARCHIVE = target/staticlib/libbullacetop.a
SHARED = target/staticlib/libbullacetop.so

all: programs library

programs:
	tools/build $(PROGRAMS)

library:
	tools/build bullacetop

shared:
	@[ -f $(ARCHIVE) ] || { echo "$(ARCHIVE) is not there: make library"; exit 1; }
	$(CC) -shared -o $(SHARED) -Wl,--whole-archive $(ARCHIVE) -Wl,--no-whole-archive

# Installs what stands in target/: build it first, as another user if need be. Python's module goes with the shared library, where that was built.
install:
	@for p in $(PROGRAMS); do [ -x target/bin/$$p ] || { echo "target/bin/$$p is not there: make programs"; exit 1; }; done
	@[ -f $(ARCHIVE) ] || { echo "$(ARCHIVE) is not there: make library"; exit 1; }
	@[ ! -f $(SHARED) ] || [ ! $(SHARED) -ot $(ARCHIVE) ] || { echo "$(SHARED) is older than $(ARCHIVE): make shared"; exit 1; }
	$(INSTALL) -d $(BIN) $(LIB) $(INCLUDE) $(MAN)
	$(INSTALL) -m 755 $(PROGRAMS:%=target/bin/%) $(BIN)
	$(INSTALL) -m 644 $(ARCHIVE) $(LIB)
	$(INSTALL) -m 644 include/bullacetop.h $(INCLUDE)
	$(INSTALL) -m 644 $(PROGRAMS:%=man/%.1) $(MAN)
	if [ -f $(SHARED) ]; then \
	    $(INSTALL) -d $(MODULE) && $(INSTALL) -m 755 $(SHARED) $(LIB) && $(INSTALL) -m 644 python/bullacetop.py $(MODULE); \
	fi

uninstall:
	rm -f $(PROGRAMS:%=$(BIN)/%) $(PROGRAMS:%=$(MAN)/%.1) $(LIB)/libbullacetop.a $(LIB)/libbullacetop.so $(INCLUDE)/bullacetop.h
	rm -rf $(MODULE)

# Every stored case on the programs in target/bin.
check:
	tests/cases/run target/bin

.PHONY: all programs library shared install uninstall check
