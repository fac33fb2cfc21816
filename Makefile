# The library for C: header, static and shared library, pkg-config file and manual page. It needs a C compiler and no
# prover: the proved objects are those of the archive that tools/archive names, which is dist/'s unless crates/ changed.
#   make               builds into target/lib
#   make install       PREFIX is /usr/local; LIBDIR, INCLUDEDIR, MANDIR and DESTDIR can be given too
#   make uninstall     the same variables
#   make check         tests the installed library and the examples
PREFIX ?= /usr/local
LIBDIR ?= $(PREFIX)/lib
INCLUDEDIR ?= $(PREFIX)/include
MANDIR ?= $(PREFIX)/share/man
CC ?= cc
AR ?= ar
CFLAGS ?= -O2 -Wall -Wextra

version := $(shell sed -n 's/^.define WEDGEPETAL_VERSION "\(.*\)"/\1/p' include/wedgepetal.h)
soname := libwedgepetal.so.$(firstword $(subst ., ,$(version)))
out := target/lib
static := $(out)/libwedgepetal.a
shared := $(out)/libwedgepetal.so.$(version)
installed := $(LIBDIR)/libwedgepetal.a $(LIBDIR)/libwedgepetal.so.$(version) $(LIBDIR)/$(soname) $(LIBDIR)/libwedgepetal.so \
	$(LIBDIR)/pkgconfig/wedgepetal.pc $(INCLUDEDIR)/wedgepetal.h $(MANDIR)/man3/wedgepetal.3

ifneq ($(filter-out uninstall clean,$(or $(MAKECMDGOALS),all)),)
archive := $(shell tools/archive)
ifeq ($(archive),)
$(error there is no library to link, see above)
endif
endif

.PHONY: all install uninstall check clean
.DELETE_ON_ERROR:

all: $(static) $(shared)

$(out)/about.o: c/about.c include/wedgepetal.h Makefile
	@mkdir -p $(out)
	$(CC) $(CPPFLAGS) $(CFLAGS) -fPIC -Iinclude -c $< -o $@

# The proved objects as they are, and one more.
$(static): $(archive) $(out)/about.o Makefile
	cp $(archive) $@
	$(AR) rsD $@ $(out)/about.o

$(shared): $(static) c/exports.map Makefile
	$(CC) $(CFLAGS) $(LDFLAGS) -shared -Wl,-soname,$(soname) -Wl,--version-script,c/exports.map -Wl,-z,defs -Wl,-z,now \
		-Wl,-z,noexecstack -Wl,--whole-archive $(static) -Wl,--no-whole-archive -o $@
	ln -sf $(notdir $@) $(out)/$(soname)
	ln -sf $(soname) $(out)/libwedgepetal.so

install: all
	install -d $(DESTDIR)$(LIBDIR)/pkgconfig $(DESTDIR)$(INCLUDEDIR) $(DESTDIR)$(MANDIR)/man3
	install -m 644 include/wedgepetal.h $(DESTDIR)$(INCLUDEDIR)/wedgepetal.h
	install -m 644 $(static) $(DESTDIR)$(LIBDIR)/libwedgepetal.a
	install -m 755 $(shared) $(DESTDIR)$(LIBDIR)/libwedgepetal.so.$(version)
	ln -sf libwedgepetal.so.$(version) $(DESTDIR)$(LIBDIR)/$(soname)
	ln -sf $(soname) $(DESTDIR)$(LIBDIR)/libwedgepetal.so
	sed -e 's|@PREFIX@|$(PREFIX)|' -e 's|@LIBDIR@|$(LIBDIR)|' -e 's|@INCLUDEDIR@|$(INCLUDEDIR)|' -e 's|@VERSION@|$(version)|' \
		c/wedgepetal.pc.in >$(DESTDIR)$(LIBDIR)/pkgconfig/wedgepetal.pc
	chmod 644 $(DESTDIR)$(LIBDIR)/pkgconfig/wedgepetal.pc
	install -m 644 c/wedgepetal.3 $(DESTDIR)$(MANDIR)/man3/wedgepetal.3

uninstall:
	rm -f $(addprefix $(DESTDIR),$(installed))

check: all
	tests/c/library

clean:
	rm -rf $(out)
