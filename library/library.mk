# The library for C: a shared object and a static archive of the proved exports of crates/aclck_c, in library/out.
.PHONY: library install-library uninstall-library

MADE = library/out
PROVED = crates/aclck_c/out/libaclck_c.a
# malloc, realloc and free as Rattle's code calls them. They are in an archive of the kit, next to its first page.
HEAP = $(dir $(shell rt doc))c/liblibc_c.a
# The one version of the library, the programs and the packages (docs/DECISIONS.md).
VERSION = 1.0.0
SONAME = libaclck.so.1
SHARED = libaclck.so.$(VERSION)
LIBDIR = $(DESTDIR)$(PREFIX)/lib
OBJCOPY ?= objcopy

## library            proves the exports of the library for C, and makes both forms of it, in library/out
library:
	tools/prove aclck_c
	$(MAKE) --no-print-directory $(MADE)/$(SHARED) $(MADE)/libaclck.a $(MADE)/aclck.pc

$(PROVED):
	tools/prove aclck_c

# Only the names of the exports are visible. The library has no constructors, so it needs none of the start files.
$(MADE)/$(SHARED): $(PROVED) library/aclck.map
	mkdir -p $(MADE)
	$(CC) -shared -nostartfiles -o $@ -Wl,-z,defs,-z,relro,-z,now,-z,noexecstack,-z,noseparate-code -Wl,--gc-sections \
	  -Wl,-soname,$(SONAME) -Wl,--version-script=library/aclck.map \
	  -Wl,--whole-archive $(PROVED) -Wl,--no-whole-archive $(HEAP)
	ln -sf $(SHARED) $(MADE)/$(SONAME)
	ln -sf $(SONAME) $(MADE)/libaclck.so

# The archive has one object, in which all other names are local.
$(MADE)/libaclck.a: $(PROVED)
	mkdir -p $(MADE)
	$(LD) -r -o $(MADE)/aclck.o --whole-archive $(PROVED) --no-whole-archive $(HEAP)
	$(OBJCOPY) --wildcard --keep-global-symbol='aclck_*' $(MADE)/aclck.o
	rm -f $@
	$(AR) rcs $@ $(MADE)/aclck.o
	rm $(MADE)/aclck.o

# Prints the file for pkg-config. In what sed writes, some characters that a prefix may have mean something else.
PRINT_PC = sed "s,@PREFIX@,$$(printf %s '$(PREFIX)' | sed 's/[\\&,]/\\&/g'),; s,@VERSION@,$(VERSION)," library/aclck.pc.in

$(MADE)/aclck.pc: library/aclck.pc.in
	mkdir -p $(MADE)
	$(PRINT_PC) > $@

## install-library    installs the library, its header and its manual pages, below PREFIX
install-library: $(MADE)/$(SHARED) $(MADE)/libaclck.a
	install -D -m 755 $(MADE)/$(SHARED) '$(LIBDIR)/$(SHARED)'
	strip --strip-unneeded '$(LIBDIR)/$(SHARED)'
	ln -sf $(SHARED) '$(LIBDIR)/$(SONAME)'
	ln -sf $(SONAME) '$(LIBDIR)/libaclck.so'
	install -D -m 644 $(MADE)/libaclck.a '$(LIBDIR)/libaclck.a'
	install -D -m 644 include/aclck.h '$(DESTDIR)$(PREFIX)/include/aclck.h'
	mkdir -p '$(LIBDIR)/pkgconfig'
	$(PRINT_PC) > '$(LIBDIR)/pkgconfig/aclck.pc'
	for page in man/*.3; do install -D -m 644 $$page '$(DESTDIR)$(PREFIX)/share/man/man3/'$${page#man/}; done

## uninstall-library  removes what install-library installs
uninstall-library:
	rm -f '$(LIBDIR)/$(SHARED)' '$(LIBDIR)/$(SONAME)' '$(LIBDIR)/libaclck.so' '$(LIBDIR)/libaclck.a' \
	  '$(DESTDIR)$(PREFIX)/include/aclck.h' '$(LIBDIR)/pkgconfig/aclck.pc'
	for page in man/*.3; do rm -f '$(DESTDIR)$(PREFIX)/share/man/man3/'$${page#man/}; done
