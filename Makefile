# Installs the queue for C programs: archive, shared library, header, pkg-config file, manual page, documents.
#
#   make install PREFIX=/usr/local DESTDIR=
#
# The archive is made by `tools/build archive` where it is missing; ARCHIVE names another one, such as a release's.
PREFIX ?= /usr/local
DESTDIR ?=
ARCHIVE ?= target/staticlib/libffi.a
OUT := target/install
PART = $(shell sed -n 's/^\#define BIZHGEMU_VERSION_$(1) //p' include/bizhgemu.h)
VERSION := $(call PART,MAJOR).$(call PART,MINOR).$(call PART,PATCH)
# While the major version is 0 a minor one may change the interface (docs/VERSIONS.md).
SONAME := libbizhgemu.so.$(call PART,MAJOR).$(call PART,MINOR)
SHARED := libbizhgemu.so.$(VERSION)
LIB := $(DESTDIR)$(PREFIX)/lib
DOCS := README.md CHANGELOG.md LICENSE NOTICE docs/USING.md docs/VERSIONS.md docs/PERFORMANCE.md

all: $(OUT)/$(SHARED) $(OUT)/bizhgemu.pc

target/staticlib/libffi.a:
	tools/build archive

$(OUT)/$(SHARED): $(ARCHIVE) include/exported.map
	@mkdir -p $(OUT)
	$(CC) -shared -nostdlib -Wl,-soname,$(SONAME) -Wl,--version-script,include/exported.map -Wl,--build-id=none \
		-Wl,--whole-archive $(ARCHIVE) -Wl,--no-whole-archive -lc -o $@

$(OUT)/bizhgemu.pc: include/bizhgemu.pc.in include/bizhgemu.h FORCE
	@mkdir -p $(OUT)
	sed -e 's|@PREFIX@|$(PREFIX)|' -e 's|@VERSION@|$(VERSION)|' include/bizhgemu.pc.in > $@

install: all
	install -d $(LIB)/pkgconfig $(DESTDIR)$(PREFIX)/include $(DESTDIR)$(PREFIX)/share/man/man3 $(DESTDIR)$(PREFIX)/share/doc/bizhgemu
	install -m 644 $(ARCHIVE) $(LIB)/libbizhgemu.a
	install -m 755 $(OUT)/$(SHARED) $(LIB)/$(SHARED)
	ln -sf $(SHARED) $(LIB)/$(SONAME)
	ln -sf $(SONAME) $(LIB)/libbizhgemu.so
	install -m 644 $(OUT)/bizhgemu.pc $(LIB)/pkgconfig/bizhgemu.pc
	install -m 644 include/bizhgemu.h $(DESTDIR)$(PREFIX)/include/bizhgemu.h
	install -m 644 include/bizhgemu.3 $(DESTDIR)$(PREFIX)/share/man/man3/bizhgemu.3
	install -m 644 $(DOCS) $(DESTDIR)$(PREFIX)/share/doc/bizhgemu

uninstall:
	rm -f $(LIB)/libbizhgemu.a $(LIB)/$(SHARED) $(LIB)/$(SONAME) $(LIB)/libbizhgemu.so $(LIB)/pkgconfig/bizhgemu.pc \
		$(DESTDIR)$(PREFIX)/include/bizhgemu.h $(DESTDIR)$(PREFIX)/share/man/man3/bizhgemu.3
	rm -rf $(DESTDIR)$(PREFIX)/share/doc/bizhgemu

clean-install:
	rm -rf $(OUT)

FORCE:
.PHONY: all install uninstall clean-install FORCE
