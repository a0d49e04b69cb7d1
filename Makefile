# The library and its packages; `make help` lists what can be made. All that is made stands under target/, but for the archive, which
# the prover leaves in its crate.

PREFIX = /usr/local
LIBDIR = $(PREFIX)/lib
DESTDIR =

VERSION := $(file <VERSION)
# The soname's number goes up with every change that a linked program would notice.
SONAME := libtrufolmesca.so.0
# What rt proves and builds, and what of the sources it is made from.
ARCHIVE := crates/export/out/libexport.a
SOURCES := crates.txt $(shell find crates -name out -prune -o \( -name '*.rt' -o -name '*.antt' \) -print)
LIB := target/lib
OBJECT := $(LIB)/libtrufolmesca.so.$(VERSION)

.PHONY: all archive install uninstall deb check clean help
.DELETE_ON_ERROR:

all: $(LIB)/libtrufolmesca.a $(LIB)/$(SONAME) $(LIB)/libtrufolmesca.so $(LIB)/libtrufolmesca.archive-sha256 $(LIB)/BUILD

archive: $(ARCHIVE)

# Minutes of proving, so nothing but the sources and another kit asks for it.
$(ARCHIVE): $(SOURCES) TOOLCHAIN
	@tools/archive

$(LIB):
	mkdir -p $@

# Each file is put in its place whole, since a program may be reading the one before.
$(LIB)/libtrufolmesca.a: $(ARCHIVE) | $(LIB)
	cp $< $@.new
	mv $@.new $@

$(OBJECT): $(ARCHIVE) packaging/libtrufolmesca.map Makefile | $(LIB)
	$(CC) -shared -s -o $@.new -Wl,-soname,$(SONAME) -Wl,--version-script,packaging/libtrufolmesca.map \
	    -Wl,--whole-archive $< -Wl,--no-whole-archive -Wl,-z,defs,-z,relro,-z,now $(LDFLAGS) -lc
	mv $@.new $@

# Copies, since `rt ci` refuses a repository with a link in it.
$(LIB)/$(SONAME) $(LIB)/libtrufolmesca.so: $(OBJECT)
	cp $< $@.new
	mv $@.new $@

$(LIB)/libtrufolmesca.archive-sha256: $(ARCHIVE) | $(LIB)
	sha256sum $< | cut -d' ' -f1 >$@.new
	mv $@.new $@

# What was built, of what and by what: it is installed beside the documentation.
$(LIB)/BUILD: $(OBJECT) $(LIB)/libtrufolmesca.archive-sha256 TOOLCHAIN
	CC="$(CC)" packaging/build-record $(VERSION) $(OBJECT) >$@.new
	mv $@.new $@

install: all
	packaging/install put "$(DESTDIR)" "$(PREFIX)" "$(LIBDIR)"

uninstall:
	packaging/install remove "$(DESTDIR)" "$(PREFIX)"

deb: all
	packaging/deb target/deb

check: all
	tools/test

clean:
	rm -rf $(LIB) target/deb

help:
	@echo 'make                 the library, in target/lib; proves it first where it is missing or older than its sources'
	@echo 'make install         header, library, pkg-config file, CMake package, man pages and the tool, under PREFIX'
	@echo 'make uninstall       takes away what make install put under PREFIX'
	@echo 'make deb             three Debian packages, in target/deb: libtrufolmesca0, libtrufolmesca-dev, trufolmesca'
	@echo 'make check           the tests (tools/setup --tests comes first)'
	@echo 'make clean           takes target/lib and target/deb away; what was proved stays'
	@echo 'PREFIX=$(PREFIX)    LIBDIR=$(LIBDIR)    DESTDIR=$(DESTDIR)'
