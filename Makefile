# Builds and installs the library for C, the tool, and the extension of SQLite where SQLite's header is there.
#
#   make                    build all of it under target/package
#   make check              try what was built: C programs against archive and shared library
#   make install            into /usr/local; prefix=DIR for elsewhere, DESTDIR=DIR for packagers
#   make install-library    the library alone: no cargo needed
#   make install-sqlite     the extension of SQLite alone
#   make uninstall          take away what `make install` put there
#   make deb                Debian packages of library, header and tool, under target/package
#
# The calls are assembled from dist/, which was made from the proved library: this needs a C compiler
# and no Rattle kit. On x86-64 the shared library is built twice, for every processor and for
# x86-64-v3; the loader takes the second by itself where the processor has that level.
#
# With PROVE=1 the kit proves the library and builds it from its source (dist/prove). With SIGNALFERN_LIB_DIR=DIR the
# libsignalfern_c.a in that folder is taken as it is. With TOOL=FILE a tool that was built before is
# installed, and `cargo` is not needed.

PREFIX = /usr/local
prefix = $(PREFIX)
exec_prefix = $(prefix)
bindir = $(exec_prefix)/bin
libdir = $(exec_prefix)/lib
includedir = $(prefix)/include
datarootdir = $(prefix)/share
mandir = $(datarootdir)/man
pkgconfigdir = $(libdir)/pkgconfig
# Where glibc's loader looks first, by what the processor has.
hwcapsdir = $(libdir)/glibc-hwcaps
bashdir = $(datarootdir)/bash-completion/completions
zshdir = $(datarootdir)/zsh/site-functions
fishdir = $(datarootdir)/fish/vendor_completions.d
# SQLite finds an extension by its name in the loader's own folders. It takes the library that lies beside it.
sqlitedir = $(libdir)

INSTALL = install
CFLAGS ?= -O2
BUILD = target/package

version_part = $(shell sed -n 's/^\#define SIGNALFERN_VERSION_$(1) //p' include/signalfern.h)
MAJOR := $(call version_part,MAJOR)
MINOR := $(call version_part,MINOR)
VERSION := $(MAJOR).$(MINOR).$(call version_part,PATCH)
# Before 1.0 a minor version may change the structs.
SONAME := libsignalfern.so.$(if $(filter 0,$(MAJOR)),0.$(MINOR),$(MAJOR))
SHARED := libsignalfern.so.$(VERSION)
# (Nothing below $(BUILD) is a link: `rt ci` refuses a checkout that has one.)

# The file of dist/ for a machine, as the compiler names it, and the level that gets a library of its own.
PROCESSOR := $(patsubst x86_64,x86-64,$(firstword $(subst -, ,$(shell $(CC) -dumpmachine))))
LEVEL = $(if $(or $(SIGNALFERN_LIB_DIR),$(filter-out 0,$(PROVE))),,$(filter x86-64-v3,$(PROCESSOR)-v3))

# The extension of SQLite, where its header is there.
EXTENSION := $(shell echo '\#include <sqlite3ext.h>' | $(CC) $(CPPFLAGS) -E -x c - >/dev/null 2>&1 && echo signalfern.so)

all: library $(BUILD)/tool $(EXTENSION:%=$(BUILD)/%)
library: $(BUILD)/libsignalfern.a $(BUILD)/$(SHARED) $(LEVEL:%=$(BUILD)/%/$(SHARED)) $(BUILD)/signalfern.pc
.PHONY: all library check install install-library install-tool install-sqlite uninstall deb clean FORCE

ifneq ($(SIGNALFERN_LIB_DIR),)
ARCHIVE = $(SIGNALFERN_LIB_DIR)/libsignalfern_c.a
else ifneq ($(filter-out 0,$(PROVE)),)
ARCHIVE = target/proved/$(PROCESSOR)/libsignalfern_c.a
$(ARCHIVE): crates.txt $(shell find crates -name out -prune -o \( -name '*.rt' -o -name '*.antt' \) -print)
	@command -v rt >/dev/null || { echo 'rt is not on the path: proving needs the Rattle kit. Without PROVE=1, dist/ is taken.' >&2; exit 1; }
	dist/prove target/proved $(PROCESSOR)
else
ARCHIVE = $(BUILD)/$(PROCESSOR)/libsignalfern_c.a
endif

# Assembled from dist/.
$(BUILD)/%/libsignalfern_c.a: dist/signalfern-%.s
	@mkdir -p $(@D)
	$(CC) -c $< -o $(@D)/calls.o
	rm -f $@
	$(AR) rcs $@ $(@D)/calls.o

dist/signalfern-%.s:
	@echo 'dist/ has nothing for $*: set SIGNALFERN_LIB_DIR to a folder with libsignalfern_c.a' >&2; exit 1

# What all is made from: another archive or another tool is taken, be it the older one.
FROM := $(ARCHIVE) $(LEVEL) $(TOOL)
$(BUILD)/from: FORCE
	@mkdir -p $(BUILD)
	@echo '$(FROM)' | cmp -s - $@ || echo '$(FROM)' >$@

$(BUILD)/names.o: c/names.c include/signalfern.h $(BUILD)/from
	$(CC) $(CPPFLAGS) $(CFLAGS) -std=c99 -Wall -Wextra -Wpedantic -fPIC -Iinclude -c $< -o $@

# The proved calls and the plain ones in one archive.
$(BUILD)/libsignalfern.a: $(ARCHIVE) $(BUILD)/names.o $(BUILD)/from
	cat $(ARCHIVE) >$@.new
	$(AR) rcs $@.new $(BUILD)/names.o
	mv $@.new $@

link_shared = $(CC) $(CFLAGS) $(LDFLAGS) -shared -Wl,-soname,$(SONAME) -Wl,--version-script=c/signalfern.map \
    -Wl,-z,defs -Wl,--whole-archive $(filter %.a,$^) -Wl,--no-whole-archive $(filter %.o,$^) -o $@

$(BUILD)/$(SHARED): $(BUILD)/libsignalfern.a c/signalfern.map
	$(link_shared)

$(BUILD)/x86-64-v3/$(SHARED): $(BUILD)/x86-64-v3/libsignalfern_c.a $(BUILD)/names.o c/signalfern.map
	$(link_shared)

$(BUILD)/signalfern.so: sqlite/signalfern.c include/signalfern.h $(BUILD)/$(SHARED)
	cp $(BUILD)/$(SHARED) $(BUILD)/$(SONAME)
	$(CC) $(CPPFLAGS) $(CFLAGS) -std=c11 -Wall -Wextra -Wpedantic -fPIC -fvisibility=hidden -Iinclude $(LDFLAGS) -shared -Wl,-z,defs \
	    -Wl,-rpath,'$$ORIGIN' $< $(BUILD)/$(SHARED) -o $@

# Made anew each time, since the folders may be others.
below_prefix = $(patsubst $(prefix)/%,$${prefix}/%,$(1))
$(BUILD)/signalfern.pc: signalfern.pc.in $(BUILD)/from FORCE
	sed -e 's|@prefix@|$(prefix)|' -e 's|@exec_prefix@|$(patsubst $(prefix),$${prefix},$(exec_prefix))|' \
	    -e 's|@libdir@|$(call below_prefix,$(libdir))|' -e 's|@version@|$(VERSION)|' \
	    -e 's|@includedir@|$(call below_prefix,$(includedir))|' $< >$@

ifneq ($(TOOL),)
$(BUILD)/tool: $(TOOL) $(BUILD)/from
	cp $< $@
else
$(BUILD)/tool: $(ARCHIVE) $(BUILD)/from rust/build.rs rust/Cargo.toml rust/Cargo.lock $(shell find rust/src -name '*.rs')
	SIGNALFERN_LIB_DIR='$(abspath $(dir $(ARCHIVE)))' cargo build --release --offline --locked \
	    --manifest-path rust/Cargo.toml --bin signalfern --target-dir rust/target
	cp rust/target/release/signalfern $@
endif

install: install-library install-tool install-sqlite

install-library: library
	$(INSTALL) -d '$(DESTDIR)$(includedir)' '$(DESTDIR)$(libdir)' '$(DESTDIR)$(pkgconfigdir)'
	$(INSTALL) -m 644 include/signalfern.h '$(DESTDIR)$(includedir)/signalfern.h'
	$(INSTALL) -m 644 $(BUILD)/libsignalfern.a '$(DESTDIR)$(libdir)/libsignalfern.a'
	$(INSTALL) -m 755 $(BUILD)/$(SHARED) '$(DESTDIR)$(libdir)/$(SHARED)'
	ln -sf $(SHARED) '$(DESTDIR)$(libdir)/$(SONAME)'
	ln -sf $(SONAME) '$(DESTDIR)$(libdir)/libsignalfern.so'
	$(foreach level,$(LEVEL),$(INSTALL) -d '$(DESTDIR)$(hwcapsdir)/$(level)' && \
	    $(INSTALL) -m 755 $(BUILD)/$(level)/$(SHARED) '$(DESTDIR)$(hwcapsdir)/$(level)/$(SHARED)' && \
	    ln -sf $(SHARED) '$(DESTDIR)$(hwcapsdir)/$(level)/$(SONAME)')
	$(INSTALL) -m 644 $(BUILD)/signalfern.pc '$(DESTDIR)$(pkgconfigdir)/signalfern.pc'
	packaging/man3 $(BUILD)/man3
	$(INSTALL) -d '$(DESTDIR)$(mandir)/man3'
	$(INSTALL) -m 644 $(BUILD)/man3/*.3 '$(DESTDIR)$(mandir)/man3'

# What the tool writes of itself, $(2), where what it prints for `help $(1)` has the mark $(3) of such
# a file; a tool that prints something else has none, and the file is left out.
define put_help
	@if $(BUILD)/tool help $(1) >$(BUILD)/help 2>/dev/null && grep -q '$(3)' $(BUILD)/help; then \
	    $(INSTALL) -d '$(DESTDIR)$(dir $(2))' && $(INSTALL) -m 644 $(BUILD)/help '$(DESTDIR)$(2)'; \
	else echo 'left out, since the tool has no `help $(1)`: $(2)'; fi
endef

MAN = $(mandir)/man1/signalfern.1
BASH = $(bashdir)/signalfern
ZSH = $(zshdir)/_signalfern
FISH = $(fishdir)/signalfern.fish

install-tool: $(BUILD)/tool
	$(INSTALL) -d '$(DESTDIR)$(bindir)'
	$(INSTALL) -m 755 $(BUILD)/tool '$(DESTDIR)$(bindir)/signalfern'
	$(call put_help,--man,$(MAN),^\.TH )
	$(call put_help,--completions bash,$(BASH),^complete )
	$(call put_help,--completions zsh,$(ZSH),^#compdef )
	$(call put_help,--completions fish,$(FISH),^complete )

ifneq ($(EXTENSION),)
install-sqlite: $(BUILD)/$(EXTENSION)
	$(INSTALL) -d '$(DESTDIR)$(sqlitedir)'
	$(INSTALL) -m 755 $< '$(DESTDIR)$(sqlitedir)/$(EXTENSION)'
else
install-sqlite:
	@echo 'not built, since sqlite3ext.h is not there: $(sqlitedir)/signalfern.so'
endif

uninstall:
	rm -f $(foreach file,$(includedir)/signalfern.h $(libdir)/libsignalfern.a $(libdir)/libsignalfern.so \
	    $(libdir)/$(SONAME) $(libdir)/$(SHARED) $(hwcapsdir)/x86-64-v3/$(SONAME) $(hwcapsdir)/x86-64-v3/$(SHARED) \
	    $(pkgconfigdir)/signalfern.pc $(bindir)/signalfern $(sqlitedir)/signalfern.so \
	    $(MAN) $(BASH) $(ZSH) $(FISH),'$(DESTDIR)$(file)')
	rm -f '$(DESTDIR)$(mandir)'/man3/signalfern_*.3

# C programs against what was built: every call once, by archive and by shared library; then all kinds of processor alike.
check: library
	$(CC) $(CFLAGS) -Iinclude rust/tests/library/installed.c $(BUILD)/libsignalfern.a -o $(BUILD)/by-archive
	$(BUILD)/by-archive >/dev/null
	$(CC) $(CFLAGS) -Iinclude rust/tests/library/installed.c $(BUILD)/$(SHARED) -Wl,-rpath,'$(abspath $(BUILD))' -o $(BUILD)/by-library
	cp $(BUILD)/$(SHARED) $(BUILD)/$(SONAME)
	$(BUILD)/by-library >/dev/null
	dist/check $(BUILD)/libsignalfern.a

deb:
	packaging/deb $(BUILD)/deb SIGNALFERN_LIB_DIR='$(SIGNALFERN_LIB_DIR)' PROVE='$(PROVE)' TOOL='$(TOOL)' BUILD='$(BUILD)'

clean:
	rm -rf $(BUILD)
