# make                 proves the library and writes target/staticlib/libcurlew.a, the manual pages target/man3 and the command target/curlew
# make demo            the same, and runs the exam-server example and the command
# make test            proves everything by rt ci and runs all tests; the last line is 'N passed, 0 failed'. It says which
#                      programs are missing, and installs them where INSTALL=1 or CI is set
# make check-c         the tests of hosts, installed copy, command, packages and Python, without proving again
# make check-browser   looks at the page of `curlew show --html` in Chromium, for whoever changes that page; not part of make test
# make shared          writes target/shared/libcurlew.so, for programs that load a library
# make wheel           writes target/dist/curlew-VERSION-cp39-abi3-linux_x86_64.whl, the Python package with the library in it
# make install         header, archive, pkg-config file, command and manual pages under prefix (or PREFIX), below DESTDIR
# make install-shared  the shared object
# make uninstall       removes what both installed
# make dist            writes target/dist/curlew-VERSION-x86_64-linux.tar.gz, for machines without the Rattle kit
# make deb             writes Debian's packages curlew, libcurlew2, libcurlew-dev and python3-curlew into target/dist
# make bench           compares the speed with Tcl, Perl, Python, plain C and an unproved twin; numbers and plots in target/bench
# make bench-publish   puts the figures and plots of the last comparison into docs
# make clean           removes target, and what rt has kept in crates/*/out

PREFIX ?= /usr/local
prefix = $(PREFIX)
exec_prefix = $(prefix)
includedir = $(prefix)/include
libdir = $(exec_prefix)/lib
datarootdir = $(prefix)/share
mandir = $(datarootdir)/man
man3dir = $(mandir)/man3
pkgconfigdir = $(libdir)/pkgconfig
# make test INSTALL=1 installs what the tests need; elsewhere INSTALL is the program that copies files, as GNU has it.
ifeq ($(INSTALL),1)
override INSTALL := install
export CURLEW_INSTALL := 1
else
INSTALL = install
endif
INSTALL_DATA = $(INSTALL) -m 644
INSTALL_PROGRAM = $(INSTALL)

# The time that stands in the packages: that of the commit.
ifndef SOURCE_DATE_EPOCH
SOURCE_DATE_EPOCH = $(shell git log -1 --format=%ct 2>/dev/null || date -u -d $(DAY) +%s)
endif

# The version is said once, in the header; the day of it in docs/CHANGES.md.
VERSION := $(shell sed -n 's/^.define CURLEW_VERSION "\(.*\)"$$/\1/p' include/curlew.h)
DAY := $(shell sed -n 's/^.. $(VERSION) (\(.*\))$$/\1/p' docs/CHANGES.md)
CALLS := $(shell sed -n 's/^uint32_t \(curlew_[a-z_]*\).*/\1/p' include/curlew.h)

ARCHIVE := target/staticlib/libcurlew.a
SONAME := libcurlew.so.$(firstword $(subst ., ,$(VERSION)))
OBJECT := libcurlew.so.$(VERSION)
SHARED := target/shared/$(OBJECT)
PAGES := target/man3/curlew.3 $(CALLS:%=target/man3/%.3)
COMPARE := target/compare
CRATES := $(shell find crates crates.txt -type f -not -path '*/out/*')
TWIN := $(wildcard tests/second/*.rs) tests/second/build.sh

.PHONY: all demo test check check-c check-browser shared wheel install install-shared uninstall dist deb bench bench-publish clean

all: $(ARCHIVE) $(PAGES)

$(ARCHIVE): $(CRATES)
	@command -v rt >/dev/null || { echo "rt not found: install the Rattle kit, or put its bin folder on PATH"; exit 2; }
	@echo "proving and building $(ARCHIVE): from nothing this takes a while"
	@tools/progress target/staticlib.out rt lib curlew
	@echo "$$(tools/progress --count curlew) crates proved" >> target/staticlib.out
	@mkdir -p $(@D) && cp crates/curlew/out/libcurlew.a $@.new && mv $@.new $@
	@sha256sum $(ARCHIVE) > target/staticlib.sum

target/man3/%.3: include/curlew.h docs/CHANGES.md tools/man.awk
	@mkdir -p target/man3
	@awk -f tools/man.awk -v version="$(VERSION)" -v date="$(DAY)" -v call="$(filter-out curlew,$*)" include/curlew.h \
		> $@.new && mv $@.new $@

target/demo/exam_server: examples/exam_server.c include/curlew.h $(ARCHIVE)
	@command -v $(CC) >/dev/null || { echo "$(CC) not found: install gcc (Debian's package gcc), or say CC=.."; exit 2; }
	@mkdir -p target/demo
	$(CC) -std=c99 -O2 -Wall -Wextra -pedantic -Iinclude -o $@ examples/exam_server.c $(ARCHIVE)

demo: target/demo/exam_server target/curlew
	@target/demo/exam_server
	@examples/office.sh target/curlew

# Under its other names it is copied, since rt ci refuses a checkout with links in it.
$(SHARED): $(ARCHIVE) tools/curlew.map
	@mkdir -p target/shared
	$(CC) $(LDFLAGS) -shared -Wl,-soname,$(SONAME) -Wl,--version-script=tools/curlew.map -Wl,-z,defs,-z,relro,-z,now \
		-Wl,--whole-archive $(ARCHIVE) -Wl,--no-whole-archive -o $@
	@cp $@ target/shared/$(SONAME) && cp $@ target/shared/libcurlew.so

shared: $(SHARED)

test check:
	@tests/run

check-c: all
	@tests/run c

check-browser: target/curlew
	@command -v chromium >/dev/null || { echo "chromium not found: install Debian's package chromium"; exit 2; }
	@cd target && PATH="$$PWD:$$PATH" python3 ../tests/command/browser.py

$(COMPARE)/second: $(ARCHIVE) $(TWIN)
	tests/second/build.sh $(ARCHIVE) $(COMPARE)

$(COMPARE)/tcl: $(ARCHIVE) $(TWIN) tests/tcl/main.rs tests/tcl/build.sh
	tests/tcl/build.sh $(ARCHIVE) $(COMPARE)

$(COMPARE)/perl: $(ARCHIVE) $(TWIN) tests/perl/main.rs tests/perl/build.sh
	tests/perl/build.sh $(ARCHIVE) $(COMPARE)

bench: $(ARCHIVE)
	@bench/run

target/bench/bench.svg: $(ARCHIVE)
	@bench/run

bench-publish: target/bench/bench.svg
	cp target/bench/bench.txt target/bench/bench.svg target/bench/strips.svg docs

install: all
	$(INSTALL) -d "$(DESTDIR)$(includedir)" "$(DESTDIR)$(libdir)" "$(DESTDIR)$(pkgconfigdir)" "$(DESTDIR)$(man3dir)"
	$(INSTALL_DATA) include/curlew.h "$(DESTDIR)$(includedir)/curlew.h"
	$(INSTALL_DATA) $(ARCHIVE) "$(DESTDIR)$(libdir)/libcurlew.a"
	sed -e 's|@prefix@|$(prefix)|' -e 's|@version@|$(VERSION)|' \
		-e 's|@includedir@|$(patsubst $(prefix)/%,$${prefix}/%,$(includedir))|' \
		-e 's|@libdir@|$(patsubst $(prefix)/%,$${prefix}/%,$(libdir))|' \
		curlew.pc.in > "$(DESTDIR)$(pkgconfigdir)/curlew.pc"
	$(INSTALL_DATA) $(PAGES) "$(DESTDIR)$(man3dir)"

install-shared: $(SHARED)
	$(INSTALL) -d "$(DESTDIR)$(libdir)"
	$(INSTALL_PROGRAM) $(SHARED) "$(DESTDIR)$(libdir)/$(OBJECT)"
	ln -sf $(OBJECT) "$(DESTDIR)$(libdir)/$(SONAME)"
	ln -sf $(SONAME) "$(DESTDIR)$(libdir)/libcurlew.so"

uninstall:
	rm -f "$(DESTDIR)$(includedir)/curlew.h" "$(DESTDIR)$(pkgconfigdir)/curlew.pc" "$(DESTDIR)$(libdir)/libcurlew.a" \
		"$(DESTDIR)$(libdir)/libcurlew.so" "$(DESTDIR)$(libdir)/$(SONAME)" "$(DESTDIR)$(libdir)/$(OBJECT)"
	@for page in curlew $(CALLS); do rm -f "$(DESTDIR)$(man3dir)/$$page.3"; done

dist: all shared
	@SOURCE_DATE_EPOCH="$(SOURCE_DATE_EPOCH)" packaging/dist "$(VERSION)"

deb: all shared
	@SOURCE_DATE_EPOCH="$(SOURCE_DATE_EPOCH)" packaging/deb "$(VERSION)" "$(DAY)"

clean:
	rm -rf target crates/*/out

include command/command.mk
include tools/wheel.mk
