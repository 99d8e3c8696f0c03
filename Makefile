# make, make check and make install, with prefix and DESTDIR. PROGRAM=FILE takes a built program, whose name begins with aide, and
# the one of lines beside it, in place of those of crates/, which are proved and built first if a source is newer.
prefix = /usr/local
DESTDIR ?=
PROGRAM ?=
SOURCE_DATE_EPOCH ?= $(or $(shell git log -1 --format=%ct 2> /dev/null),1767225600)
version := $(shell cat VERSION)
package = aide-compare-$(version)-x86_64-linux
place = --prefix '$(prefix)' $(if $(DESTDIR),--destdir '$(DESTDIR)')
program = $(or $(PROGRAM),crates/aide/out/aide)

ifneq ($(and $(DESTDIR),$(findstring unproved,$(lastword $(subst /, ,$(PROGRAM))))),)
$(error $(PROGRAM) is not proved, so it is not packed)
endif

all:
	$(if $(PROGRAM),,python3 -B -m tools.gate.built)

# The tests that prove nothing and take no minutes, without those of plans. tools/test proves all crates and runs all tests.
check: all
	env -u MAKEFLAGS -u PROGRAM AIDE_PROGRAM='$(program)' tools/quick --all

install: all
	packaging/install $(place) --program '$(program)'

uninstall:
	packaging/install $(place) --uninstall

# For /usr/local, where tar -xzf FILE --strip-components=1 unpacks it. It has files only, so that no directory that is there gets
# another mode. The same sources and programs give the same bytes.
tarball: all
	rm -rf out/tarball
	$(MAKE) install prefix=/usr/local DESTDIR='$(CURDIR)/out/tarball'
	mv out/tarball/usr/local 'out/tarball/$(package)'
	cd out/tarball && find '$(package)' ! -type d | LC_ALL=C sort | tar --format=ustar --owner=0 --group=0 --numeric-owner \
		--mtime='@$(SOURCE_DATE_EPOCH)' -cf '$(package).tar' -T - && gzip -9nf '$(package).tar'
	mv 'out/tarball/$(package).tar.gz' out/ && rm -r out/tarball

.PHONY: all check install uninstall tarball
