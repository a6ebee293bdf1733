# Builds and installs dvbemu: make; make install [PREFIX=/usr/local] [DESTDIR=]; make uninstall; make deb; make tar; make check
#
# The programs are proved as they are built, by the toolchain that VERSION names (its command rt in the PATH). Python and gcc are the rest, and
# pandoc for the manual. GATE=FILE, what .ci/run has written at this commit, puts its sums into share/doc/dvbemu/PROOF.
PREFIX = /usr/local
DESTDIR =
GATE =
VERSION := $(shell sed -n 1p VERSION)
# (what is installed is proved)
unexport DVBEMU_UNPROVED

prefix = $(DESTDIR)$(PREFIX)
tree = out/tree
library = $(tree)/lib/dvbemu
doc = $(tree)/share/doc/dvbemu
programs = crates/dvbemu/out/dvbemu crates/dvb_serve/out/dvb_serve
modules = $(shell cd python && find src -name '*.py' -o -name '*.typed' -o -name '*.css' -o -name '*.js')

all:
	./dvbemu build dvbemu
	./dvbemu build dvb_serve
	./dvbemu-serve --packets 3000 --keep none examples/programs/scan.ts -- true
	[ ! -d /usr/include/fuse3 ] || PYTHONPATH=python/src python3 -B -c 'from dvbemu.build import build_fuse; build_fuse()'

# What is installed. lib/dvbemu has the repository's folders, so that the commands find one another there as here.
tree: all
	rm -rf $(tree)
	mkdir -p $(library)/python $(doc) $(tree)/bin
	cp --parents dvbemu dvbemu-serve crates.txt preload/*.[ch] fuse/*.[ch] preload/out/preload.so $$(ls fuse/out/dvbemu-fuse) $(programs) $(library)
	cd python && cp --parents $(modules) ../$(library)/python
	cd python && python3 -W ignore -c 'import setuptools; setuptools.setup()' -q egg_info --egg-base ../$(library)/python/src
	rm $(library)/python/src/dvbemu.egg-info/SOURCES.txt
	cp --parents *.md LICENSE bench/README.md examples/README.md docs/*.md docs/*.json docs/demux/*.svg $(doc)
	cp -r --parents examples/programs examples/reports examples/rules examples/tests $(doc)
	ln -s ../lib/dvbemu/dvbemu ../lib/dvbemu/dvbemu-serve $(tree)/bin
	PYTHONPATH=python/src python3 -B -m dvbemu.manual $(tree)/share
	packaging/manual $(tree)/share/man
	packaging/proof.py $(GATE:%=--gate %) $(tree)

install: tree
	mkdir -p "$(prefix)"
	cp -a $(tree)/. "$(prefix)"

uninstall:
	rm -rf "$(prefix)"/lib/dvbemu "$(prefix)"/share/doc/dvbemu
	rm -f "$(prefix)"/bin/dvbemu "$(prefix)"/bin/dvbemu-serve "$(prefix)"/share/man/man[15]/dvbemu*.[15].gz
	rm -f "$(prefix)"/share/bash-completion/completions/dvbemu "$(prefix)"/share/zsh/vendor-completions/_dvbemu

deb:
	dpkg-buildpackage --build=binary --no-sign

tar: tree
	tar -C $(tree) --sort=name --owner=0 --group=0 --numeric-owner --transform 's,^[.],dvbemu-$(VERSION),S' -czf out/dvbemu-$(VERSION).tar.gz .

check:
	.ci/run

.PHONY: all tree install uninstall deb tar check
