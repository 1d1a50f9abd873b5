# reraid: finds the geometry of a RAID array from raw images of its disks.
# `make build` needs the Rattle kit (rt on the PATH). `make test` needs Python 3.11, and uses what else is installed.

PREFIX ?= /usr/local

# The folders of the installation.
there = $(DESTDIR)$(PREFIX)
completions = $(there)/share/bash-completion/completions
doc = $(there)/share/doc/reraid
# Puts files in place by renaming, so that programs which run are replaced.
files = bench/making/put.sh

.PHONY: demo test check gate units lint build install put deb pages try near hostile clean

# Builds without a proof, prints the first listing over three small image files, and explains it.
demo:
	@bench/making/demo.sh

# The tests that need no proof, in about five minutes: see bench/check.sh. It skips what is not installed.
test:
	bench/check.sh

# Another name of `make test`.
check: test

# The full test suite: `make test`, then every proof, every edit that must fail, every test and every program. The last line is that of `rt ci`.
gate: test
	rt ci

# The unit tests of the Python modules. They need only Python.
units:
	cd lib && python3 -B -m unittest discover -s tests -t .
	cd bench/pages && python3 -B -m unittest test_words test_links test_layouts test_reading_list

# The types and the layout of the Python modules. It needs the Debian packages mypy and flake8.
lint:
	cd lib && mypy && flake8
	cd bench/pages && mypy --strict --cache-dir /dev/null prose.py private_words.py words.py links.py layouts.py reading_list.py \
		test_words.py test_links.py test_layouts.py test_reading_list.py

# Proves the programs and the crates below them. The executables are crates/reraid/out/reraid and crates/reraid_nbd/out/reraid_nbd.
build:
	bench/making/build.sh reraid reraid_nbd

# Runs reraid-try on arrays that it makes, and counts how often it finds the right layout. It needs the built programs and the Debian packages
# e2fsprogs, xfsprogs, btrfs-progs, ntfs-3g and lvm2. With words="xfs" it runs only the arrays with xfs in their names, with
# words="--jobs 2" two arrays side by side.
try:
	bench/measuring/try.py $(words)

# Runs reraid-try on arrays that a plain search does not find: data after what is read first, damaged images, contradicting landmarks.
near:
	bench/measuring/near.py $(words)

# Checks that the definitions named by DEFINITIONS and PROMISES exist. Runs the commands of the pages as printed, and compares the output. It needs the
# Debian packages xfsprogs, gdisk, e2fsprogs, ntfs-3g, pv, parallel, gddrescue, libnbd-bin, nbdkit, qemu-utils and ewf-tools. With root=--root it
# also runs the commands that need root. Then it runs reraid-try on one array of each kind of volume.
pages:
	bench/pages/definitions.py --compare
	bench/pages/as_printed.py $(root) README.md docs/USING.md docs/RECIPES.md docs/REAL-DISKS.md docs/IMAGES.md docs/EVIDENCE.md
	bench/measuring/try.py --few

# Runs all of hostile/ over the built programs, one script after another (docs/HOSTILE.md). It takes hours, as root, with the Debian packages
# that the scripts name. With cases=N it runs N cases of each command beside the reference; with fewer than 100 it takes minutes.
cases = 2000
hostile:
	hostile/all.sh $(cases)

install: build
	$(MAKE) put

# Installs what is built: programs, modules, manual pages, completions and all pages. `reraid-nbd` in bin is a wrapper; it starts the program in
# libexec.
put:
	install -d $(completions)
	$(files) 755 crates/reraid/out/reraid bin/reraid-nbd bin/reraid-mount bin/reraid-ranges bin/reraid-try $(there)/bin
	$(files) 755 crates/reraid_nbd/out/reraid_nbd $(there)/libexec/reraid
	mv -f $(there)/libexec/reraid/reraid_nbd $(there)/libexec/reraid/reraid-nbd
	$(files) 644 VERSION $(wildcard crates/reraid/out/KIT) $(there)/libexec/reraid
	for name in $$(cd lib && find reraid_* -name '*.py'); do $(files) 644 lib/$$name $(there)/lib/$$(dirname $$name) || exit 1; done
	$(files) 644 docs/reraid*.1 $(there)/share/man/man1
	install -m 644 lib/reraid.bash $(completions)/reraid
	for name in nbd mount try ranges; do ln -sf reraid $(completions)/reraid-$$name || exit 1; done
	$(files) 644 README.md CHANGELOG.md CONTRIBUTING.md $(doc)
	$(files) 644 docs/*.md $(doc)/docs
	$(files) 644 docs/pictures/*.png $(doc)/docs/pictures
	$(files) 755 bench/making/disks.py bench/making/volume.py bench/making/example.sh $(doc)/examples

# Makes a Debian package of what is built, in out. It needs only dpkg-deb. `hostile/package.py` tests the package.
deb: build
	bench/making/deb.sh

clean:
	rm -rf out crates/*/out
