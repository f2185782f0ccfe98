# Proves, builds, checks, installs and packs the kit.
#
#   make              proves and builds what is missing or older than its sources: program, library, site and what `install` copies
#   make check        all checks of CI; as root, it first installs the packages that they need
#   make install      program, library, package, man pages, completion, files for editors, documents and examples below PREFIX
#   make uninstall    removes them
#   make site         the site, in build/site, a folder that any web server can serve
#   make man          the man pages, in build/man
#   make api          the page of the Python package's API, build/API-PYTHON.md
#   make editors      the files for editors, in build/share
#   make packages     the Debian packages `mars` and `corewar`, in build
#   make wheels       Python wheels of `corewar` that contain the library and the site, for Linux, Windows and macOS, in build
#   make portable     the library as one C file for any machine, in build/libmars-VERSION.tar.gz
#   make dist         a source archive of `corewar`, which pip compiles on any machine, in build
#   make vectors      battles, sources and matches with their answers for other simulators, in build/vectors (docs/dev/VECTORS.md)
#
# DESTDIR is put before PREFIX when a package is made. Only `make` itself proves, so that `make install` as root doesn't; the
# other targets report what is not built.
PREFIX = /usr/local
ZSH = $(PREFIX)/share/zsh/site-functions

VERSION := $(shell sed -n 's/^__version__ = "\(.*\)"/\1/p' python/corewar/__init__.py)
# The day of the last commit, so that packing it again gives the same bytes.
DATE = $(shell git -c safe.directory='*' log -1 --format=%cD 2>/dev/null || date -R)
EPOCH = $(shell git -c safe.directory='*' log -1 --format=%ct 2>/dev/null || stat -c %Y CHANGELOG.md)
PROGRAM = crates/mars/out/mars
LIBRARY = build/libmars.so.2 build/libmars.a
WASM = build/mars.wasm
SITE = build/site/one.html
# What the site is made of.
PARTS := $(shell find site examples python/corewar/*/*.json -type f -not -path "site/tests/*")
# The libraries of the toolchain that the crates use.
LIBRARIES := $(shell sed -n 's/^\w* *\w*: *//p' crates.txt | tr ' ' '\n' | sort -u | grep -vxF "$$(sed -n 's/^\(\w*\).*:.*/\1/p' crates.txt)")
COREWAR = PYTHONDONTWRITEBYTECODE=1 PYTHONPATH=python /usr/bin/python3 -P

to = $(DESTDIR)$(PREFIX)
bash = $(to)/share/bash-completion/completions
zsh = $(DESTDIR)$(ZSH)
documents = $(to)/share/doc/mars
package = $(to)/lib/python3/dist-packages
# Copies files and folders from the folder $(1) to the folder $(2), without generated files.
copy = mkdir -p $(2) && tar -c -C $(1) --mode=u=rwX,go=rX --exclude=__pycache__ --exclude=target --exclude=Cargo.lock $(3) | tar -x -C $(2) --no-same-owner

# Copies the licences of the toolchain's libraries that are linked in, and the kit's own if it has one, to the folder $(1).
licences = mkdir -p $(1); set -e; for library in $(LIBRARIES); do for file in "$$(dirname "$$(rt doc)")"/rattle/$$library/LICENSE*; do \
	cp "$$file" $(1)/$$library-$${file\#\#*/}; done; done$(if $(wildcard LICENSE*),; cp $(wildcard LICENSE*) $(1))

.PHONY: all install uninstall site man api completion editors packages wheels portable dist vectors check

all:
	dev/prove --library
	dev/library
	@$(MAKE) --no-print-directory site man api completion editors

$(PROGRAM) $(LIBRARY):
	@echo "$@ is not built; prove and build it with make" >&2; exit 1

$(WASM):
	@echo "$@ is not built; prove and build it with make, which says what it needs" >&2; exit 1

site: $(SITE)

$(SITE): $(WASM) $(PARTS)
	node site/build.mjs $(WASM) build/site

# The man page of mars, and its completion.
mars = $(COREWAR) packaging/mars.py $(PROGRAM) build/man build/completion

man: $(PROGRAM)
	rm -rf build/man
	mkdir -p build/man
	$(mars)
	$(COREWAR) packaging/man.py build/man

api:
	mkdir -p build
	dev/api >build/API-PYTHON.md

completion: $(PROGRAM)
	mkdir -p build/completion
	$(mars)
	_COREWAR_COMPLETE=bash_source $(COREWAR) -m corewar >build/completion/corewar.bash
# A function that zsh loads on demand also has to complete when it is loaded.
	_COREWAR_COMPLETE=zsh_source $(COREWAR) -m corewar | sed 's/^compdef _corewar_completion corewar;/_corewar_completion "$$@"/' >build/completion/_corewar

editors:
	rm -rf build/share
	$(COREWAR) packaging/editors.py build/share

install: $(PROGRAM) $(LIBRARY) $(SITE) man api completion editors
	rm -rf $(documents) $(package)/corewar
	install -D -m 755 $(PROGRAM) $(to)/bin/mars
	install -D -m 755 packaging/corewar $(to)/bin/corewar
	install -D -m 644 -t $(to)/lib $(LIBRARY)
	ln -sf libmars.so.2 $(to)/lib/libmars.so
	install -D -m 644 -t $(to)/include crates/mars_c/include/mars.h
	install -d $(to)/lib/pkgconfig
	sed 's|@PREFIX@|$(PREFIX)|; s|@VERSION@|$(VERSION)|' packaging/mars.pc >$(to)/lib/pkgconfig/mars.pc
	$(call copy,python,$(package),corewar)
	$(call copy,build,$(package)/corewar/pages,site)
	install -D -m 644 -t $(to)/share/man/man1 build/man/*.1
	install -D -m 644 build/completion/mars.bash $(bash)/mars
	install -D -m 644 build/completion/corewar.bash $(bash)/corewar
	install -D -m 644 -t $(zsh) build/completion/_mars build/completion/_corewar
	set -e; for file in $$(find build/share -type f -printf '%P\n'); do install -D -m 644 build/share/$$file $(to)/share/$$file; done
	$(call copy,.,$(documents),README.md CONTRIBUTING.md CHANGELOG.md docs examples)
	install -m 644 build/API-PYTHON.md $(documents)/docs/user

uninstall:
	rm -f $(to)/bin/mars $(to)/bin/corewar $(to)/lib/libmars.so $(to)/lib/libmars.so.2 $(to)/lib/libmars.a
	rm -f $(to)/include/mars.h $(to)/lib/pkgconfig/mars.pc $(to)/share/man/man1/mars.1 $(to)/share/man/man1/corewar.1 $(to)/share/man/man1/corewar-*.1
	rm -f $(bash)/mars $(bash)/corewar $(zsh)/_mars $(zsh)/_corewar
	rm -f $(to)/share/vim/vimfiles/*/redcode.vim $(to)/share/nvim/site/*/redcode.vim $(to)/share/nvim/site/lua/corewar.lua
	rm -f $(to)/share/emacs/site-lisp/redcode-mode.el $(to)/share/org.kde.syntax-highlighting/syntax/redcode.xml
	rm -rf $(documents) $(package)/corewar $(to)/share/corewar

packages: $(PROGRAM) $(LIBRARY) $(SITE)
	@dpkg-checkbuilddeps packaging/debian/control || { echo "packing needs more packages: dev/setup --all, as root, installs them" >&2; exit 1; }
	rm -rf build/package
	mkdir -p build/package/licences
	cp -R packaging/debian build/package
	printf 'mars ($(VERSION)) unstable; urgency=medium\n\n  * Packed from the kit.\n\n -- %s  %s\n' \
		"$$(sed -n 's/^Maintainer: //p' packaging/debian/control)" "$(DATE)" >build/package/debian/changelog
	$(call licences,build/package/licences)
	cd build/package && dpkg-buildpackage -b -us -uc

# The libraries of the wheels, in folders that have the names of the tags. That of x86-64 Linux is the built one.
NATIVE = build/native
HERE := $(shell sed -n 's/^HERE = "\(.*\)"/\1/p' setup.py)

$(NATIVE): $(LIBRARY) dev/natives dev/targets.py packaging/portable/native.c packaging/portable/stack.s
	rm -rf $@ $@.new
	dev/natives $@.new
	install -D -m 755 -t $@.new/$(HERE) build/libmars.so.2
	mv $@.new $@

# Built from a copy, since setuptools leaves folders in its source; building them again gives the same bytes.
wheels: $(NATIVE) $(SITE)
	rm -rf build/wheel
	$(call copy,.,build/wheel/kit,pyproject.toml setup.py README.md python crates/mars_c/include build/site)
	$(COREWAR) packaging/editors.py build/wheel/kit/build/share
	$(call licences,build/wheel/kit/licences)
	set -e; for library in $(CURDIR)/$(NATIVE)/*/*; do rm -rf build/wheel/kit/build/lib* build/wheel/kit/build/bdist*; \
		MARS_NATIVE=$$library SOURCE_DATE_EPOCH=$(EPOCH) \
		/usr/bin/python3 -m pip wheel --no-deps --no-build-isolation --no-cache-dir -q -w build build/wheel/kit; done
	rm -r build/wheel

# The library as C, and what makes an archive of it.
C = build/portable/libmars.c
CHECKER = packaging/portable/arguments.h packaging/portable/check.c packaging/portable/check.cmake
TRANSLATOR = dev/portable dev/boundary.py dev/translator/reading.py dev/translator/values.py \
	dev/translator/instructions.py dev/translator/writing.py

$(C): $(LIBRARY) $(TRANSLATOR) crates/mars_c/include/mars.h packaging/portable/before.c packaging/portable/heap.c packaging/portable/calls.c
	dev/portable $@

# Packs the folder build/archive/$(1)-VERSION, with the same bytes each time.
pack = tar -c -z -f build/$(1)-$(VERSION).tar.gz -C build/archive --sort=name --owner=0 --group=0 --numeric-owner --mtime=@$(EPOCH) \
	$(1)-$(VERSION) && rm -r build/archive

portable: folder = build/archive/libmars-$(VERSION)
portable: $(C) $(CHECKER)
	rm -rf build/archive
	mkdir -p $(folder)
	cp $(C) crates/mars_c/include/mars.h packaging/portable/Makefile packaging/portable/README $(CHECKER) $(folder)
	sed 's|@VERSION@|$(VERSION)|' packaging/portable/CMakeLists.txt >$(folder)/CMakeLists.txt
	sed 's|@VERSION@|$(VERSION)|' packaging/mars.pc >$(folder)/mars.pc
	$(call licences,$(folder)/licences)
# The expected results are those of the proved library.
	gcc -O1 -Icrates/mars_c/include packaging/portable/check.c build/libmars.a -o build/archive/check
	build/archive/check 2000 1 >$(folder)/check.expected
	$(call pack,libmars)

dist: folder = build/archive/corewar-$(VERSION)
dist: $(C) $(SITE)
	rm -rf build/archive
	$(call copy,.,$(folder),pyproject.toml setup.py README.md python crates/mars_c/include build/site)
	mkdir $(folder)/portable
	cp $(C) $(folder)/portable
	$(COREWAR) packaging/editors.py $(folder)/build/share
	$(call licences,$(folder)/licences)
	printf 'Metadata-Version: 2.1\nName: corewar\nVersion: $(VERSION)\n' >$(folder)/PKG-INFO
	$(call pack,corewar)

vectors:
	dev/checks/vectors build/vectors

check:
	.ci/run
