# Shortcuts. `make` builds and shows fence-list on graph D; the rest: test, bench, example, install, uninstall, dist, clean.
SHELL = /bin/bash
RT ?= rt
PREFIX ?= /usr/local
DESTDIR ?=
VERSION := $(shell sed -n 's/^.define FENCE_VERSION "\(.*\)"$$/\1/p' include/fence.h)

archive = target/staticlib/libfence.a
program = target/bin/fence_list
sources := $(shell find crates -name out -prune -o -type f \( -name '*.rt' -o -name '*.antt' \) -print) crates.txt
kit = $(shell cat packaging/kit)
need_rt = $(if $(shell command -v $(firstword $(RT))),,$(error the toolchain is missing: put 'rt' of $(kit) on the path))

# Named once, for install and uninstall must agree. The deepest folders come first, for an outer one must be empty to go.
headers := $(wildcard include/*.h include/*.hpp)
files = $(headers) lib/libfence.a lib/pkgconfig/fence.pc lib/cmake/fence/fence-config.cmake \
    lib/cmake/fence/fence-config-version.cmake bin/fence-list share/man/man1/fence-list.1
folders = lib/cmake/fence lib/cmake lib/pkgconfig lib include bin share/man/man1 share/man share
to = $(DESTDIR)$(PREFIX)
fill = sed 's|@VERSION@|$(VERSION)|'
dist = target/dist/fence-$(VERSION)

.PHONY: all test bench example install uninstall dist clean
.NOTPARALLEL:

all: $(program) $(archive)
	@. host/machine.sh && install_missing "$${to_run[@]}" && "$${emulator[@]}" $(program) <host/list/d.request

# rt proves only what has changed.
$(program): $(sources)
	$(need_rt)
	RT="$(RT)" bash packaging/program.sh

$(archive): $(sources)
	$(need_rt)
	RT="$(RT)" bash packaging/archive.sh

test:
	bash .ci/run

bench: $(archive)
	bash bench/run.sh

example: $(archive)
	bash examples/run.sh

# Folders that stand already keep their mode, which `install -d` would change.
install: $(archive) $(program)
	umask 022 && mkdir -p $(folders:%="$(to)/%")
	install -m 644 $(headers) "$(to)/include"
	install -m 644 $(archive) "$(to)/lib"
	install -m 644 <($(fill) packaging/fence.pc.in) "$(to)/lib/pkgconfig/fence.pc"
	install -m 644 packaging/fence-config.cmake "$(to)/lib/cmake/fence"
	install -m 644 <($(fill) packaging/fence-config-version.cmake.in) "$(to)/lib/cmake/fence/fence-config-version.cmake"
	install -m 755 $(program) "$(to)/bin/fence-list"
	install -m 644 <($(fill) packaging/fence-list.1) "$(to)/share/man/man1/fence-list.1"

# A folder goes once it is empty. Below a prefix of the system only fence's own does: the others may be there for anyone.
uninstall:
	rm -f $(files:%="$(to)/%")
	@case "$$(realpath -ms "$(PREFIX)/")" in \
	    / | /usr | /usr/local | /opt) rmdir "$(to)/lib/cmake/fence" ;; \
	    *) rmdir $(folders:%="$(to)/%") "$(to)" ;; \
	esac 2>/dev/null; true

# The same bytes for the same files: no time, owner, mode or order of the machine that packs them.
dist: $(archive) $(program)
	$(need_rt)
	rm -rf target/dist
	$(MAKE) --no-print-directory install DESTDIR= PREFIX=$(dist)
	echo $(VERSION) >$(dist)/VERSION
	$(RT) version >$(dist)/KIT
	cd ./$(dist) && find * -type f | LC_ALL=C sort | xargs sha256sum >../SHA256SUMS && mv ../SHA256SUMS .
	tar --sort=name --owner=0 --group=0 --numeric-owner --mtime=@0 --mode=u=rwX,go=rX \
	    -I 'gzip -n' -cf $(dist)-x86_64-linux.tar.gz -C target/dist $(notdir $(dist))

clean:
	rm -rf target
