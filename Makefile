# The library, its release, and the commands of README.md.
#
#   make                        the library, in build/: proved and built by the toolchain, unless it is up to date
#   make install PREFIX=/usr/local LIBDIR=/usr/local/lib DESTDIR=
#                               headers, libraries, pkg-config and CMake files, man pages, examples, and the programs that are built
#   make uninstall              takes them away again, with the same PREFIX, LIBDIR and DESTDIR
#   make dist                   build/relkvanu-VERSION.tar.gz with the built library and the programs that are built, and its checksum
#   make first                  a first look, unproved: a script of calls
#   make job                    the script's program, proved, on that script
#   make programs               ckpt_job and ckpt_log, proved and built
#   make check                  all proofs, wrong bodies, tests and programs (.ci/run); in a release, the tests of its library (packaging/check)
#   make test ARCHIVE=..        tests of a built library, its packages and the pages, in some minutes and without the toolchain (tests/test_library)
#   make bench               measures next to peers on this machine, and writes a table into bench/results (bench/run); it wants an idle machine
#   make note VERSION=..        the note of a release: the news for its users in CHANGELOG.md; VERSION=next for what is not released yet
#   make clean                  removes build/
#
# A release has make, install, uninstall and check alone.
PREFIX = /usr/local
LIBDIR = $(PREFIX)/lib
DESTDIR =
INSTALL = install
LIBRARY = build/librelkvanu.a build/librelkvanu.so.0
# The durable coordinator, where SQLite and zlib are there to build it, or in a release that has it.
STORE := $(if $(wildcard build/librelkvanu-store.a)$(shell pkg-config --exists sqlite3 zlib 2> /dev/null && echo yes),build/librelkvanu-store.a)
PROGRAMS = ckpt_job ckpt_log
VERSION := $(shell sed -n 's/^\#define RELKVANU_VERSION "\(.*\)"/\1/p' include/relkvanu.h)
HEADERS = include/relkvanu.h include/relkvanu.hpp include/relkvanu_alloc.h $(if $(STORE),include/relkvanu_store.h include/relkvanu_store.hpp include/relkvanu_storage.h include/relkvanu_storage.hpp)
into = $(DESTDIR)$(PREFIX)
libraries = $(DESTDIR)$(LIBDIR)
filled = sed -e 's|@PREFIX@|$(PREFIX)|g' -e 's|@LIBDIR@|$(patsubst $(PREFIX)/%,$${prefix}/%,$(LIBDIR))|g' -e 's|@VERSION@|$(VERSION)|g'
# The programs that are built: in a release in build/bin.
BUILT = $(wildcard $(PROGRAMS:%=build/bin/%) build/bin/ckpt_chart $(foreach it,$(PROGRAMS),crates/$(it)/out/$(it)))
# It runs ckpt_job.
BUILT += $(if $(wildcard crates/ckpt_job/out/ckpt_job),packaging/ckpt_chart)

# The sources of the package of Rust are installed, and so the samples that name its folder find it there.
OF_CRATES = rust/first/Cargo.toml rust/count/Cargo.toml engine/mini-rust/Cargo.toml

.PHONY: library install uninstall dist first job programs bench check test note clean

library: $(LIBRARY) $(STORE)
ifeq ($(STORE),)
	@echo 'The durable coordinator is left out: libsqlite3-dev or zlib1g-dev is missing.'
endif

# A release has no crates: its library and its manual pages are there already, and nothing makes them again.
ifneq ($(wildcard crates),)
ARCHIVE = crates/relkvanu/out/librelkvanu.a
MAN = build/man
SOURCES := $(wildcard crates/*/src/*.rt crates/*/src/*/*.rt crates/*/specs/*.antt)

# What to do: apart, because a comma would end an argument of `if`.
OLDER = is older than $(firstword $?). Run make, which proves it again (half an hour). If no source has changed since it was made, touch it
ABSENT = is not there. Run make, which proves it (half an hour)

# `make install` never proves: sources that git has just written are newer than a library that was proved of the same.
$(ARCHIVE): $(SOURCES)
ifneq ($(filter install,$(MAKECMDGOALS)),)
	@echo 'install: $(ARCHIVE) $(if $(wildcard $(ARCHIVE)),$(OLDER),$(ABSENT)).' >&2
	@exit 1
else
	@echo 'make: proving $(ARCHIVE), which $(if $(wildcard $(ARCHIVE)),is older than $(firstword $?),is not there)'
	bindings/build_archive
endif

build/librelkvanu.a: $(ARCHIVE) bindings/build_archive bindings/c/nulls.c bindings/c/heap.c bindings/c/text.c bindings/c/version.c include/relkvanu.h include/relkvanu_alloc.h packaging/relkvanu.map packaging/link
	bindings/build_library build $(ARCHIVE)

build/librelkvanu.so.0: build/librelkvanu.a

build/librelkvanu-store.a: build/librelkvanu.a $(wildcard store/src/*.h store/src/*/*) include/relkvanu_store.h include/relkvanu_storage.h
	store/build_library build

$(MAN)/relkvanu.3: $(wildcard packaging/man/*.3) $(HEADERS) packaging/write_man_pages
	mkdir -p $(MAN)
	packaging/write_man_pages $(MAN)
	cp packaging/man/*.3 $(MAN)
	touch $@
else
MAN = packaging/man
endif

# All modes are given, because those that the umask would choose may hide a file from its users.
install: $(LIBRARY) $(STORE) $(MAN)/relkvanu.3
	$(INSTALL) -d $(into)/include $(libraries)/pkgconfig $(libraries)/cmake/relkvanu $(into)/bin
	$(INSTALL) -d $(into)/share/man/man1 $(into)/share/man/man3 $(into)/share/doc/relkvanu
	$(INSTALL) -m 644 $(HEADERS) $(into)/include
	$(INSTALL) -m 644 build/librelkvanu.a build/librelkvanu.so.0 $(libraries)
	ln -sf librelkvanu.so.0 $(libraries)/librelkvanu.so
	$(filled) packaging/relkvanu.pc.in | $(INSTALL) -m 644 /dev/stdin $(libraries)/pkgconfig/relkvanu.pc
	if [ -n "$(STORE)" ]; then \
	    $(INSTALL) -m 644 build/librelkvanu-store.a build/librelkvanu-store.so.0 $(libraries) && \
	    ln -sf librelkvanu-store.so.0 $(libraries)/librelkvanu-store.so && \
	    $(filled) packaging/relkvanu-store.pc.in | $(INSTALL) -m 644 /dev/stdin $(libraries)/pkgconfig/relkvanu-store.pc; \
	fi
	$(filled) packaging/relkvanu-config-version.cmake.in | $(INSTALL) -m 644 /dev/stdin $(libraries)/cmake/relkvanu/relkvanu-config-version.cmake
	$(INSTALL) -m 644 packaging/relkvanu-config.cmake $(libraries)/cmake/relkvanu
	$(INSTALL) -m 644 $(MAN)/*.3 $(into)/share/man/man3
	[ -n "$(STORE)" ] || rm -f $(into)/share/man/man3/relkvanu_store*.3 $(into)/share/man/man3/relkvanu_storage*.3
	cp -R docs/. examples $(into)/share/doc/relkvanu
	sed -i -z -E -f packaging/inner_links.sed -e 's|\]\(\.\./examples/|](examples/|g' $(into)/share/doc/relkvanu/*.md
	sed -i 's|](../docs/|](../|g' $(into)/share/doc/relkvanu/examples/README.md
	chmod -R u=rwX,go=rX $(into)/share/doc/relkvanu
	$(INSTALL) -d $(into)/share/relkvanu/rust
	$(INSTALL) -m 644 bindings/rust/Cargo.toml bindings/rust/Cargo.lock $(into)/share/relkvanu/rust
	cp -R bindings/rust/relkvanu bindings/rust/relkvanu-sys $(into)/share/relkvanu/rust
	$(INSTALL) -d $(into)/share/relkvanu/service
	$(INSTALL) -m 644 service/client/python/relkvanu_service.py $(into)/share/relkvanu/service
	chmod -R u=rwX,go=rX $(into)/share/relkvanu
	for it in $(OF_CRATES); do \
	    sed -e 's|"[./]*bindings/rust/|"$(PREFIX)/share/relkvanu/rust/|' examples/$$it | \
	        $(INSTALL) -m 644 /dev/stdin $(into)/share/doc/relkvanu/examples/$$it || exit 1; \
	done
	for it in $(BUILT); do \
	    $(INSTALL) -m 755 $$it $(into)/bin && $(INSTALL) -m 644 packaging/man/$${it##*/}.1 $(into)/share/man/man1 || exit 1; \
	done
	if [ -x build/bin/relkvanu ]; then \
	    $(INSTALL) -m 755 build/bin/relkvanu $(into)/bin && $(INSTALL) -m 644 $(wildcard packaging/man/relkvanu*.1) $(into)/share/man/man1 && \
	    $(INSTALL) -d $(into)/share/doc/relkvanu/deploy && \
	    $(INSTALL) -m 644 service/deploy/*.service service/deploy/*.timer service/deploy/*.toml service/deploy/*.yml $(into)/share/doc/relkvanu/deploy || exit 1; \
	fi
	@[ -n "$(DESTDIR)" ] || echo "If programs are to find librelkvanu.so.0 in $(LIBDIR), run ldconfig as root, or set LD_LIBRARY_PATH."

# Takes away what install puts there, and the folders that are then its own and empty. Give it the PREFIX and the LIBDIR of the install.
uninstall:
	rm -f $(HEADERS:include/%=$(into)/include/%)
	rm -f $(libraries)/librelkvanu.a $(libraries)/librelkvanu.so $(libraries)/librelkvanu.so.0 $(libraries)/pkgconfig/relkvanu.pc
	rm -f $(libraries)/librelkvanu-store.* $(libraries)/pkgconfig/relkvanu-store.pc $(into)/include/relkvanu_store.h $(into)/include/relkvanu_store.hpp
	rm -f $(into)/include/relkvanu_storage.h $(into)/include/relkvanu_storage.hpp
	rm -f $(into)/share/man/man3/relkvanu.3 $(into)/share/man/man3/relkvanu_*.3
	rm -f $(patsubst %,$(into)/bin/%,$(PROGRAMS) ckpt_chart relkvanu) $(patsubst %,$(into)/share/man/man1/%.1,$(PROGRAMS) ckpt_chart) $(into)/share/man/man1/relkvanu.1 $(into)/share/man/man1/relkvanu-*.1
	rm -rf $(libraries)/cmake/relkvanu $(into)/share/doc/relkvanu $(into)/share/relkvanu
	@[ -n "$(DESTDIR)" ] || echo "If ldconfig was run after the install, run it again."

# What only the repository has.
ifneq ($(wildcard crates),)
dist: $(LIBRARY) $(STORE)
	packaging/build_dist build $(VERSION)

bench: $(LIBRARY) $(STORE) programs
	service/build --release $(ARCHIVE)
	bench/run crates/ckpt_job/out/ckpt_job

first:
	cd crates/ckpt_job && rt try < ../../examples/two-checkpoints.script

job:
	cd crates/ckpt_job && rt run < ../../examples/two-checkpoints.script

programs:
	cd crates/ckpt_job && rt run < ../../examples/two-checkpoints.script
	cd crates/ckpt_log && rt run < ../../examples/two-checkpoints.script

check:
	bash .ci/run

test:
	tests/test_library $(ARCHIVE)

note:
	@packaging/print_release_note $(VERSION)

clean:
	rm -rf build
else
check:
	packaging/check $(PARTS)

clean: # the library of a release can't be made again
endif
