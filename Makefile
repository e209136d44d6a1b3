# make help       prints these lines
# make            proves and builds the program and the library for C, in about an hour; in two minutes from proofs that the kit keeps
# make unproved   builds both without a proof, with checks, in two minutes: in crates/nrbpf/out/unproved and embed/out/unproved; packaging/README.md says how to install them
# make quick      what needs no proof: rows, programs in C, documents, hosts and packages, in five minutes
# make test       the whole test suite, which proves and builds them too; make check is the same
# make fmt        lays out the sources: crates, tests, and the prose of the documents
# make docs       writes the documents anew that scripts write: manual page, completion, pictures, plots, CLAUSES, BELIEVED, LINES, crates/README. The program must be built
# make install    puts what is built below PREFIX, and builds nothing; DESTDIR is put before every path, as packages want it
# make uninstall  takes it away
# make dist       a tarball of the sources in out/, of the same bytes each time
# make bindist    a tarball of what is installed, in out/release, for those without the kit; the test suite must have passed these sources here
# make deb        the same as three packages for Debian
# make wheel      the package for Python with the library inside
#
# packaging/README.md says what is installed and how a release is made. This is for GNU make.

PREFIX = /usr/local
DESTDIR =
bindir = $(PREFIX)/bin
includedir = $(PREFIX)/include
libdir = $(PREFIX)/lib
datadir = $(PREFIX)/share
INSTALL = install

program = crates/nrbpf/out/nrbpf
library = embed/out
number = $(shell sed -n 's/^.define NRBPF_VERSION_$(1) \([0-9]*\)u$$/\1/p' embed/nrbpf.h)
major := $(call number,MAJOR)
minor := $(call number,MINOR)
version := $(shell sed -n 's/^pub const VERSION: .str = "\(.*\)";$$/\1/p' crates/nrbpf/src/help.rt)
day := $(shell sed -n 's/^.. $(version), \(.*\): .*$$/\1/p' CHANGELOG.md)
shared = libnrbpf.so.$(major)
name = nrbpf-$(version)
below = $(patsubst $(PREFIX)/%,$${prefix}/%,$(1))
# (the way from one folder that is installed to another)
way = $(shell realpath -m --relative-to=$(1) $(2))

all: library

program:
	./nrbpf --prove

library: program
	embed/build

unproved:
	.ci/unproved program
	embed/build --unproved

help:
	@sed -n '/^# make /s/^# //p' Makefile

quick:
	.ci/fast

test check:
	.ci/run

fmt:
	@for crate in crates/*/; do (cd "$$crate" && rt fmt) || exit; done
	.ci/tests --format
	.ci/prose

docs: is-runnable
	.ci/manual
	.ci/pictures
	.ci/plots
	.ci/believed
	.ci/promises
	.ci/lines
	.ci/crates

is-runnable:
	@test -n "$$NRBPF_PROGRAM" || test "$$(./nrbpf --which)" = "proved $(CURDIR)/$(program)" || { echo 'make: the program is not proved and built of these sources yet: ./nrbpf --prove' >&2; exit 1; }

# (what is built of other sources is not installed)
is-built:
	@test -x $(program) && test -f $(library)/libnrbpf.a || { echo 'make: the program or the library is not built yet: run make' >&2; exit 1; }
	@test "$$(sed -n 2p $(program).sums 2>/dev/null)" = "$$(./nrbpf --sum)" || { echo 'make: the program is built of other sources: run make' >&2; exit 1; }

# What a build for Rust or Go takes, which compiles it over the installed library.
sources = $(patsubst bindings/%,%,$(wildcard $(addprefix bindings/rust/,Cargo.toml Cargo.lock build.rs README.md src/*.rs examples/*.rs)) \
	$(filter-out %_test.go %/tree.go,$(wildcard bindings/go/*.go)) $(addprefix bindings/go/,README.md calls.h dump.c example_test.go go.mod))

installed = $(bindir)/nrbpf $(bindir)/nrbpf-c2hex $(bindir)/nrbpf-manifest2h $(includedir)/nrbpf.h $(includedir)/nrbpf.hpp \
	$(libdir)/libnrbpf.a $(libdir)/$(shared).$(minor) $(libdir)/$(shared) $(libdir)/libnrbpf.so \
	$(libdir)/pkgconfig/nrbpf.pc $(libdir)/cmake/nrbpf/nrbpfConfig.cmake $(libdir)/cmake/nrbpf/nrbpfConfigVersion.cmake \
	$(datadir)/nrbpf/c2hex $(datadir)/nrbpf/nrbpf_evict.h $(datadir)/nrbpf/nrbpf_program.h $(datadir)/nrbpf/stdint.h \
	$(addprefix $(datadir)/nrbpf/,$(sources)) \
	$(foreach it,nrbpf nrbpf-c2hex nrbpf-manifest2h,$(datadir)/man/man1/$(it).1 $(datadir)/bash-completion/completions/$(it))

install: is-built
	$(INSTALL) -d $(sort $(dir $(addprefix $(DESTDIR),$(installed))))
	$(INSTALL) -m 755 $(program) $(DESTDIR)$(bindir)/nrbpf
	$(INSTALL) -m 644 embed/nrbpf.h $(DESTDIR)$(includedir)/nrbpf.h
	$(INSTALL) -m 644 bindings/cpp/nrbpf.hpp $(DESTDIR)$(includedir)/nrbpf.hpp
	$(INSTALL) -m 644 $(library)/libnrbpf.a $(DESTDIR)$(libdir)/libnrbpf.a
	$(INSTALL) -m 644 $(library)/$(shared).$(minor) $(DESTDIR)$(libdir)/$(shared).$(minor)
	ln -sf $(shared).$(minor) $(DESTDIR)$(libdir)/$(shared)
	ln -sf $(shared) $(DESTDIR)$(libdir)/libnrbpf.so
	sed -e 's|@prefix@|$(PREFIX)|' -e 's|@includedir@|$(call below,$(includedir))|' -e 's|@libdir@|$(call below,$(libdir))|' \
		-e 's|@version@|$(major).$(minor)|' embed/nrbpf.pc.in >$(DESTDIR)$(libdir)/pkgconfig/nrbpf.pc
	chmod 644 $(DESTDIR)$(libdir)/pkgconfig/nrbpf.pc
	for file in nrbpfConfig nrbpfConfigVersion; do sed -e 's|@major@|$(major)|' -e 's|@version@|$(major).$(minor)|' \
		-e 's|@include@|$(call way,$(libdir),$(includedir))|' packaging/$$file.cmake >$(DESTDIR)$(libdir)/cmake/nrbpf/$$file.cmake && \
		chmod 644 $(DESTDIR)$(libdir)/cmake/nrbpf/$$file.cmake || exit; done
	$(INSTALL) -m 755 c/c2hex $(DESTDIR)$(datadir)/nrbpf/c2hex
	$(INSTALL) -m 644 c/nrbpf_evict.h c/nrbpf_program.h c/stdint.h $(DESTDIR)$(datadir)/nrbpf
	$(INSTALL) -m 755 c/manifest2h $(DESTDIR)$(bindir)/nrbpf-manifest2h
	ln -sf $(call way,$(bindir),$(datadir))/nrbpf/c2hex $(DESTDIR)$(bindir)/nrbpf-c2hex
	for file in $(sources); do $(INSTALL) -m 644 bindings/$$file $(DESTDIR)$(datadir)/nrbpf/$$file || exit; done
	sed -i 's|](\.\./\.\./|](../../doc/nrbpf/|g' $(DESTDIR)$(datadir)/nrbpf/rust/README.md $(DESTDIR)$(datadir)/nrbpf/go/README.md
	$(INSTALL) -m 644 docs/nrbpf.1 docs/nrbpf-c2hex.1 docs/nrbpf-manifest2h.1 $(DESTDIR)$(datadir)/man/man1
	$(INSTALL) -m 644 docs/nrbpf.bash $(DESTDIR)$(datadir)/bash-completion/completions/nrbpf
	for name in c2hex manifest2h; do ln -sf nrbpf $(DESTDIR)$(datadir)/bash-completion/completions/nrbpf-$$name || exit; done

uninstall:
	rm -f $(addprefix $(DESTDIR),$(installed))
	rmdir $(addprefix $(DESTDIR)$(datadir)/nrbpf,/rust/src /rust/examples /rust /go) $(DESTDIR)$(datadir)/nrbpf $(DESTDIR)$(libdir)/cmake/nrbpf 2>/dev/null || true

# The files that git has, or in an unpacked tarball all that are no output: in one order, of one time, owner and mode.
dist:
	@mkdir -p out
	@if test -e .git; then git ls-files; else find . \( -name out -o -name __pycache__ \) -prune -o ! -type d -print | sed 's|^\./||'; fi | LC_ALL=C sort >out/$(name).list
	@tar -c -f out/$(name).tar --format=ustar --no-recursion --hard-dereference --mtime='$(day) 00:00Z' --owner=root:0 --group=root:0 --numeric-owner \
		--mode=u=rwX,go=rX --transform='flags=r;s|^|$(name)/|' -T out/$(name).list
	@gzip -9nf out/$(name).tar
	@rm -f out/$(name).list
	@echo out/$(name).tar.gz

bindist deb wheel:
	.ci/release $@

.PHONY: all program library unproved help quick test check fmt docs is-runnable is-built install uninstall dist bindist deb wheel
