# make                    the programs firing, hexfiring, viewing, certifying and kiln, and the library to link, in target/
# make test               every test; the last line is 'N passed, 0 failed'
# make install PREFIX=DIR puts programs, header, library, man pages and examples in place; DESTDIR is put before
PREFIX = /usr/local
DESTDIR =
VERSION := $(shell cat VERSION)
INSTALL = install
CARGO = cargo

crates := crates.txt $(shell find crates -name out -prune -o \( -name '*.rt' -o -name '*.antt' \) -print)
kiln := VERSION $(shell find tools/kiln -name target -prune -o \( -name '*.rs' -o -name 'Cargo.*' \) -print)
# Programs that tools/build has rt build, each of the crate of its name, and kiln, which cargo does.
proved_programs := target/bin/firing target/bin/hexfiring target/bin/viewing target/bin/certifying
kiln_program := target/bin/kiln
archive := target/staticlib/libjennydusk.a

pages1 := $(wildcard tools/kiln/man/*.1)
pages5 := $(wildcard tools/kiln/man/*.5)
images := $(wildcard examples/*.kiln examples/*.txt examples/*.hex examples/*.m examples/NOTES.md)
c_examples := $(wildcard examples/c/*.c)
prefix := $(abspath $(PREFIX))
root := $(DESTDIR)$(prefix)

.PHONY: all test install
# rt builds one thing at a time.
.NOTPARALLEL:
all: $(proved_programs) $(kiln_program) $(archive)

# What is up to date already keeps its time when it is checked again, so it gets a new one.
$(proved_programs): $(crates)
	tools/build $(@F)
	touch $@

$(archive): $(crates)
	tools/build jennydusk
	touch $@

$(kiln_program): $(kiln) $(archive)
	JENNYDUSK_ARCHIVE='$(CURDIR)/target/staticlib' CARGO_TARGET_DIR='$(CURDIR)/target/rust' \
	    $(CARGO) build --release --offline --quiet --manifest-path tools/kiln/Cargo.toml
	mkdir -p target/bin
	$(INSTALL) -m 755 target/rust/release/kiln $@

test:
	tests/run

install: all
	$(INSTALL) -d '$(root)/bin' '$(root)/include' '$(root)/lib/pkgconfig' '$(root)/share/man/man1' \
	    '$(root)/share/man/man5' '$(root)/share/jennydusk/examples/c' '$(root)/share/jennydusk/examples/rust'
	$(INSTALL) -m 755 $(proved_programs) $(kiln_program) '$(root)/bin'
	$(INSTALL) -m 644 include/jennydusk.h '$(root)/include'
	$(INSTALL) -m 644 $(archive) '$(root)/lib'
	sed -e 's|@PREFIX@|$(prefix)|' -e 's|@VERSION@|$(VERSION)|' jennydusk.pc.in >'$(root)/lib/pkgconfig/jennydusk.pc'
	$(INSTALL) -m 644 $(pages1) '$(root)/share/man/man1'
	$(INSTALL) -m 644 $(pages5) '$(root)/share/man/man5'
	$(INSTALL) -m 644 $(images) '$(root)/share/jennydusk/examples'
	$(INSTALL) -m 755 examples/run '$(root)/share/jennydusk/examples'
	$(INSTALL) -m 644 $(c_examples) '$(root)/share/jennydusk/examples/c'
	$(INSTALL) -m 644 examples/rust/main.rs '$(root)/share/jennydusk/examples/rust'
