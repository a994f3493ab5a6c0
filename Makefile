# Vaikshurd: the commands a reader, a user and the gate share. `make help` lists them.
.PHONY: help demo vectors gateway test edits fuzz bench tables lib probe switch install clean
.DELETE_ON_ERROR:

PREFIX ?= /usr/local
SECONDS ?= 60

# What the archives and the line program are proved and built from. VAIKSHURD_LIB_DIR and PROBE_LIB_DIR name the folder of an archive that is
# there already.
SOURCES := crates.txt $(shell find crates -name out -prune -o \( -name '*.rt' -o -name '*.antt' \) -print)
VAIKSHURD := $(or $(VAIKSHURD_LIB_DIR),crates/vaikshurd/out)/libvaikshurd.a
PROBE := $(or $(PROBE_LIB_DIR),crates/probe/out)/libprobe.a

help:
	@echo 'make demo     prove the book, run the line program on the example and a gateway in C'
	@echo 'make vectors  run the published vectors and the limits of every field text'
	@echo 'make gateway  build and run examples/gateway.c, a host of the library that tells its members why a transfer ended'
	@echo 'make test     everything: the proofs from nothing, wrong programs refused, the second implementation'
	@echo 'make edits    more wrong programs that the prover must refuse, beyond those of the tests; CRATE=name for one crate'
	@echo 'make fuzz     random histories against the second implementation; SECONDS=n (60), SEED=text to have the same again'
	@echo 'make bench    ours beside plain C, OpenSSL, the second implementation and SQLite, as ratios in one run'
	@echo 'make tables   write the tables of crates/form anew from the listings'
	@echo 'make switch   crates/switch/out/switch: the line program'
	@echo 'make lib      build/libvaikshurd.a, build/vaikshurd.h and build/vaikshurd.pc: the library for C'
	@echo 'make install  the same three below PREFIX ($(PREFIX)): lib, include, lib/pkgconfig'
	@echo 'make clean    remove what was built'

# the line program on the scope's example; it and the library are proved first
demo: switch
	@tools/demo.sh
	@echo
	@echo 'A gateway in C over the same library (examples/gateway.c), and why it says that a transfer was aborted:'
	@echo
	@$(MAKE) -s gateway

vectors:
	@mkdir -p build && cd crates/vectors && rt run 2>../../build/vectors.log || { tail -n 30 ../../build/vectors.log; exit 1; }

gateway: lib
	@gcc -std=c99 -Wall -Wextra -Werror -Iinclude examples/gateway.c build/libvaikshurd.a -o build/gateway
	@build/gateway

test:
	@tests/run.sh

edits:
	@tests/edits.sh $(CRATE)

fuzz: lib
	@SECONDS='$(SECONDS)' SEED='$(SEED)' tests/fuzz.sh

bench: lib probe
	@PROBE_LIB_DIR='$(dir $(abspath $(PROBE)))' bench/run.sh

tables:
	python3 tools/forms.py

lib: build/libvaikshurd.a build/vaikshurd.h build/vaikshurd.pc

# the readers, writers and hash as C calls, for the tests
probe: $(PROBE)

crates/vaikshurd/out/libvaikshurd.a crates/probe/out/libprobe.a: $(SOURCES)
	@echo 'Proving $(patsubst lib%.a,%,$(@F)) (some minutes the first time) ..'
	@mkdir -p build && (cd $(dir $(@D)) && rt lib) >build/lib.log 2>&1 || { tail -n 30 build/lib.log; exit 1; }
	@touch $@

# the line program; on no line it prints nothing
switch: crates/switch/out/switch

crates/switch/out/switch: $(SOURCES)
	@echo 'Proving the line program (some minutes the first time) ..'
	@mkdir -p build && (cd crates/switch && rt run </dev/null) >build/switch.log 2>&1 || { tail -n 30 build/switch.log; exit 1; }
	@touch $@

build/libvaikshurd.a: $(VAIKSHURD)
	@mkdir -p build && cp '$<' $@

build/vaikshurd.h: include/vaikshurd.h
	@mkdir -p build && cp $< $@

# both files say where they are by their own folder, so that they can be moved
build/vaikshurd.pc: include/vaikshurd.pc.in
	@mkdir -p build && sed -e 's,@prefix@,$${pcfiledir},' -e 's,@libdir@,$${prefix},' -e 's,@includedir@,$${prefix},' $< >$@

install: lib
	@mkdir -p '$(DESTDIR)$(PREFIX)/lib/pkgconfig' '$(DESTDIR)$(PREFIX)/include'
	@cp build/libvaikshurd.a '$(DESTDIR)$(PREFIX)/lib/'
	@cp build/vaikshurd.h '$(DESTDIR)$(PREFIX)/include/'
	@sed -e 's,@prefix@,$${pcfiledir}/../..,' -e 's,@libdir@,$${prefix}/lib,' -e 's,@includedir@,$${prefix}/include,' \
	    include/vaikshurd.pc.in >'$(DESTDIR)$(PREFIX)/lib/pkgconfig/vaikshurd.pc'
	@echo 'installed libvaikshurd.a, vaikshurd.h and vaikshurd.pc below $(DESTDIR)$(PREFIX)'

clean:
	rm -rf build crates/*/out
