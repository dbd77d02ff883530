# make: proves and builds the programs where one is missing or older than its sources
# make doc: the reference as linked pages, from docs/out/index.html on
# make check SINCE=REVISION: proves what a change touches, over what earlier checks kept, with its tests and wrong
#     bodies. It is not the gate. HEAD if no revision is named
# make test: the gate. The last line is that of `rt ci`, and so is the status.
# make install PREFIX=/where DESTDIR=/stage: the programs, the libraries, headers, pages of the manual and documents;
#     /usr/local if no PREFIX is named. make uninstall, with the same words, removes them.
# make dist: archives and packages of all that, and of the sources, in packaging/out. GATE_LOG names what a gate
#     printed.
# PROGRAMS and LIBRARY name others than those that are proved here.

# No source is made from another, and to look for such rules takes seconds.
MAKEFLAGS += --no-builtin-rules

programs := $(foreach name,synthesis draw timeline,crates/$(name)/out/$(name))
# Folders count too, since a file may have been taken away.
sources := $(shell find crates/*/src crates/*/specs crates/*/proofs crates.txt HANDLES)

PREFIX := /usr/local
DESTDIR :=
GATE_LOG :=
SINCE := HEAD
PROGRAMS := $(programs)
LIBRARY := bindings/out/libsynthesis.a
named = PREFIX='$(PREFIX)' DESTDIR='$(DESTDIR)' GATE_LOG='$(GATE_LOG)' PROGRAMS='$(PROGRAMS)' LIBRARY='$(LIBRARY)'

.PHONY: all check doc test install uninstall dist library

all: $(programs)

$(programs) &: $(sources)
	tools/prove

doc:
	tools/docs make

check:
	tools/check '$(SINCE)'

test:
	tools/gate

# Another library than the one here is there already.
library: $(PROGRAMS)
	@[ '$(LIBRARY)' != bindings/out/libsynthesis.a ] || $(MAKE) -s -C bindings library PREFIX= LIBRARY=out/libsynthesis.a

install: library
	$(named) packaging/install

uninstall:
	@$(named) packaging/uninstall

dist: library
	$(named) packaging/dist
