## make                       proves, builds and runs ./plistconv: 35 to 65 processor minutes the first time
## make lib                   builds libplistconv.a and libplistconv.so: 4 processor minutes more
## make install               installs the program, commands, man pages, completions and pages (PREFIX=/usr/local DESTDIR=)
## make install-lib           installs the C library, its header and a file for pkg-config
## make uninstall             removes what both have installed
## make test                  the gate: every proof, all tests, and what stands around them (see CONTRIBUTING.md)
## make around                the gate without the proofs, over what is built
## make mutants [CRATE=NAME]  tries the mutants that the gate leaves out
## make plant [CRATE=NAME]    lists wrong bodies that contracts let through
## make claims                prints each promise of docs/PROOFS.md with its contract, as the code has it
## make fuzz [SECONDS=60] [SEED=1]   compares the program with a second reading of the formats
## make tools, examples, words, new-user   try the commands in tools/ and the README, the bindings, arguments that are not
##                            UTF-8, and what a new user does on a clean checkout
## make growths, hostile, bench   each allocation failing in turn; hostile input; time and memory
## make dist, make deb        a tar file, and Debian packages, for machines without the toolchain
## make clean                 removes what was built and proved
PREFIX ?= /usr/local
SECONDS ?= 60
SEED ?= 1
VERSION := $(shell sed -n 's/.*\.version("\(.*\)").*/\1/p' crates/plist_convert/src/commands.rt)

.PHONY: all help test around mutants plant claims fuzz tools new-user words bench hostile growths install uninstall clean
all: plistconv

include build.mk

plistconv: $(call files,plistconv) out/plist_convert.proved
	$(FIRST)cd crates/plistconv && $(RT) run -- --version
	cp crates/plistconv/out/plistconv $@

help:
	@sed -n 's/^## //p' Makefile

test:
	@scripts/gate.sh

around: plistconv lib
	@scripts/gate.sh --around

mutants:
	scripts/mutants.sh $(CRATE)

plant:
	scripts/plant.sh $(CRATE)

claims:
	@scripts/claims.py --print

fuzz: plistconv
	python3 fuzz/rows.py
	python3 fuzz/fuzz.py ./plistconv --seconds $(SECONDS) --seed $(SEED)

tools: plistconv
	PLISTCONV=./plistconv python3 -B tools/test_tools.py
	PLISTCONV=./plistconv scripts/readme

new-user: plistconv lib
	scripts/new-user.sh

words: plistconv
	PLISTCONV=./plistconv scripts/words.sh

bench: plistconv
	python3 bench/bench.py ./plistconv --instructions --plot docs/benchmarks.svg
	python3 bench/commands.py ./plistconv

hostile: plistconv
	python3 bench/hostile.py ./plistconv
	python3 bench/hostile.py ./plistconv --worst
	python3 bench/refusals.py ./plistconv
	python3 bench/limits.py ./plistconv --large

growths: plistconv lib
	python3 bench/growths.py ./plistconv --library libplistconv.a

SHARE = $(PREFIX)/share
DOC ?= $(SHARE)/doc/plistconv
ZSH ?= zsh/site-functions

# built: the target, or nothing if it exists and there is no toolchain. given: a variable, quoted for the shell.
built = $(if $(shell command -v $(RT) 2> /dev/null),$(1),$(filter-out $(wildcard $(1)),$(1)))
given = $(1)='$(subst ','\'',$($(1)))'
INSTALL = $(foreach it,DESTDIR PREFIX SHARE DOC ZSH LIBDIR INCLUDEDIR PC_PREFIX VERSION,$(call given,$(it))) scripts/install.sh

install: $(call built,plistconv)
	@$(INSTALL) install program

uninstall:
	@$(INSTALL) uninstall

clean:
	rm -rf plistconv libplistconv.a libplistconv.so dist out crates/*/out

include lib.mk dist.mk
