# Proves the crates, each after those that it uses, JOBS of them in parallel (by default one per processor and 6 GB of
# memory). A proved crate leaves out/NAME.proved, so an interrupted `make` resumes with the next crate; within a crate,
# the toolchain resumes. Tests are not proved. out/NAME.log has the output of the prover.
RT ?= rt
JOBS ?= $(shell scripts/jobs.sh)
ifeq ($(MAKELEVEL),0)
MAKEFLAGS += --jobs=$(JOBS)
endif
CRATES := $(shell sed -n 's/^\([a-z_]*\).*:.*/\1/p' crates.txt)
# below: the crates of this repository that a crate uses. files: its files and folders; a folder changes when one of its
# files is removed.
below = $(filter $(CRATES),$(shell sed -n 's/^$(1)\( staticlib\)*: *//p' crates.txt))
files = $(shell find $(wildcard $(addprefix crates/$(1)/,src specs proofs)))

# Expanded once, before the first crate is proved.
FIRST = $(eval FIRST :=)$(if $(shell command -v $(RT) 2> /dev/null),,$(error \
  There is no $(RT) on the path: README.md, Set-up, says what it is))$(if $(wildcard out/plist_forms.proved),,$(info \
  The toolchain builds only what it has proved. The first build proves every crate below the program, which takes)$(info \
  35 to 65 processor minutes. Interrupted, it resumes.)$(if \
  $(shell RT='$(RT)' scripts/toolchain.sh > /dev/null 2>&1 || echo older),$(warning $(shell RT='$(RT)' scripts/toolchain.sh 2>&1))))

define PROVING
out/$(1).proved: $(call files,$(1)) $(patsubst %,out/%.proved,$(call below,$(1)))
	@$$(FIRST)mkdir -p out
	@echo "proving $(1)"
	@RT=$(RT) scripts/prove.sh $(1) > out/$(1).log 2>&1 || { cat out/$(1).log >&2; exit 1; }
	@touch $$@
endef
$(foreach name,$(CRATES),$(eval $(call PROVING,$(name))))
