# The C library: `make lib` builds libplistconv.a and libplistconv.so, which export the functions of
# include/plistconv.h alone; `make install-lib` installs them with the header and a file for pkg-config;
# `make examples` builds and runs the examples. The toolchain's C library is in its folder c/.
CC ?= cc
RT_LIBC = $(or $(shell file=$$(dirname "$$(dirname "$$(realpath "$$(command -v $(RT))")")")/c/liblibc_c.a; [ ! -f "$$file" ] || echo "$$file"),\
  $(error there is no c/liblibc_c.a beside the folder of $(RT)))
LIBDIR ?= $(PREFIX)/lib
INCLUDEDIR ?= $(PREFIX)/include
PC_PREFIX ?= $(PREFIX)
PROVED_LIB := crates/plistconv_c/out/libplistconv_c.a

.PHONY: lib install-lib examples

lib: libplistconv.a libplistconv.so

libplistconv.a libplistconv.so: out/plistconv_c.proved
	CC='$(CC)' scripts/link-library.sh $(PROVED_LIB) '$(RT_LIBC)' $@

install-lib: $(call built,libplistconv.a) $(call built,libplistconv.so)
	@$(INSTALL) install library

examples: lib
	examples/test
