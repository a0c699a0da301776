# Packages for machines without the toolchain: `make dist` makes a tar file of all that is installed, `make deb` Debian
# packages of the same files. Packages made from the same commit are identical.
MULTIARCH := $(shell $(CC) -print-multiarch 2>/dev/null)

.PHONY: dist deb

dist: $(call built,plistconv) $(call built,libplistconv.a) $(call built,libplistconv.so)
	VERSION='$(VERSION)' scripts/dist.sh

deb: $(call built,plistconv) $(call built,libplistconv.a) $(call built,libplistconv.so)
	VERSION='$(VERSION)' scripts/deb.sh '$(MULTIARCH)'
