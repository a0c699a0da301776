#!/bin/sh
# scripts/link-library.sh ARCHIVE LIBC LIBRARY: links libplistconv.a or libplistconv.so, depending on the name LIBRARY,
# from the archive that the toolchain built and its C functions. Exports only the functions of include/plistconv.h.
set -eu
archive=$1 libc=$2 library=$3
work=$(mktemp -d)
trap 'rm -rf "$work"' EXIT
case $library in
    *.a)
        ld -r -o "$work/libplistconv.o" --whole-archive "$archive" --no-whole-archive "$libc"
        objcopy --wildcard --keep-global-symbol='plistconv_*' "$work/libplistconv.o"
        rm -f "$library"
        ar rcsD "$library" "$work/libplistconv.o"
        ;;
    *.so)
        printf '{ global: plistconv_*; local: *; };\n' > "$work/map"
        ${CC:-cc} -shared -o "$library" -Wl,-soname,libplistconv.so.1 -Wl,-z,relro,-z,now -Wl,--whole-archive "$archive" \
            -Wl,--no-whole-archive "$libc" -Wl,--version-script="$work/map"
        ;;
    *) echo "link-library: $library is neither an archive nor a shared library" >&2; exit 2 ;;
esac
