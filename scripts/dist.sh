#!/usr/bin/env bash
# scripts/dist.sh: makes dist/plistconv-VERSION-ARCH.tar.gz from what was built: all installed files, INSTALL and
# SHA256SUMS. It is reproducible: names are sorted, the owner is root, and times are those of the commit. The environment
# has VERSION.
set -euo pipefail
umask 022
cd "$(dirname "$0")/.."
source scripts/commit.sh
name=plistconv-$VERSION-$(uname -m)
rm -rf "dist/$name" "dist/$name.tar.gz"
export DESTDIR=dist/$name PREFIX='' SHARE=/share DOC=/share/doc/plistconv ZSH=zsh/site-functions LIBDIR=/lib \
    INCLUDEDIR=/include PC_PREFIX='${pcfiledir}/../..'
scripts/install.sh install program
scripts/install.sh install library
sed "s/VERSION/$VERSION/" scripts/INSTALL.in > "dist/$name/INSTALL"
(cd "dist/$name" && find . -type f -printf '%P\0' | LC_ALL=C sort -z | xargs -0 sha256sum) > dist/SHA256SUMS
mv dist/SHA256SUMS "dist/$name/"
LC_ALL=C tar --sort=name --owner=0 --group=0 --numeric-owner --mode=u+rwX,go+rX,go-w --mtime="@$SOURCE_DATE_EPOCH" \
    -C dist -cf - "$name" | gzip -n9 > "dist/$name.tar.gz"
rm -rf "dist/$name" # the toolchain refuses a tree with links
cd dist
sha256sum "$name.tar.gz" | tee "$name.tar.gz.sha256"
