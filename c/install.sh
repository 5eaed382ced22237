#!/bin/sh
# install.sh FOLDER VERSION: installs libpim, whose libraries are in FOLDER, below $DESTDIR$PREFIX. PREFIX is /usr/local
# and LIBDIR, where the libraries go, is PREFIX/lib, if they aren't set.
set -e
built=$1 version=$2 prefix=${PREFIX:-/usr/local}
libdir=${LIBDIR:-$prefix/lib} series=${version%.*}
to=$DESTDIR$prefix lib=$DESTDIR$libdir
cd "$(dirname "$0")"

# Copies a template, and says in it where libpim is.
fill() {
    sed "s|@PREFIX@|$prefix|g; s|@LIBDIR@|$libdir|g; s|@VERSION@|$version|g; s|@SERIES@|$series|g" "$1.in" > "$2/$1"
    chmod 644 "$2/$1"
}

install -d "$to/include" "$to/share/pim/heap" "$to/share/man/man3" "$lib/pim" "$lib/pkgconfig" "$lib/cmake/pim"
install -m 644 pim.h pim_names.h pim_errno.h pim_heap.h pim_heap_given.h "$to/include"
install -m 644 heap/malloc.c heap/static.c heap/given.c "$to/share/pim/heap"
install -m 644 "$built/libpim.a" "$built/libpim_malloc.a" "$built/libpim.so.$series" "$lib"
# The link for programs has a folder of its own, so that -lpim alone is the archive.
ln -sf "../libpim.so.$series" "$lib/pim/libpim.so"
for name in pim.pc pim-malloc.pc pim-shared.pc; do fill "$name" "$lib/pkgconfig"; done
for name in pim-config.cmake pim-config-version.cmake; do fill "$name" "$lib/cmake/pim"; done
sed "s|@VERSION@|$version|" libpim.3 > "$to/share/man/man3/libpim.3"
chmod 644 "$to/share/man/man3/libpim.3"
