#!/bin/sh
# Installs the library for C and Rust: lib/libbsp29.a, lib/pkgconfig/bsp29.pc, include/bsp29.h,
# include/bsp29_easy.h and the licence in share/doc/bsp29/.
#
#   ./install.sh [--prefix DIR] [--library FILE] [--uninstall]
#
# --prefix DIR    where to (if not said: /usr/local). DESTDIR in the environment goes before it.
# --library FILE  the archive, if it was made elsewhere; BSP29_LIBRARY in the environment says the same (a
#                 relative path there: from this folder). Without both, `rt lib` proves and writes it
#                 first, in crates/ffi.
# --uninstall     takes away what was installed there.
set -eu

usage() {
    sed -n '2,12s/^# \{0,1\}//p' "$0" >&2
    exit 2
}

root=$(cd "$(dirname "$0")" && pwd)
prefix=/usr/local
library=${BSP29_LIBRARY:-}
case $library in
    '' | /*) ;;
    *) library=$root/$library ;;
esac
uninstall=no
while [ $# -gt 0 ]; do
    case $1 in
        --prefix) [ $# -ge 2 ] || usage; prefix=$2; shift ;;
        --library) [ $# -ge 2 ] || usage; library=$2; shift ;;
        --uninstall) uninstall=yes ;;
        *) usage ;;
    esac
    shift
done
case $prefix in
    /*) ;;
    *) prefix=$(pwd)/$prefix ;;
esac
to=${DESTDIR:-}$prefix

if [ "$uninstall" = yes ]; then
    rm -f "$to/lib/libbsp29.a" "$to/lib/pkgconfig/bsp29.pc" "$to/include/bsp29.h" \
        "$to/include/bsp29_easy.h" "$to/share/doc/bsp29/LICENSE" "$to/share/doc/bsp29/NOTICE"
    rmdir "$to/share/doc/bsp29" 2> /dev/null || true
    exit 0
fi

if [ -z "$library" ]; then
    (cd "$root/crates/ffi" && rt lib)
    library=$root/crates/ffi/out/libffi.a
fi

# the version stands in the header
part() { sed -n "s/^#define BSP29_VERSION_$1 \([0-9]*\)\$/\1/p" "$root/include/bsp29.h"; }
version=$(part MAJOR).$(part MINOR).$(part PATCH)

mkdir -p "$to/lib/pkgconfig" "$to/include" "$to/share/doc/bsp29"
install -m 644 "$library" "$to/lib/libbsp29.a"
install -m 644 "$root/include/bsp29.h" "$root/include/bsp29_easy.h" "$to/include/"
install -m 644 "$root/LICENSE" "$root/NOTICE" "$to/share/doc/bsp29/"
cat > "$to/lib/pkgconfig/bsp29.pc" <<PC
prefix=$prefix
libdir=\${prefix}/lib
includedir=\${prefix}/include

Name: bsp29
Description: BSP29 maps that strangers send; the code is proved
Version: $version
Libs: -L\${libdir} -lbsp29
Cflags: -I\${includedir}
PC
echo "bsp29 $version is in $to"
