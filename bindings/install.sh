#!/usr/bin/env bash
# Installs what bindings/build.sh has built: for C and C++ headers, libraries, a file for pkg-config
# and a package for CMake; for Rust the crate, in PREFIX/share/iox2sd/rust; for Python a wheel, in
# PREFIX/share/iox2sd/python, which Python 3.11 or later builds.
#
#     [DESTDIR=STAGE] [LIBDIR=lib] [INCLUDEDIR=include] bindings/install.sh PREFIX
#
# LIBDIR and INCLUDEDIR lie below PREFIX, and are those of CMake's GNUInstallDirs. Everything finds
# its neighbours by where it lies itself, so a prefix may be moved, and a stage may be packed.
set -euo pipefail
libdir=${LIBDIR:-lib} includedir=${INCLUDEDIR:-include}
if [ $# -ne 1 ] || [[ $1 != /* || $libdir == /* || $includedir == /* ]]; then
    echo "usage: [DESTDIR=STAGE] [LIBDIR=lib] [INCLUDEDIR=include] $0 PREFIX, an absolute path" >&2
    exit 2
fi
prefix=${DESTDIR:-}$1
[[ $prefix == /* ]] || prefix=$PWD/$prefix # The stage lies where the caller is.
cd "$(dirname "$0")"
shared=$(basename out/libiox2sd.so.*)
[ -f out/libiox2sd.a ] && [ -f "out/$shared" ] ||
    { echo "out/ has no library: bindings/build.sh builds it" >&2; exit 1; }
version=$(./version)

# A file with the version, the directories, the shared library, and the way up from LIBDIR in place
# of their names between two @.
up=$(tr / '\n' <<< "$libdir" | sed 's/.*/../' | paste -s -d /)
made() {
    sed -e "s|@VERSION@|$version|g" -e "s|@LIBDIR@|$libdir|g" -e "s|@INCLUDEDIR@|$includedir|g" \
        -e "s|@SHARED@|$shared|g" -e "s|@UP@|$up|g" "install/$1.in" |
        install -m 644 /dev/stdin "$2/$1"
}

include=$prefix/$includedir lib=$prefix/$libdir share=$prefix/share/iox2sd
cmake=$lib/cmake/iox2sd
install -d "$include" "$lib/pkgconfig" "$cmake"
install -m 644 ../include/iox2sd*.h ../include/iox2sd*.hpp "$include"
install -m 644 out/libiox2sd.a "$lib"
install -m 755 "out/$shared" "$lib"
ln -sf "$shared" "$lib/libiox2sd.so"
made iox2sd.pc "$lib/pkgconfig"
made iox2sdConfigVersion.cmake "$cmake"
made iox2sdConfig.cmake "$cmake"

# The crate, without its tests.
rm -rf "$share"
(cd rust && find Cargo.toml build.rs README.md LICENSE-* NOTICE src examples -type f) |
    while read -r file; do install -D -m 644 "rust/$file" "$share/rust/$file"; done
# It finds the library in LIBDIR.
sed -i "s|\"[.][.]/[.][.]/[.][.]/lib\"|\"../../../$libdir\"|" "$share/rust/build.rs"
grep -qF "\"../../../$libdir\"" "$share/rust/build.rs"

# The wheel.
if python3 -c 'import tomllib' 2> /dev/null; then
    made=$(mktemp -d)
    trap 'rm -rf "$made"' EXIT
    IOX2SD_LIBRARY=$PWD/out/$shared python3 -B python/build_wheel.py "$made" > /dev/null
    install -D -m 644 -t "$share/python" "$made"/*.whl
else
    echo "Python 3.11 was not found, so no wheel was installed" >&2
fi
