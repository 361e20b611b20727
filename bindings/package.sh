#!/usr/bin/env bash
# Makes dist/: packages that need no toolchain, of what bindings/build.sh and the gate have built:
#
# - iox2sd-VERSION-x86_64-linux-gnu.tar.gz: a prefix with headers, libraries, the programs, pages
#   and examples, and the site of all contracts, to be unpacked anywhere;
# - iox2sd-VERSION-rust.tar.gz: the crate for cargo, with the static library beside it;
# - a wheel for pip with the shared library in it, and an archive of sources, of which pip makes one
#   with the library that is installed;
# - Debian packages: libiox2sd2, libiox2sd-dev, python3-iox2sd, iox2sd-tools;
# - PROVENANCE and SHA256SUMS.
#
# All times are those of the last commit (SOURCE_DATE_EPOCH), and names are sorted, so that two runs
# on one commit make the same bytes; bindings/test_packages.sh compares them.
set -euo pipefail
cd "$(dirname "$0")"
top=$(cd .. && pwd)
dist=${1:-$top/dist}
SOURCE_DATE_EPOCH=${SOURCE_DATE_EPOCH:-$(git -C "$top" log -1 --format=%ct)}
export SOURCE_DATE_EPOCH LC_ALL=C TZ=UTC
umask 022
version=$(./version)
work=$(mktemp -d)
trap 'rm -rf "$work"' EXIT
rm -rf "$dist"
mkdir -p "$dist"

# Packs a folder of the work folder, the same way each time.
pack() {
    tar --sort=name --owner=0 --group=0 --numeric-owner --mtime="@$SOURCE_DATE_EPOCH" \
        --format=ustar -C "$work" -cf - "$1" | gzip -9n > "$dist/$2"
}

# Installs the programs below a folder, with their manual pages and what bash completes.
tools() {
    local each
    install -d "$1/bin" "$1/share/man/man1"
    for each in replay describe conform check; do
        install -m 755 "$top/crates/iox2_$each/out/iox2_$each" "$1/bin/iox2-$each"
        package/manual "iox2-$each" "$version" | gzip -9n > "$1/share/man/man1/iox2-$each.1.gz"
    done
    install -D -m 644 package/iox2-check.bash "$1/share/bash-completion/completions/iox2-check"
}

# ---- The prefix ----

name=iox2sd-$version-x86_64-linux-gnu
prefix=$work/$name
./install.sh "$prefix" > "$work/log"
mv "$prefix"/share/iox2sd "$work/wrappers"
tools "$prefix"
doc=$prefix/share/doc/iox2sd
install -D -m 644 -t "$doc" "$top"/LICENSE-APACHE "$top"/LICENSE-MIT "$top"/NOTICE \
    "$top"/docs/{C,CPP,CALLS,GLOSSARY,SCRIPT,DESCRIBE,CONFORM,CONFIG,PROMISES}.md \
    "$top"/docs/{iceoryx2.toml,message-layout.svg,conform-window.svg}
install -D -m 644 -t "$doc/examples" "$top"/examples/*.c "$top"/examples/*.cpp \
    package/Makefile package/CMakeLists.txt
"$top/docs/reference" "$doc/reference" > "$work/log"
pack "$name" "$name.tar.gz"

# ---- The crate ----

crate=$work/iox2sd-$version
mv "$work/wrappers/rust" "$crate"
install -m 644 out/libiox2sd.a "$crate"
pack "iox2sd-$version" "iox2sd-$version-rust.tar.gz"

# ---- The wheel, and its sources ----

cp "$work"/wrappers/python/*.whl "$dist"
env -u IOX2SD_LIBRARY python3 -B python/build_wheel.py --sdist "$dist" > "$work/log"

# ---- Debian packages ----

# The least version of the C library that has all symbols which the files of a folder want.
libc_of() {
    { grep -raohE 'GLIBC_[0-9]+([.][0-9]+)+' "$1" || [ $? -eq 1 ]; } | sed 's/GLIBC_//' |
        sort -uV | tail -n 1
}

# The folder of a package is $work/deb/NAME; its control file comes last.
deb() {
    local root=$work/deb/$1
    install -d "$root/usr/share/doc/$1"
    sed -e "s/@VERSION@/$version/g" -e "s/@DATE@/$(date -u -R -d "@$SOURCE_DATE_EPOCH")/" \
        "$top/debian/changelog" | gzip -9n > "$root/usr/share/doc/$1/changelog.Debian.gz"
    install -m 644 "$top/debian/copyright" "$root/usr/share/doc/$1/copyright"
    (cd "$root" && find usr -type f -print0 | sort -z | xargs -0 md5sum) > "$work/md5sums"
    install -d "$root/DEBIAN"
    install -m 644 "$work/md5sums" "$root/DEBIAN/md5sums"
    sed -e "s/@VERSION@/$version/g" -e "s/@LIBC@/$(libc_of "$root/usr")/" \
        "$top/debian/$1.control" > "$root/DEBIAN/control"
    echo "Installed-Size: $(du -k -s --apparent-size "$root/usr" | cut -f 1)" \
        >> "$root/DEBIAN/control"
    for script in triggers shlibs symbols; do
        [ ! -f "$top/debian/$1.$script" ] ||
            install -m 644 "$top/debian/$1.$script" "$root/DEBIAN/$script"
    done
    dpkg-deb --root-owner-group -Zxz --build "$root" \
        "$dist/${1}_$version-1_$(sed -n 's/^Architecture: //p' "$root/DEBIAN/control").deb" \
        > "$work/log"
}

triplet=x86_64-linux-gnu
lib=$work/deb/libiox2sd2/usr/lib/$triplet
install -D -m 644 -t "$lib" out/libiox2sd.so.2
strip --strip-unneeded "$lib/libiox2sd.so.2"
deb libiox2sd2

dev=$work/deb/libiox2sd-dev/usr
DESTDIR=$work/deb/libiox2sd-dev LIBDIR=lib/$triplet ./install.sh /usr > "$work/log"
rm -r "$dev/share/iox2sd" "$dev/lib/$triplet/libiox2sd.so.2"
strip --strip-debug "$dev/lib/$triplet/libiox2sd.a"
# The system finds the library without a path in the program.
sed -i -e 's|^prefix=.*|prefix=/usr|' -e 's| -Wl,-rpath,[^ ]*||' \
    "$dev/lib/$triplet/pkgconfig/iox2sd.pc"
install -D -m 644 -t "$dev/share/doc/iox2sd/reference" "$doc"/reference/*
deb libiox2sd-dev

python=$work/deb/python3-iox2sd/usr/lib/python3/dist-packages
install -d "$python"
python3 - "$dist"/iox2sd-*.whl "$python" << 'END'
import sys, zipfile
with zipfile.ZipFile(sys.argv[1]) as wheel:
    wheel.extractall(sys.argv[2], [n for n in wheel.namelist() if not n.endswith(".so.2")])
END
rm -f "$python"/*.dist-info/RECORD
find "$python" -type d -exec chmod 755 {} + -o -type f -exec chmod 644 {} +
ln -s "../../../$triplet/libiox2sd.so.2" "$python/iox2sd/libiox2sd.so.2"
deb python3-iox2sd

tools "$work/deb/iox2sd-tools/usr"
strip "$work"/deb/iox2sd-tools/usr/bin/*
deb iox2sd-tools

# ---- What the bytes stand on ----

changes=$(git -C "$top" status --porcelain || true)
{
    echo "version: $version"
    echo "commit: $(git -C "$top" rev-parse HEAD)${changes:+, and changes that it has not}"
    echo "toolchain: $(rt version)"
    # What the gate printed of this commit: of each crate, and its last line.
    if grep -qx "commit: $(git -C "$top" rev-parse HEAD)" "$top/out/gate" 2> /dev/null; then
        awk '/^== / { crate = $2 } /^logic=/ && !seen[crate]++ { print crate ": " $0 }' \
            "$top/out/gate" | sort
        echo "gate: $(grep -E '^[0-9]+ passed, [0-9]+ failed$' "$top/out/gate" | head -n 1)"
    else
        echo "gate: not run on this commit"
    fi
} > "$dist/PROVENANCE"
(cd "$dist" && sha256sum -- * > SHA256SUMS)
ls -l "$dist"
