#!/usr/bin/env bash
# Tests what bindings/package.sh makes: two runs make the same bytes; each package is unpacked or
# installed where neither this repository nor the toolchain can be seen, and the first program of
# each language is built and run there as the pages say; Debian packages are upgraded and removed.
# The last line is 'N passed, N failed'.
set -uo pipefail
cd "$(dirname "$0")"
top=$(cd .. && pwd)

if [ "${1:-}" != inside ]; then
    work=$(mktemp -d)
    trap 'rm -rf "$work"' EXIT
    ./package.sh "$work/dist" > "$work/log" 2>&1 || { cat "$work/log"; exit 1; }
    ./package.sh "$work/again" > "$work/log" 2>&1 || { cat "$work/log"; exit 1; }
    cp -r ../examples testing.sh test_packages.sh "$work"
    for program in replay describe conform check; do
        mkdir -p "$work/$program/data"
        for part in args data status stdin stdout; do
            [ ! -e "../crates/iox2_$program/$part" ] ||
                cp -r "../crates/iox2_$program/$part" "$work/$program"
        done
    done
    rm -rf ../dist && cp -r "$work/dist" ../dist
    # In a mount namespace of its own, an empty folder stands over the repository and the toolchain.
    kit=$(dirname "$(rt doc)")
    unshare --map-root-user --mount bash -c '
        mount -t tmpfs none "$1" && mount -t tmpfs none "$2" && cd "$3" &&
            exec bash test_packages.sh inside "$3" "$1" "$2"' - "$top" "$kit" "$work"
    exit
fi

work=$2
. ./testing.sh
prints() { diff <("${@:2}") "$1"; }
printf 'slot 0 of service 7\nit is locked\n' > "$work/expected"

run "the repository and the toolchain cannot be seen" \
    bash -c '[ -z "$(ls -A "$1")" ] && [ -z "$(ls -A "$2")" ]' - "$3" "$4"
run "two runs make the same bytes" diff -r "$work/dist" "$work/again"
run "the sums are right" bash -c 'cd "$1/dist" && sha256sum --quiet -c SHA256SUMS' - "$work"

# ---- The archive, unpacked anywhere ----

mkdir "$work/any where"
tar xzf "$work"/dist/iox2sd-*-linux-gnu.tar.gz -C "$work/any where"
version=$(cd "$work/any where" && echo iox2sd-* | sed 's/^iox2sd-\([0-9.]*\)-.*/\1/')
mv "$work/any where"/iox2sd-* "$work/prefix"
prefix=$work/prefix
mkdir "$work/c" && cd "$work/c" || exit 1
cp "$work"/examples/first.* "$prefix/share/doc/iox2sd/iceoryx2.toml" .
examples=$prefix/share/doc/iox2sd/examples
by_pkg_config() {
    PKG_CONFIG_PATH=$prefix/lib/pkgconfig
    export PKG_CONFIG_PATH
    gcc first.c $(pkg-config --cflags --libs iox2sd) -o c && prints "$work/expected" ./c
}
by_make() {
    make -C "$examples" && prints "$work/expected" "$examples/first_c" &&
        prints "$work/expected" "$examples/first_cpp" && make -C "$examples" clean
}
by_cmake() {
    cmake -S "$examples" -B "$work/build" && cmake --build "$work/build" &&
        prints "$work/expected" "$work/build/first_cpp" &&
        prints "$work/expected" "$work/build/first_c"
}
# A program of the archive on its stored run.
repeats() {
    local words=() input=$work/$1/stdin
    [ -e "$input" ] || input=/dev/null
    [ ! -e "$work/$1/args" ] || mapfile -t words < "$work/$1/args"
    (cd "$work/$1/data" && "$prefix/bin/iox2-$1" "${words[@]}") < "$input" > "$work/printed"
    [ $? = "$(cat "$work/$1/status" 2> "$work/log" || echo 0)" ] &&
        diff "$work/printed" "$work/$1/stdout"
}
has_version() { [ "$("$prefix/bin/$1" --version)" = "$1 $version (iceoryx2 0.9.3)" ]; }
has_manual() { zcat "$prefix/share/man/man1/$1.1.gz" | man -l - | grep "usage: $1"; }
refuses_argument() { ! "$prefix/bin/$1" what < /dev/null; }
# The order of a log's calls. Progress is shown on a terminal alone.
has_witness() {
    printf 'service event 7 1 0 0\nnodes\n= list\n' |
        "$prefix/bin/iox2-conform" --progress --witness 2>&1 |
        diff - <(printf 'conforms, 1 call on 1 service\nservice 7\n3\n')
}
# A program with these words has status 3 where what it writes goes nowhere.
fails_to_write() { "$prefix/bin/iox2-$1" "${@:3}" < "$2" > /dev/full; [ $? = 3 ]; }
if has gcc pkg-config; then run "archive: pkg-config" by_pkg_config; fi
if has make gcc g++; then run "archive: make" by_make; fi
if has cmake gcc g++; then run "archive: CMake" by_cmake; fi
run "archive: the site of contracts" \
    grep -q sample_layout "$prefix/share/doc/iox2sd/reference/headline.html"
run "archive: iox2-conform --progress --witness" has_witness
run "archive: iox2-check where nothing can be written" fails_to_write check /dev/null --schema
for program in replay describe conform check; do
    run "archive: iox2-$program" repeats $program
    if has man; then run "archive: man iox2-$program" has_manual iox2-$program; fi
    [ $program = check ] || run "archive: iox2-$program where nothing can be written" \
        fails_to_write $program "$work/$program/stdin"
    [ $program != replay ] || continue
    run "archive: iox2-$program --version" has_version iox2-$program
    run "archive: iox2-$program with a bad argument" refuses_argument iox2-$program
done
# What bash completes for the words of a command line, of which the last is completed.
completes() {
    bash -c '. "$1"; COMP_WORDS=("${@:2}"); COMP_CWORD=$(($# - 2)); _iox2_check
        printf "%s\n" "${COMPREPLY[@]}"' \
        - "$prefix/share/bash-completion/completions/iox2-check" "$@"
}
completes_options() {
    [ "$(completes iox2-check --s)" = $'--strict\n--show\n--schema' ] &&
        [ "$(completes iox2-check --format j)" = json ] &&
        [ "$(completes iox2-check --format = j)" = json ] &&
        [ "$(completes iox2-check --format =)" = $'text\njson' ] &&
        [ "$(completes iox2-check "$work/check/ar")" = "$work/check/args" ]
}
run "archive: completions of iox2-check" completes_options

# ---- The crate and the wheel ----

by_cargo() {
    tar xzf "$work"/dist/iox2sd-*-rust.tar.gz -C "$work" &&
        prints "$work/expected" of_rust first.rs "$work/iox2sd-$version"
}
by_pip() {
    python3 -m venv "$work/venv" &&
        "$work/venv/bin/pip" install --quiet --no-index "$work"/dist/*.whl &&
        prints "$work/expected" "$work/venv/bin/python" -I "$work/examples/first.py"
}
# The archive of sources takes the library of the prefix.
from_sources() {
    IOX2SD_LIBRARY=$(echo "$prefix"/lib/libiox2sd.so.[0-9]) "$work/venv/bin/pip" install --quiet \
        --no-index --force-reinstall "$work/dist/iox2sd-$version.tar.gz" &&
        prints "$work/expected" "$work/venv/bin/python" -I "$work/examples/first.py"
}
if has cargo; then run "crate: cargo run" by_cargo; fi
if has python3; then
    run "wheel: pip install" by_pip
    if python3 -c 'import tomllib' 2> "$work/log"; then
        run "archive of sources: pip install" from_sources
    fi
fi

# ---- Debian packages, in a root of their own ----

root=$work/root
debs() {
    mkdir -p "$root/var/lib/dpkg/info" "$root/var/lib/dpkg/updates" "$root/var/lib/dpkg/triggers" &&
        touch "$root/var/lib/dpkg/status" &&
        dpkg --root="$root" --force-depends --force-not-root "$@"
}
installed() { debs -i "$work"/dist/*.deb && (cd "$root" && find . -path ./var -prune -o -print); }
used() {
    local lib=$root/usr/lib/x86_64-linux-gnu
    gcc "-I$root/usr/include" first.c "$lib/libiox2sd.a" -o c && prints "$work/expected" ./c &&
        gcc "-I$root/usr/include" first.c "-L$lib" -liox2sd -o c &&
        LD_LIBRARY_PATH=$lib prints "$work/expected" ./c &&
        ! grep rpath "$lib/pkgconfig/iox2sd.pc" &&
        "$root/usr/bin/iox2-replay" < "$work/replay/stdin" | diff - "$work/replay/stdout" &&
        PYTHONPATH=$root/usr/lib/python3/dist-packages prints "$work/expected" \
            python3 "$work/examples/first.py"
}
removed() {
    debs --purge libiox2sd2 libiox2sd-dev python3-iox2sd iox2sd-tools &&
        left=$(find "$root" -path "$root/var/lib/dpkg" -prune -o ! -type d -print) &&
        echo "$left" && [ -z "$left" ]
}
if has dpkg; then
    run "Debian: installed" installed
    if has gcc python3; then run "Debian: used" used; fi
    run "Debian: installed over itself" installed
    run "Debian: removed, and nothing is left" removed
fi
if has lintian; then run "lintian" lintian --allow-root --fail-on error "$work"/dist/*.deb; fi

finish
