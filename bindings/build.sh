#!/usr/bin/env bash
# Builds into bindings/out the library for C: libiox2sd.a and libiox2sd.so.2, of which the functions
# of the headers alone can be seen from outside. It proves all crates below first. No link is made,
# since `rt ci` refuses a checkout that has one: install.sh makes libiox2sd.so.
# With --after-gate it proves the exports alone, over what `rt ci` left of the crates below. That
# keeps nothing of the exports, so they are proved again, but for what is in out/incremental.
set -euo pipefail
cd "$(dirname "$0")"
CC=${CC:-cc}
crates=$(cd ../crates && pwd)
kit=$(dirname "$(rt doc)")
heap=$kit/c/liblibc_c.a
# The library runs on every x86-64: without this it would need SSE4.1 and popcnt.
cpu=(--cpu x86-64)
rm -rf out
mkdir -p out

# Proves and builds one crate of exports over the libraries that it uses, as `crates.txt` has them.
build_over_proved() {
    local words=(--crate-name "$1" --crate-type staticlib) name
    for name in std $(sed -n "s/^$1 staticlib: //p" ../crates.txt); do
        if [ -d "$crates/$name" ]; then
            words+=(--extern "$name=$crates/$name/out/rlib/$name.rlib")
        else
            words+=(--extern "$name=$kit/rlibs/$name.rlib")
        fi
    done
    for name in "$kit/rlibs" "$crates"/*/out/rlib; do words+=(-L "dependency=$name"); done
    words+=(--antt-project "$kit/rattle/logic/antt-project.json" --logic-built "$kit/logic_built")
    words+=(--incremental out/incremental --links "$1=" "${cpu[@]}")
    words+=(--toolchain "$kit/toolchain" -o "out/lib$1.a")
    (cd "$crates/$1" && mkdir -p out && "$kit/bin/rattle" build "${words[@]}" src/lib.rt)
}

# One object of each crate and its heap.
objects=()
for crate in iox2sd iox2sd_values iox2sd_config; do
    if [ "${1:-}" = --after-gate ]; then
        build_over_proved "$crate"
    else
        (cd "$crates/$crate" && rt lib "${cpu[@]}")
    fi
    ld -r -o "out/$crate.o" --whole-archive "$crates/$crate/out/lib$crate.a" "$heap"
    objcopy --wildcard --keep-global-symbol='iox2sd_*' "out/$crate.o"
    objects+=("out/$crate.o")
done
# The functions of the headers that check pointers and call the exports.
"$CC" -std=c99 -O2 -fPIC -Wall -Wextra -Werror -I../include -c library/iox2sd.c -o out/library.o
objects+=(out/library.o)
ar rcs out/libiox2sd.a "${objects[@]}"
"$CC" -shared -o out/libiox2sd.so.2 "${objects[@]}" \
    -Wl,-soname,libiox2sd.so.2 -Wl,--version-script=library/iox2sd.map -Wl,-z,defs -Wl,-z,now
rm out/*.o
ls -l out
