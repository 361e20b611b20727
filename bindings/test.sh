#!/usr/bin/env bash
# Runs the callers' tests in C, C++, Rust and Python, those of C and C++ under sanitizers and
# valgrind too, then the examples, and what an installation gives, as far as their tools are found.
# bindings/build.sh comes first. The last line is 'N passed, N failed'.
set -uo pipefail
cd "$(dirname "$0")"
. ./testing.sh

warnings=(-Wall -Wextra -Wpedantic -Wconversion -Werror)

# compiler, source, options
compiles() {
    rm -f "$work/caller"
    run "$1 ${*:3} $2 compiles" "$1" -O2 "${@:3}" "${warnings[@]}" -I../include "$2" \
        out/libiox2sd.a -pthread -o "$work/caller"
}

# compiler, ways with commas between them (leaks after plain), source, options
runs() {
    local name="$1 ${*:4} $3" way
    has "$1" || return 0
    for way in ${2//,/ }; do
        case $way in
        plain) compiles "$1" "${@:3}" && run "$name runs" "$work/caller" ;;
        leaks) has valgrind && run "$name under valgrind" valgrind --quiet --leak-check=full \
            --show-leak-kinds=all --error-exitcode=9 "$work/caller" ;;
        races) has valgrind && compiles "$1" "${@:3}" -g && run "$name under helgrind" valgrind \
            --quiet --tool=helgrind --error-exitcode=9 "$work/caller" ;;
        *) compiles "$1" "${@:3}" "-fsanitize=${way/+/,}" -fno-sanitize-recover=all -g -O1 &&
            run "$name with -fsanitize=${way/+/,}" "$work/caller" ;;
        esac
    done
}

# The archive and the library export the functions of the headers alone.
same_exports() {
    nm -g --defined-only out/libiox2sd.a | awk 'NF == 3 { print $3 }' | sort -u > "$work/archive"
    [ -s "$work/archive" ] && ! grep -v '^iox2sd_' "$work/archive" &&
        nm -D --defined-only out/libiox2sd.so.2 |
        sed -n 's/.* \(iox2sd_[a-z0-9_]*\)@@IOX2SD_.*/\1/p' | sort |
        diff "$work/archive" - && ./symbols out/libiox2sd.so.2
}

# An example prints the lines that stand below 'It prints:' at its head.
prints_what_it_says() {
    "${@:2}" > "$work/printed" &&
        sed -n '/^\/\/ It prints:$/,/^[^/]/s|^//     ||p' "$1" | diff - "$work/printed"
}

example() {
    has "$1" || return 0
    compiles "$1" "$2" "-std=$3" &&
        run "$1 $2 prints what it says" prints_what_it_says "$2" "$work/caller"
}

# The statuses of the header are those of the crate that has them. In each, a name and a number
# stand once, or it would not compile.
same_statuses() {
    sed -n '/^enum iox2sd_status_number {/,/^}/s/^ *IOX2SD_STATUS_\([A-Z0-9_]* = [0-9]*\).*/\1/p' \
        ../include/iox2sd.h | sort > "$work/header"
    [ -s "$work/header" ] &&
        sed -n 's/^    \([A-Z][A-Za-z0-9]* = [0-9]*\),$/\1/p' \
            ../crates/iox2sd_common/src/status.rt | sed 's/\B[A-Z]/_&/g' | tr a-z A-Z | sort |
        diff "$work/header" -
}

# No instruction is beyond those that every x86-64 has.
baseline() {
    objdump -d --no-show-raw-insn out/libiox2sd.a > "$work/instructions" &&
        [ -s "$work/instructions" ] &&
        ! grep -E '\b(popcnt|crc32|ptest|pshufb|p(ext|ins)r[bdq]|pmulld|round[sp][sd])' \
            "$work/instructions" && ! grep -E '\bv[a-z0-9]+ .*[xy]mm' "$work/instructions"
}

# A command of cargo in a target folder, with the library of a folder, on the crate of a folder.
cargo_in() {
    CARGO_TARGET_DIR=$work/$1 IOX2SD_LIB_DIR=$2 \
        cargo "$4" --jobs 1 --offline --manifest-path "$3/Cargo.toml" "${@:5}"
}

# A command of cargo on the crate for Rust.
crate() { cargo_in rust "$PWD/out" rust "$@"; }

# Runs tests, of which there are some, as a line says that they print.
some() { "${@:2}" 2>&1 | tee "$work/tests" && grep -q "$1" "$work/tests"; }

# The comparison with the original crate, with one that stands in for it: all answers alike, and one
# default of another number.
against() {
    mkdir "$work/compared"
    cp -r against "$work/compared"
    ln -s "$PWD/rust" "$work/compared/rust"
    with_stand_in() {
        cargo_in compared/target "$PWD/out" "$work/compared/against" run --quiet \
            --config "patch.crates-io.iceoryx2.path=\"$work/compared/against/stand_in\"" "$@"
    }
    with_stand_in | grep '^[1-9][0-9]* compared, 0 differ$' &&
        with_stand_in --bin headers | grep '^response-header 8 8 ' &&
        ! with_stand_in --features iceoryx2/differs > "$work/differs" &&
        grep 'event.max_listeners: iceoryx2 has' "$work/differs" &&
        grep ' compared, 1 differ$' "$work/differs"
}

# Where the library is missing, what does not link passes, and what links says what is missing.
without_library() {
    mkdir -p "$work/missing"
    without() { cargo_in missing/target "$work/missing" rust "$@" 2>&1; }
    without check --tests && without doc --no-deps && ! without build > "$work/built" &&
        grep 'run bindings/build.sh' "$work/built"
}

has_cargo() {
    cargo "$1" --version > "$work/which" 2>&1 || { echo "not found: cargo $1"; return 1; }
}

# Each header with this ending, included alone, has no warning. A test has that of <format>.
headers_compile() {
    local header
    for header in ../include/*."$1"; do
        [ "$header" = ../include/iox2sd_format.hpp ] ||
            echo "#include \"${header##*/}\"" |
            "${@:2}" "${warnings[@]}" -fsyntax-only -I../include - || return 1
    done
}

allocations=-Wl,--wrap=malloc,--wrap=realloc
for compiler in gcc clang; do
    if has "$compiler"; then
        run "$compiler: each header for C" headers_compile h "$compiler" -std=c99 -x c
        run "$compiler: each header for C, in C++" headers_compile h "$compiler" -std=c++11 -x c++
    fi
    for source in c/test_{service,values,satisfies,walk,header}.c; do
        runs "$compiler" plain,leaks,address+undefined "$source" -std=c99
    done
    while read -r -u 3 ways source options; do
        runs "$compiler" "$ways" "c/test_$source.c" -std=c99 $options
    done 3<< END
plain,leaks,address+undefined,thread,races threads
plain,leaks,address+undefined,thread log $allocations,--wrap=calloc
plain,leaks script $allocations
plain,leaks conform $allocations
plain,leaks,address+undefined config $allocations
plain memory -D_GNU_SOURCE $allocations,--wrap=calloc,--wrap=free
plain questions -D_GNU_SOURCE $allocations,--wrap=calloc,--wrap=free
plain stack -D_GNU_SOURCE
plain time
END
    for source in ../examples/{builder,monitor,settings}.c; do
        example "$compiler" "$source" c99
    done
done
settings=-Wl,--wrap=iox2sd_script_run_at,--wrap=iox2sd_service_create_at
for name in {global,publish_subscribe,event,request_response}_{defaults,settings_check_at} \
    blackboard_defaults; do
    settings+=,--wrap=iox2sd_$name
done
# Whether a compiler's standard library has <format>.
has_format() {
    has "$1" || return 1
    echo '#include <format>' | "$1" -std=c++20 -fsyntax-only -x c++ - 2> "$work/log" ||
        { echo "not found: <format> of $1"; return 1; }
}

# What an include of the header costs, in kilobytes of the compiler's memory.
include_costs() {
    local taken
    taken=$(/usr/bin/time -f %M g++ -std=c++17 -fsyntax-only -x c++ ../include/iox2sd.hpp 2>&1) &&
        echo "$taken kB" && [ "$taken" -le 80000 ]
}

# Of all warnings of clang++ -Weverything, those about older standards and about padding alone are
# left to the headers.
named=(-Wno-c++98-compat -Wno-c++98-compat-pedantic -Wno-c++98-compat-local-type-template-args
    -Wno-pre-c++14-compat -Wno-pre-c++17-compat -Wno-padded)

has g++ /usr/bin/time && run "an include of iox2sd.hpp takes at most 80 MB" include_costs
has clang++ && run "clang++ -Weverything has no warning about the headers but those named" \
    headers_compile hpp clang++ -std=c++17 -Weverything "${named[@]}" -x c++
for compiler in g++ clang++; do
    for standard in c++17 c++20 c++2b; do
        has "$compiler" && run "$compiler: each header for C++, in ${standard^}" \
            headers_compile hpp "$compiler" -std=$standard -Wshadow -x c++
    done
    has_format "$compiler" && runs "$compiler" plain cpp/test_format.cpp -std=c++20
    while read -r -u 3 ways source options; do
        runs "$compiler" "$ways" "$source" $options
    done 3<< END
plain cpp/test_enumerators.cpp -std=c++17
plain cpp/test_fwd.cpp -std=c++17
plain cpp/test_fields.cpp -std=c++17 $settings
plain,leaks c/test_values.cpp -std=c++11
plain,address+undefined cpp/test_memory.cpp -std=c++17
thread,races cpp/test_service.cpp -std=c++17
plain cpp/test_service.cpp -std=c++17 -fno-exceptions -fno-rtti
END
    for source in cpp/test_{values,results,satisfies,service,config,conform}.cpp; do
        runs "$compiler" plain,leaks,address+undefined "$source" -std=c++17
        runs "$compiler" plain "$source" -std=c++20
    done
    for source in cpp/examples/*.cpp ../examples/{builder,monitor,settings}.cpp; do
        example "$compiler" "$source" c++17
    done
done
has g++ ../crates/iox2_conform/out/iox2_conform &&
    run "the logs of a registry without a lock conform, and its faults are found" \
        env CARGO_TARGET_DIR="$work/rust" lockfree/run 3000
run "statuses agree" same_statuses
[ "$(uname -m)" = x86_64 ] && has objdump && run "libiox2sd runs on every x86-64" baseline
has nm && run "libiox2sd exports the functions of the headers alone" same_exports

# ---- The same programs in each language, where there is an iceoryx2.toml ----

# The first of the programs is what the others are compared with. They run in docs/.
alike() {
    (cd ../docs && "$@") > "$work/printed" && [ -s "$work/printed" ] || return 1
    [ -e "$work/first" ] || cp "$work/printed" "$work/first"
    diff "$work/first" "$work/printed"
}

of_python() {
    PYTHONDONTWRITEBYTECODE=1 PYTHONPATH=../bindings/python \
        IOX2SD_LIBRARY=../bindings/out/libiox2sd.so.2 python3 ../examples/first.py
}

has gcc && compiles gcc ../examples/first.c -std=c99 &&
    run "first.c prints the same as the others" alike "$work/caller"
has g++ && compiles g++ ../examples/first.cpp -std=c++17 &&
    run "first.cpp prints the same as the others" alike "$work/caller"
has python3 && run "first.py prints the same as the others" alike of_python
if has cargo; then
    run "first.rs prints the same as the others" \
        alike of_rust ../examples/first.rs "$PWD/rust"
    for name in builder monitor settings; do
        run "$name.rs prints what it says" prints_what_it_says "../examples/$name.rs" \
            of_rust "../examples/$name.rs" "$PWD/rust"
    done
fi

# ---- What an installation gives ----

# Builds and runs first.c and first.cpp in a folder outside, with these flags, and compares.
outside() {
    cp ../examples/first.c ../examples/first.cpp "$work/outside" &&
        (cd "$work/outside" && gcc -std=c99 first.c "$@" -o c &&
            g++ -std=c++17 first.cpp "$@" -o cpp) &&
        alike "$work/outside/c" && alike "$work/outside/cpp"
}

# prefix, and its folder of libraries
by_pkg_config() {
    local flags
    flags=$(PKG_CONFIG_PATH=$1/$2/pkgconfig pkg-config --cflags --libs 'iox2sd >= 0.1') &&
        outside $flags
}

by_find_package() {
    cp install/consumer/CMakeLists.txt ../examples/first.c ../examples/first.cpp "$work/outside" &&
        cmake -S "$work/outside" -B "$work/outside/build" -DCMAKE_PREFIX_PATH="$1" &&
        cmake --build "$work/outside/build" --parallel 1 &&
        for program in {c,cpp}_{static,shared,iox2sd}; do
            alike "$work/outside/build/$program" || return 1
        done
}

by_pip() {
    cp ../examples/first.py "$work/outside" &&
        python3 -m venv "$work/outside/venv" &&
        "$work/outside/venv/bin/python" -m pip install --no-index --quiet \
            "$1"/share/iox2sd/python/*.whl &&
        alike env -u IOX2SD_LIBRARY "$work/outside/venv/bin/python" -I \
            "$work/outside/first.py"
}

# prefix, its folder of libraries, and what is to be said of it
installed_at() {
    rm -rf "$work/outside" && mkdir "$work/outside"
    has gcc g++ pkg-config && run "pkg-config, $3" by_pkg_config "$1" "$2"
    has gcc g++ cmake && run "find_package, $3" by_find_package "$1"
}

run "install.sh wants an absolute path" bash -c '! ./install.sh prefix'
run "install.sh takes a stage from where it is called" bash -c \
    'cd "$1" && DESTDIR=stage "$2/install.sh" /usr && [ -e stage/usr/lib/libiox2sd.a ]' \
    - "$work" "$PWD"
# The directories of a distribution, as GNUInstallDirs names them.
other=lib/x86_64-linux-gnu
run "install.sh installs into other directories" \
    env LIBDIR=$other INCLUDEDIR=include/iox2sd ./install.sh "$work/debian" &&
    installed_at "$work/debian" $other "in other directories"
has cargo && run "cargo, by a path, in other directories" \
    alike of_rust ../examples/first.rs "$work/debian/share/iox2sd/rust"
if run "install.sh installs" ./install.sh "$work/prefix"; then
    mv "$work/prefix" "$work/moved"
    installed_at "$work/moved" lib moved
    has cargo && run "cargo, by a path, moved" \
        alike of_rust ../examples/first.rs "$work/moved/share/iox2sd/rust"
    if [ -e "$work/moved/share/iox2sd/python" ]; then
        run "pip install, moved" by_pip "$work/moved"
    else
        echo "no wheel was installed"
    fi
fi

if has cargo; then
    run "cargo test" some '^test result: ok[.] [1-9]' crate test --quiet
    for example in discovery factory; do
        run "cargo run --example $example" crate run --quiet --example "$example"
    done
    run "cargo check and cargo doc pass without the library" without_library
    RUSTDOCFLAGS="--deny warnings" run "cargo doc" crate doc --no-deps && has python3 &&
        run "each public item has an example" rust/check_examples "$work/rust/doc/iox2sd"
    has_cargo clippy && run "cargo clippy" crate clippy --all-targets -- --deny warnings &&
        run "cargo clippy, pedantic" crate clippy --lib --examples -- --deny warnings \
            --deny clippy::pedantic
    if has_cargo fmt; then
        for manifest in rust against against/stand_in lockfree/rust; do
            run "cargo fmt $manifest" cargo fmt --check --manifest-path $manifest/Cargo.toml
        done
    fi
    run "the comparison with iceoryx2, by a crate that stands in for it" against
fi
if has python3; then
    has cc || echo "so the declarations of Python were not compared with the headers"
    run "python3 -m unittest" some '^Ran [1-9]' env PYTHONDONTWRITEBYTECODE=1 python3 -m unittest \
        discover --start-directory python/tests --top-level-directory python
    has mypy && run "mypy" env -C python mypy --cache-dir "$work/mypy"
fi
# Last, so that it sees what all tests left in the checkout.
has rt && run "rt ci starts again in this checkout" ./starts_again
finish
