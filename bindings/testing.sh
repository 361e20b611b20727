# What the scripts of tests share. Each sources this file, and ends with `finish`.
if [ -z "${work:-}" ]; then
    work=$(mktemp -d)
    trap 'rm -rf "$work"' EXIT
fi
passed=0 failed=0

# Whether all these tools are there.
has() {
    local tool
    for tool; do
        command -v "$tool" > "$work/which" 2>&1 || { echo "not found: $tool"; return 1; }
    done
}

# What is tested, and a command that succeeds where it is so; what it prints is shown where not.
run() {
    if "${@:2}" > "$work/log" 2>&1; then
        echo "passed: $1"
        passed=$((passed + 1))
    else
        echo "FAILED: $1"
        cat "$work/log"
        failed=$((failed + 1))
        return 1
    fi
}

# Runs a program in a package of its own in a folder outside, which depends on the crate at a path.
of_rust() {
    local name=${1##*/}
    mkdir -p "$work/package" && cp "$1" "$work/package" &&
        cat > "$work/package/Cargo.toml" << END || return 1
[package]
name = "${name%.rs}"
edition = "2021"
[dependencies]
iox2sd = { path = "$2" }
[[bin]]
name = "${name%.rs}"
path = "$name"
END
    CARGO_TARGET_DIR=$work/rust env -u IOX2SD_LIB_DIR cargo run --quiet --offline --jobs 1 \
        --manifest-path "$work/package/Cargo.toml"
}

finish() {
    echo "$passed passed, $failed failed"
    [ "$failed" -eq 0 ] && [ "$passed" -gt 0 ]
}
