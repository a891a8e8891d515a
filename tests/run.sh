#!/bin/sh
# All tests from outside of the proofs, in order: the second program on itself, the library compared with it, the
# programs, the command and the C example on files. The last line is 'N passed, 0 failed'.
set -u
cd "$(dirname "$0")/.." || exit 1
log=$(mktemp) || exit 1
trap 'rm -f "$log"' EXIT
passed=0

fail() {
    echo "tests: $1"
    echo "$passed passed, 1 failed"
    exit 1
}

# stage NAME COMMAND..: runs a command whose last line is 'N passed, 0 failed', and adds N.
stage() {
    echo "tests: $1"
    shift
    { "$@" 2>&1 || echo "exit status $?"; } | tee "$log"
    more=$(tail -n 1 "$log" | sed -n 's/^\([0-9][0-9]*\) passed, 0 failed$/\1/p')
    [ -n "$more" ] || fail "the lines above say what differs"
    passed=$((passed + more))
}

# The worked cases of document 01 on the references, in cargo's own words.
references() {
    cargo test --release --offline --quiet --lib --manifest-path tests/second/Cargo.toml >"$log.cargo" 2>&1
    status=$?
    [ "$status" -eq 0 ] || cat "$log.cargo"
    sed -n 's/^test result: ok. \([0-9][0-9]*\) passed; 0 failed;.*/\1 passed, 0 failed/p' "$log.cargo"
    rm -f "$log.cargo"
    return "$status"
}

for tool in rt cargo gcc; do
    command -v "$tool" >/dev/null || fail "$tool is missing: put it on PATH"
done
stage "the second program on the worked cases of document 01" references
echo "tests: the library (./ghozrembu library)"
./ghozrembu library || fail "the library is not proved"
cargo build --release --offline --quiet --manifest-path tests/second/Cargo.toml || fail "cargo build failed"
stage "the library compared with the second program" tests/second/target/release/second
stage "programs, command and C example on files" tests/programs.sh
echo "$passed passed, 0 failed"
