#!/bin/sh
# The three programs, the command and the C example on files as users have them: missing, empty, cut short, far too long.
# All that they print and write is compared with the second program. The last line is 'N passed, 0 failed'.
#
# What is needed is built first: the programs (./ghozrembu programs), the library (./ghozrembu library), the second program (cargo). With
# `tests/programs.sh BIN LIB` the programs are taken from the folder BIN and the library from the folder LIB as they are.
set -u
cd "$(dirname "$0")/.." || exit 1
scratch=$(mktemp -d) || exit 1
trap 'rm -rf "$scratch"' EXIT
passed=0
failed=0

bad() {
    echo "DIFFERENCE  $1"
    failed=$((failed + 1))
}

# add LOG: adds the figures of a last line 'N passed, M failed'; anything else is one failure.
add() {
    more=$(tail -n 1 "$1" | sed -n 's/^\([0-9][0-9]*\) passed, [0-9][0-9]* failed$/\1/p')
    less=$(tail -n 1 "$1" | sed -n 's/^[0-9][0-9]* passed, \([0-9][0-9]*\) failed$/\1/p')
    passed=$((passed + ${more:-0}))
    failed=$((failed + ${less:-1}))
}

stop() {
    echo "$1"
    echo "0 passed, 1 failed"
    exit 1
}

bin=${1:-target/bin}
lib=${2:-target/lib}
if [ $# -eq 0 ]; then
    ./ghozrembu programs || stop "the programs are not proved"
    ./ghozrembu library || stop "the library is not proved"
fi
cargo build --release --offline --quiet --manifest-path tests/second/Cargo.toml --bin files || stop "cargo build failed"
files=tests/second/target/release/files

echo "the three programs on files"
$files programs "$bin" >"$scratch/log"
cat "$scratch/log"
add "$scratch/log"

echo "the command"
$files command ./ghozrembu >"$scratch/log"
cat "$scratch/log"
add "$scratch/log"

echo "the C example"
gcc -O2 -Wall -Wextra -Werror -Iinclude examples/module.c "$lib/libghozrembu.a" -o "$scratch/module" || stop "examples/module.c does not build"

# dispatched DIR MODULE TICKS: the example on a table that the builder wrote answers as the plan says.
dispatched() {
    $files build "$1" "$scratch/table" >/dev/null
    $files dispatch "$1" "$2" "$3" >"$scratch/right"
    if "$scratch/module" "$scratch/table0$2.bin" "$3" >"$scratch/left" && cmp -s "$scratch/left" "$scratch/right"; then
        passed=$((passed + 1))
        echo "ok  $3 ticks of module $2 of $1"
    else
        bad "examples/module.c on module $2 of $1"
        diff "$scratch/left" "$scratch/right" | head -n 5
    fi
}
dispatched examples/sheet-a 0 40
dispatched examples/station 0 130
dispatched examples/station 1 700
dispatched examples/station 2 350

# refused STATUS WORDS..: the example on these words ends with this status and prints nothing.
refused() {
    status=$1
    shift
    "$scratch/module" "$@" >"$scratch/left" 2>/dev/null
    if [ $? -eq "$status" ] && [ ! -s "$scratch/left" ]; then
        passed=$((passed + 1))
        echo "ok  exit status $status: module $*" | sed "s,$scratch/,,g"
    else
        bad "examples/module.c $*: not exit status $status"
    fi
}
head -c 20 "$scratch/table00.bin" >"$scratch/short.bin"
(cat "$scratch/table00.bin" && head -c 100000 /dev/zero) >"$scratch/long.bin"
: >"$scratch/empty.bin"
refused 1 "$scratch/short.bin"
refused 1 "$scratch/long.bin"
refused 1 "$scratch/empty.bin"
refused 2 "$scratch/missing.bin"
refused 2
refused 2 "$scratch/table00.bin" many

echo "$passed passed, $failed failed"
[ "$failed" -eq 0 ]
