#!/bin/sh
# Shows that the comparison notices: the calls with one mistake at a time (library.c), linked in place of the product.
# Every mistake must be reported as a difference, and the calls without a mistake must pass. Some minutes; not a part of
# the gate. The last line is 'N passed, 0 failed'. `tests/wrong/run.sh N..` tries these mistakes only.
set -u
cd "$(dirname "$0")/../.." || exit 1
build=tests/second/target/wrong
mkdir -p "$build" || exit 1
gcc -O2 -Wall -Wextra -Werror -Iinclude -c tests/wrong/library.c -o "$build/library.o" || exit 1
rm -f "$build/libghozrembu.a"
ar rcs "$build/libghozrembu.a" "$build/library.o" || exit 1
GHOZREMBU_LIB=$PWD/$build cargo build --release --offline --quiet --manifest-path tests/second/Cargo.toml \
    --target-dir "$build" --bin second || exit 1

passed=0
failed=0
if [ $# -eq 0 ]; then
    mistake=$(grep -c '^ \* *[0-9][0-9]* ' tests/wrong/library.c)
    while [ "$mistake" -gt 0 ]; do
        set -- "$mistake" "$@"
        mistake=$((mistake - 1))
    done
    set -- 0 "$@"
fi
for mistake in "$@"; do
    MISTAKE=$mistake "$build/release/second" first >"$build/log" 2>&1
    status=$?
    what=$(sed -n "s/^ \* *$mistake //p" tests/wrong/library.c)
    if [ "$mistake" -eq 0 ] && [ "$status" -eq 0 ]; then
        passed=$((passed + 1))
        echo "ok  no mistake, no difference"
    elif [ "$mistake" -ne 0 ] && [ "$status" -eq 1 ] && grep -q DIFFERENCE "$build/log"; then
        passed=$((passed + 1))
        echo "ok  $mistake $what: $(grep -m 1 DIFFERENCE "$build/log" | sed 's/.*DIFFERENCE:* *//' | cut -c 1-80)"
    else
        failed=$((failed + 1))
        echo "NOT NOTICED  $mistake $what (exit status $status)"
    fi
done
echo "$passed passed, $failed failed"
[ "$failed" -eq 0 ]
