#!/bin/sh
# Runs the tests of the book of forks under valgrind: every block is freed, also that of a book that is dropped with
# records in it, and no byte is read or written outside a block. `rt ci`, or `rt test` in crates/tests_forks, builds them. The last
# line is `N passed, M failed`, and the status is 0 if none failed.
set -e
tests=$(dirname "$0")/../crates/tests_forks/out/tests_forks_tests
names=$("$tests" --list | sed -n 's/: test$//p' | grep '^tests::forks::')
passed=0 failed=0
for name in $names; do
    if valgrind --quiet --leak-check=full --show-leak-kinds=all --errors-for-leak-kinds=all --error-exitcode=9 "$tests" "$name" >/dev/null; then
        passed=$((passed + 1))
    else
        failed=$((failed + 1))
        echo "$name: not all is freed, or a byte outside a block is touched" >&2
    fi
done
echo "$passed passed, $failed failed"
[ "$failed" -eq 0 ]
