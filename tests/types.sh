#!/bin/bash
# Judges the types of the scripts in Python by `mypy --strict`, with the settings of tests/mypy.ini, and prints each error.
# usage: tests/types.sh
# The last line is 'N passed, M failed': a file passes in which there is no error. Without mypy a line 'skipped: types: WHY'
# says so.
source "$(dirname "$0")/usage.sh"
takes 0 -- "$@"
set -u
cd "$(dirname "$0")/.." || exit 1
source tests/judging.sh

command -v mypy >/dev/null || skipped_all 'there is no mypy'
files=({tools,tests,tests/pages,tests/hostile_models,bench,bench/peers,python/src/talmuiga,python/tests}/*.py)
errors=$(mypy --strict --config-file tests/mypy.ini --cache-dir=/dev/null --no-error-summary "${files[@]}" 2>&1)
status=$?
# where mypy ends before it has judged all, nothing has passed
[ "$status" -le 1 ] || { echo "$errors"; failed_all "mypy: status $status"; }

# has_no_error FILE: whether mypy reported no error in this file; it prints them.
has_no_error() {
    ! grep -E "^$1:([0-9]+:)? error: " <<<"$errors"
}

for file in "${files[@]}"; do
    judge "$file" has_no_error "$file"
done
[ "$status" = 0 ] || [ "$failed" -gt 0 ] || judge "another file: $errors" false
ended_all
