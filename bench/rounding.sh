#!/bin/bash
# Counts what rounding costs: each of the first mixed lines is read as a decimal, and rounded to an integer by the call without a
# mode or with one, by programs/rounding.rattle.
# usage: bench/rounding.sh
source "$(dirname "$0")/../tests/usage.sh"
takes 0 -- "$@"
set -u
cd "$(dirname "$0")" || exit 1
. ./common.sh
program rounding fixed_decimal || exit 1
command -v valgrind >/dev/null || { echo 'no valgrind here'; exit 0; }
row 'mixed lines' 'instructions a line' 'of reading alone'
row --- --- ---
costs 'read' build/rounding read
costs '`rounded`' build/rounding rounded
costs '`rounded_with_mode`, half-even' build/rounding half-even
costs '`rounded_with_mode`, half-up' build/rounding half-up
costs '`rounded_with_mode`, ceiling' build/rounding ceiling
