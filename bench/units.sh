#!/bin/bash
# Counts what a unit over short English costs beside the number alone: each of the first mixed lines is read, and written
# into a sink with parts of its own, by programs/units.rattle.
# usage: bench/units.sh
source "$(dirname "$0")/../tests/usage.sh"
takes 0 -- "$@"
set -u
cd "$(dirname "$0")" || exit 1
. ./common.sh
program units fixed_decimal icu_base icu_decimal icu_provider icu_tables icu_unit || exit 1
command -v valgrind >/dev/null || { echo 'no valgrind here'; exit 0; }
row 'mixed lines' 'instructions a line' 'of the number'
row --- --- ---
costs 'short English' build/units number ../tables/sample.json
costs 'units over short English, one pattern' build/units unit ../tables/sample.json
costs 'units over short English, with a word for one' build/units plural ../tables/sample.json
