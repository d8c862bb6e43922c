#!/bin/bash
# Measures what an amount of money costs: instructions beside the number alone, and time beside ICU4C's formatter of
# currencies. Each of a million mixed lines is read, and its text is made by programs/money.rattle, the amount rounded to cents
# where ICU4C does the same: as a text of its own, or straight behind the lines before it, as reports are written.
# usage: bench/money.sh [RUNS]
source "$(dirname "$0")/../tests/usage.sh"
takes 1 -- "$@"
set -u
cd "$(dirname "$0")" || exit 1
runs=${1:-11}
. ./common.sh
peer icu4c
program money fixed_decimal icu_base icu_decimal icu_dimension icu_dimension_data writeable || exit 1
if command -v valgrind >/dev/null; then
    row 'mixed lines' 'instructions a line' 'of the number'
    row --- --- ---
    costs 'plain English' build/money number
    costs 'money over plain English' build/money amount
    costs 'the same, rounded to cents' build/money cents
    costs 'the same, straight behind the lines before it' build/money appended
    echo
fi

icu4c() { build/icu4c en USD <build/mixed.txt; }
ours=$(took build/money appended build/mixed.txt)
row 'dollars, rounded to cents' time 'same output'
row --- --- ---
row 'the library, straight behind the lines before' "1.00 ($((ours / 1000)) ms)" yes
texts=$(took build/money cents build/mixed.txt)
same=$(cmp -s <(build/money appended build/mixed.txt) <(build/money cents build/mixed.txt) && echo yes || echo no)
row 'the library, a text of its own' "$(ratio "$texts" "$ours") ($((texts / 1000)) ms)" "$same"
if [ -x build/icu4c ]; then
    theirs=$(took icu4c)
    same=$(cmp -s <(build/money appended build/mixed.txt) <(icu4c) && echo yes || echo no)
    row ICU4C "$(ratio "$theirs" "$ours") ($((theirs / 1000)) ms)" "$same"
fi
