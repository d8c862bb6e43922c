#!/bin/bash
# Times library callers in four locales beside ICU4C: a decimal and a text of its own for each of a million mixed lines, by
# programs/locales.rattle.
# usage: bench/locales.sh [RUNS]
source "$(dirname "$0")/../tests/usage.sh"
takes 1 -- "$@"
set -u
cd "$(dirname "$0")" || exit 1
runs=${1:-11}
. ./common.sh
python3 generate.py locales >build/locales.json
peer icu4c
program locales fixed_decimal icu_decimal icu_provider icu_tables || exit 1

texts() { build/locales build/locales.json "$1" build/mixed.txt; }
icu4c() { build/icu4c "$1" <build/mixed.txt; }
head -n 20000 build/mixed.txt >build/part.txt
row locale library ICU4C 'same output' 'instructions a line'
row --- --- --- --- ---
for locale in en fr bn ar-EG; do
    ours=$(took texts "$locale")
    theirs=– same=– instructions=–
    if [ -x build/icu4c ]; then
        theirs=$(took icu4c "$locale")
        theirs="$(ratio "$theirs" "$ours") ($((theirs / 1000)) ms)"
        same=$(cmp -s <(texts "$locale") <(icu4c "$locale") && echo yes || echo no)
    fi
    command -v valgrind >/dev/null && instructions=$(($(counted build/locales build/locales.json "$locale" build/part.txt) / 20000))
    row "$locale" "1.00 ($((ours / 1000)) ms)" "$theirs" "$same" "$instructions"
done
