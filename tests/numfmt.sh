#!/bin/bash
# Compares the built program locnum with numfmt of coreutils on the options that both have, over generated words and lines, in
# the C locale and in en_US.UTF-8, where it is there or can be made. It isn't part of CI.
# usage: tests/numfmt.sh [CASES [SEED [PROGRAM]]], by default 5000 cases for each locale by seed 1
# The last line is 'N passed, M failed'. Without numfmt, or without the locale, a line 'skipped: numfmt: WHY' says so.
source "$(dirname "$0")/usage.sh"
takes 3 -- "$@"
source "$(dirname "$0")/judging.sh"
here=$(dirname "$0")
program=${3:-$here/../crates/locnum/out/locnum}
folder=$(mktemp -d)
trap 'rm -rf "$folder"' EXIT

numfmt --version 2>/dev/null | grep -q coreutils || skipped_all 'there is no numfmt of coreutils'
echo "$(numfmt --version | head -n 1), $("$program" --version)"
locales=(C)
if [ "$(locale -a 2>/dev/null | grep -ixc 'en_US.utf-\?8')" != 0 ]; then
    locales+=(en_US.UTF-8)
elif localedef -i en_US -f UTF-8 "$folder/en_US.UTF-8" 2>/dev/null; then
    export LOCPATH=$folder
    locales+=(en_US.UTF-8)
else
    skipped 'there is no locale en_US.UTF-8, and localedef makes none'
fi
python3 "$here/numfmt_compare.py" "$program" "${1:-5000}" "${2:-1}" "${locales[@]}"
