#!/bin/bash
# Compares the built programs with ICU over all modern locales of the CLDR release of ICU's own version, where both are
# installed; else it says so, and counts as skipped: decfmt in numbers (tests/icu_compare.py), locnum in money, percents and
# units (tests/icu_money.py), and locnum in ranges (tests/icu_ranges.py), these with another release too. It isn't part of CI.
# usage: tests/icu.sh [RELEASE [FOLDER [LOCALE..]]], by default the release that Debian's unicode-cldr-core installs, the
# programs of this repository, else FOLDER/decfmt and FOLDER/locnum, and all modern locales. PEER, if set, is a command that
# runs tests/icu_peer.cpp, compiled; else it is compiled here, by ICU's headers (Debian's libicu-dev).
source "$(dirname "$0")/usage.sh"
takes 1000 -- "$@"
release=${1:-/usr/share/unicode/cldr}
source "$(dirname "$0")/icu_peer.sh"
here=$(dirname "$0")
decfmt=${2:-$here/../crates/decfmt/out}/decfmt
locnum=${2:-$here/../crates/locnum/out}/locnum
python3 "$here/icu_compare.py" "$PEER" "$release" "$decfmt" "${@:3}"
status=$?
python3 "$here/icu_money.py" "$PEER" "$release" "$locnum" "${@:3}" || status=1
python3 "$here/icu_ranges.py" "$PEER" "$release" "$locnum" "${@:3}" && [ "$status" = 0 ]
