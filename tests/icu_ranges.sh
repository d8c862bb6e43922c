#!/bin/bash
# Compares the ranges that locnum writes over all modern locales of a CLDR release with those of ICU, where both are installed; else
# it says so, and counts as skipped. It isn't part of CI.
# usage: tests/icu_ranges.sh [RELEASE [PROGRAM [LOCALE..]]], by default the release that Debian's unicode-cldr-core installs, the
# locnum of this repository, and all modern locales. PEER, if set, is a command that runs tests/icu_peer.cpp, compiled; else it is
# compiled here, by ICU's headers (Debian's libicu-dev).
source "$(dirname "$0")/usage.sh"
takes 1000 -- "$@"
release=${1:-/usr/share/unicode/cldr}
source "$(dirname "$0")/icu_peer.sh"
here=$(dirname "$0")
program=${2:-$here/../crates/locnum/out/locnum}
python3 "$here/icu_ranges.py" "$PEER" "$release" "$program" "${@:3}"
