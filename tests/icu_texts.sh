#!/bin/bash
# Compares what locnum writes by number skeletons with ICU, where it is installed; else it says so, and counts as skipped. It isn't
# part of CI.
# usage: tests/icu_texts.sh [COUNT [RELEASE [LOCNUM]]], by default 5,000 random skeletons with 20 numbers each, the release of CLDR
# that Debian's unicode-cldr-core installs, and the program of this repository. PEER, if set, is a command that runs
# tests/icu_skeletons_peer.cpp, compiled; else it is compiled here, by ICU's headers (Debian's libicu-dev).
source "$(dirname "$0")/usage.sh"
takes 3 -- "$@"
here=$(dirname "$0")
source "$here/judging.sh"
source "$here/skeletons_peer.sh"
python3 "$here/icu_texts.py" "$PEER" "${3:-$here/../crates/locnum/out/locnum}" "${2:-/usr/share/unicode/cldr}" "${1:-5000}"
