#!/bin/bash
# Compares what the built program writes for names of locales, with tables of a CLDR release, with what ICU writes for
# these very names, where both are installed; else it says so, and counts as skipped. It isn't part of CI.
# usage: tests/icu_names.sh [RELEASE [PROGRAM]], by default the release that Debian's unicode-cldr-core installs. PEER, if
# set, is a command that runs tests/icu_peer.cpp, compiled; else it is compiled here, by ICU's headers (Debian's
# libicu-dev).
source "$(dirname "$0")/usage.sh"
takes 2 -- "$@"
release=${1:-/usr/share/unicode/cldr}
source "$(dirname "$0")/icu_peer.sh"
here=$(dirname "$0")
program=${2:-$here/../crates/decfmt/out/decfmt}
python3 "$here/icu_names.py" "$PEER" "$release" "$program"
