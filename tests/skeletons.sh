#!/bin/bash
# Compares what number skeletons are read as with ICU, where it is installed; else it says so, and counts as skipped. It isn't
# part of CI.
# usage: tests/skeletons.sh [COUNT [FILE]], by default 100,000 random texts. FILE gets 1,000 rows with ICU's answers. PEER, if
# set, is a command that runs tests/icu_skeletons_peer.cpp, compiled; else it is compiled here, by ICU's headers (Debian's
# libicu-dev).
source "$(dirname "$0")/usage.sh"
takes 2 -- "$@"
here=$(dirname "$0")
source "$here/judging.sh"
source "$here/skeletons_peer.sh"
python3 "$here/icu_skeletons.py" "$PEER" "$here/../crates/rows_numbers/out/rows_numbers" "$@"
