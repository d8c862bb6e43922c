#!/bin/bash
# Compares what locnum writes by its rounding options with ICU, where it is installed; else it says so, and counts as skipped. It
# isn't part of CI.
# usage: tests/icu_options.sh TABLES [COUNT], by default 2,000 sets of options. TABLES is a file of tables that has money and
# percents. PEER, if set, is a command that runs tests/icu_skeletons_peer.cpp, compiled; else it is compiled here, by ICU's
# headers (Debian's libicu-dev).
source "$(dirname "$0")/usage.sh"
takes 2 -- "$@"
here=$(dirname "$0")
source "$here/judging.sh"
source "$here/skeletons_peer.sh"
python3 "$here/icu_options.py" "$PEER" "$here/../crates/locnum/out/locnum" "$@"
