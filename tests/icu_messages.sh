#!/bin/bash
# Compares what messages write, and which texts are messages, with ICU, where it is installed; else it says so, and counts as
# skipped. It isn't part of CI.
# usage: tests/icu_messages.sh [COUNT [ROWS]], by default 5,000 random messages, each also damaged, and the program of rows of this
# repository. PEER, if set, is a command that runs tests/icu_messages_peer.cpp, compiled; else it is compiled here, by ICU's
# headers (Debian's libicu-dev).
source "$(dirname "$0")/usage.sh"
takes 2 -- "$@"
here=$(dirname "$0")
source "$here/judging.sh"
source_of_peer=icu_messages_peer.cpp
source "$here/skeletons_peer.sh"
python3 "$here/icu_messages.py" "$PEER" "${2:-$here/../crates/rows_messages/out/rows_messages}" "${1:-5000}"
