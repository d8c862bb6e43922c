# Makes the peer of scripts that compare number skeletons or messages with ICU: they source this file behind judging.sh, with
# their folder in `here` and, where it isn't icu_skeletons_peer.cpp, the peer's source in `source_of_peer`. PEER, if it isn't
# set, becomes that source, compiled by ICU's headers (Debian's libicu-dev); a script ends as skipped where that can't be made.
# shellcheck shell=bash
if [ -z "${PEER:-}" ]; then
    folder=$(mktemp -d)
    trap 'rm -rf "$folder"' EXIT
    PEER=$folder/peer
    pkg-config --exists icu-i18n 2>/dev/null || skipped_all 'no ICU for pkg-config'
    read -r -a flags < <(pkg-config --cflags --libs icu-i18n icu-uc)
    source_of_peer=${source_of_peer:-icu_skeletons_peer.cpp}
    "${CXX:-g++}" -O2 "$here/$source_of_peer" -o "$PEER" "${flags[@]}" || skipped_all "tests/$source_of_peer doesn't compile"
fi
