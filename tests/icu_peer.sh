# How tests/icu.sh, tests/icu_names.sh and tests/icu_ranges.sh find ICU. They set `release`, the folder of a CLDR release, and
# source this file, which leaves in $PEER a command that runs tests/icu_peer.cpp, and in $folder a folder of their own; or ends the script.
# shellcheck shell=bash
source "$(dirname "${BASH_SOURCE[0]}")/judging.sh"
folder=$(mktemp -d)
trap 'rm -rf "$folder"' EXIT

[ -e "${release:?is set by the script that sources this file}" ] || skipped_all "no CLDR release at $release"
if [ -z "${PEER:-}" ]; then
    PEER=$folder/peer
    pkg-config --exists icu-i18n 2>/dev/null || skipped_all 'no ICU for pkg-config'
    read -r -a flags < <(pkg-config --cflags --libs icu-i18n icu-uc)
    "${CXX:-g++}" -O2 "$(dirname "${BASH_SOURCE[0]}")/icu_peer.cpp" -o "$PEER" "${flags[@]}" ||
        skipped_all "tests/icu_peer.cpp doesn't compile"
fi
