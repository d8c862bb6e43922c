#!/bin/bash
# Removes what tools/install.sh has installed below a folder, and the folders that are empty then.
# usage: tools/uninstall.sh PREFIX
source "$(dirname "$0")/../tests/usage.sh"
takes 1 -- "$@"
set -u
[ $# = 1 ] || { echo "$0: which folder? --help says more" >&2 && exit 2; }
prefix=$(realpath -m -- "$1")
list=$prefix/share/talmuiga/installed
[ -r "$list" ] || { echo "$0: $1: nothing of talmuiga is installed here" >&2 && exit 1; }

# is_inside FILE: whether the file's folder is PREFIX or below it, also where a folder on the way is a link
is_inside() {
    local place
    place=$(realpath -m -- "$(dirname "$prefix/$1")")
    [[ $place == "$prefix" || $place == "${prefix%/}"/* ]]
}

removed=$(mktemp)
trap 'rm -f "$removed"' EXIT
cp "$list" "$removed"
status=0 count=0
# what Python keeps beside the converter's modules
[ ! -d "$prefix/share/talmuiga/tools" ] || ! is_inside share/talmuiga/tools/x || rm -rf "$prefix/share/talmuiga/tools/__pycache__"
# the list last: where this is interrupted, a second run removes the rest
while read -r file; do
    if ! is_inside "$file"; then
        echo "$0: $prefix/$file: it leads out of $prefix, and isn't removed" >&2
        status=1
        continue
    fi
    rm -f "$prefix/$file" "$prefix/$file.new" || status=1
    count=$((count + 1))
    folder=$(dirname "$file")
    while [ "$folder" != . ] && rmdir "$prefix/$folder" 2>/dev/null; do
        folder=$(dirname "$folder")
    done
done < <(grep -vx share/talmuiga/installed "$removed" && echo share/talmuiga/installed)
[ "$status" = 0 ] && echo "$count files are removed below $prefix"
exit "$status"
