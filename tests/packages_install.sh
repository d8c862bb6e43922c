#!/bin/bash
# Installs the Debian packages that tools/package.sh has made in a fresh Debian, and runs what README.md shows as nobody: the
# programs, C by pkg-config, Python and SQLite. Then it removes the packages, and nothing may be left.
# usage: tests/packages_install.sh [--root FOLDER] [PACKAGES]
# PACKAGES is their folder, by default dist. The Debian is made by debootstrap, from the network: in FOLDER, where it is kept for
# the next run, or else in a folder that is removed. It has to run as root, and isn't a part of CI.
# The last line is 'N passed, M failed'; what can't be done is reported by a line 'skipped: packages_install: WHY'.
source "$(dirname "$0")/usage.sh"
takes 2 --root -- "$@"
set -u
export LC_ALL=C.UTF-8
root=
if [ "${1:-}" = --root ]; then
    [ $# -gt 1 ] || { echo "$0: --root: which folder? --help says more" >&2 && exit 2; }
    root=$(realpath -m -- "$2")
    shift 2
fi
packages=$(realpath -m -- "${1:-$(dirname "$0")/../dist}")
cd "$(dirname "$0")/.." || exit 1
source tests/judging.sh
release=bookworm
wanted=python3,man-db,pkg-config,gcc,libc6-dev,sqlite3

[ "$(id -u)" = 0 ] || skipped_all 'it has to run as root'
command -v debootstrap >/dev/null || skipped_all 'there is no debootstrap'
for name in talmuiga libtalmuiga0 libtalmuiga-dev python3-talmuiga talmuiga-tables-cldr; do
    compgen -G "$packages/${name}_*.deb" >/dev/null || failed_all "$packages: no package $name: tools/package.sh makes it"
done
folder=$(mktemp -d)
[ "$root" ] || root=$folder/root
# ends: the Debian's /proc is taken away before what has been made here
ends() {
    if mountpoint -q "$root/proc"; then umount "$root/proc"; fi
    rm -rf "$root/packages" "$root/room"
    mountpoint -q "$root/proc" || rm -rf "$folder"
}
trap ends EXIT
trap 'exit 130' INT TERM HUP
if [ ! -e "$root/etc/debian_version" ]; then
    echo "A Debian $release is made in $root."
    debootstrap --variant=minbase "--include=$wanted" "$release" "$root" http://deb.debian.org/debian >"$folder/said" 2>&1 ||
        { tail -n 3 "$folder/said" && failed_all 'debootstrap'; }
fi
mountpoint -q "$root/proc" || mount -t proc proc "$root/proc" || failed_all 'its /proc is mounted'

# inside WORD..: a command in the Debian, as root
inside() {
    env -i PATH=/usr/sbin:/usr/bin:/sbin:/bin DEBIAN_FRONTEND=noninteractive LC_ALL=C.UTF-8 chroot "$root" "$@" </dev/null 2>&1
}

# as_nobody COMMAND: a command of the shell in the Debian, as nobody, in the folder of the pages
as_nobody() {
    env -i PATH=/usr/bin:/bin LC_ALL=C.UTF-8 HOME=/nonexistent "$(command -v chroot)" --userspec=nobody:nogroup "$root" \
        bash -c "cd /room && $1" </dev/null 2>&1
}

# files: all that is there, but for what dpkg and man-db keep for themselves
files() {
    find "$root" -xdev \( -path "$root/proc" -o -path "$root/var/lib/dpkg" -o -path "$root/var/cache" -o -path "$root/var/log" \
        -o -path "$root/packages" -o -path "$root/room" -o -path "$root/tmp" \) -prune -o -print | sort
}

files >"$folder/before"
mkdir -p "$root/packages" "$root/room"
cp "$packages"/*.deb "$root/packages/"
cp -r README.md VERSION crates.txt tests tables tools docs examples "$root/room/"
chmod -R a+rX "$root/room" && chmod 1777 "$root/room"
judge 'dpkg installs them' inside bash -c 'dpkg -i /packages/*.deb'
judge 'what README shows' as_nobody 'python3 -B tests/docs.py --installed /usr'
judge 'locnum in euros' same $'1.234,50\u00a0€' "$(as_nobody 'locnum -l de --currency EUR 1234.5')"
judge 'locnum with a unit' same '5 км' "$(as_nobody 'locnum -l ru --unit kilometer 5')"
judge 'decfmt by these tables' same $'1,2\u00a0Mio.' "$(as_nobody 'echo 1234567 | decfmt /usr/share/talmuiga/tables/de.json de - short')"
judge 'the converter' same '12.345,5' \
    "$(as_nobody 'talmuiga-tables -o qaa.json tests/cldr qaa 2>/dev/null && locnum -t qaa.json -l qaa 12345.5')"
judge 'the manual page of the library' as_nobody 'man talmuiga | grep -q talmuiga_formatter_open'
awk -v 'head=```c' 'BEGIN { print "#include \"talmuiga.h\"\n#include <stdio.h>\nint main(void) {" }
    $0 == head { shown = 1; next } /^```$/ { shown = 0 } shown
    END { print "return 0;\n}" }' README.md >"$root/room/readme.c"
# shellcheck disable=SC2016 # the Debian's shell asks for the flags
judge 'C: as README shows' same $'1,000,007\n-987,654.321' \
    "$(as_nobody 'cc readme.c $(pkg-config --cflags --libs talmuiga) -o readme && ./readme')"
awk '/^```python$/ { shown = 1; next } /^```$/ { shown = 0 } shown' README.md >"$root/room/readme.txt"
judge 'Python: as README shows' as_nobody 'python3 -B -m doctest readme.txt'
judge 'SQLite: as README shows' same $'1,2\u00a0Mio.' "$(as_nobody "TALMUIGA_TABLES=/usr/share/talmuiga/tables/de.json sqlite3 -batch \
    -cmd '.load /usr/lib/x86_64-linux-gnu/talmuiga/talmuiga_sqlite' :memory: \
    \"CREATE TABLE sales(price); INSERT INTO sales VALUES(1234567); SELECT decfmt(price, 'de', 'short') FROM sales\"")"
for place in bash-completion/completions/locnum zsh/vendor-completions/_locnum fish/vendor_completions.d/locnum.fish; do
    judge "completions: $place" test -s "$root/usr/share/$place"
done
# root has used the converter, so Python has kept its modules
judge 'the converter, as root' inside talmuiga-tables --version
judge 'dpkg removes them' inside dpkg --purge talmuiga-tables-cldr python3-talmuiga libtalmuiga-dev libtalmuiga0 talmuiga
files >"$folder/behind"
judge 'nothing is left' diff "$folder/before" "$folder/behind"
ended_all
