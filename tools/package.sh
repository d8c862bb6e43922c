#!/bin/bash
# Makes packages in dist/: talmuiga-VERSION-linux-x86_64.tar.gz, an archive that works in whatever folder it is unpacked, and
# Debian packages: talmuiga (the programs and the converter of tables), libtalmuiga0, libtalmuiga-dev, python3-talmuiga, and
# talmuiga-tables-cldr (tables of the CLDR release that is installed here, which the archive has too).
# usage: tools/package.sh [--archive] [--unproved] [--library FOLDER] [--tables FOLDER] [--into FOLDER]
# Packaged is what tools/install.sh installs, so what isn't built yet is built first, with proofs; --unproved and --library
# are for it. With --archive the archive alone is made. Making the tables takes a minute; --tables takes them from a folder, as
# from dist/tables, where this script leaves them. They are of all modern locales, with all their currencies, percents and the
# units of everyday. The folder's file CLDR-LICENSE is the notice of their data. --into names another folder than dist.
# Two runs over the same commit and release make the same bytes: the times of files are SOURCE_DATE_EPOCH, by default the time
# of the commit. It needs ar, a C compiler, Python with setuptools and wheel, dpkg-deb, sqlite3ext.h, and the packages
# unicode-cldr-core and dpkg-dev.
source "$(dirname "$0")/../tests/usage.sh"
takes 3 --archive --unproved --library --tables --into -- "$@"
set -u
export LC_ALL=C.UTF-8
umask 022
words=() tables='' archive_alone='' into=''
while [ $# -gt 0 ]; do
    case $1 in
        --unproved) words+=(--unproved) ;;
        --archive) archive_alone=yes ;;
        --library | --tables | --into)
            [ $# -gt 1 ] || { echo "$0: $1: which folder? --help says more" >&2 && exit 2; }
            place=$(realpath -m -- "$2")
            case $1 in
                --library) words+=(--library "$place") ;;
                --tables) tables=$place ;;
                *) into=$place ;;
            esac
            shift
            ;;
        *) echo "$0: $1: not expected; --help says what is" >&2 && exit 2 ;;
    esac
    shift
done
cd "$(dirname "$0")/.." || exit 1
dist=${into:-$PWD/dist} version=$(cat VERSION)
release=/usr/share/unicode/cldr notice=/usr/share/doc/unicode-cldr-core/copyright
units=byte,kilobyte,megabyte,gigabyte,terabyte,celsius,fahrenheit,millimeter,centimeter,meter,kilometer,inch,foot,yard,mile
units+=,gram,kilogram,ounce,pound,milliliter,liter,gallon,square-meter,square-kilometer,hectare,acre
units+=,kilometer-per-hour,mile-per-hour,millisecond,second,minute,hour,day,week,month,year,watt,kilowatt,kilowatt-hour
SOURCE_DATE_EPOCH=${SOURCE_DATE_EPOCH:-$(git log -1 --format=%ct 2>/dev/null || stat -c %Y VERSION)}
export SOURCE_DATE_EPOCH

# fails WHY: the end
fails() {
    echo "$0: $1" >&2
    exit 1
}

commands=(cc ar strip gzip)
[ "$archive_alone" ] || commands+=(dpkg-deb dpkg-shlibdeps)
for command in "${commands[@]}"; do
    command -v "$command" >/dev/null || fails "there is no '$command': apt-get install gcc binutils dpkg-dev"
done
if [ "$tables" ]; then
    [ -r "$tables/en.json" ] || fails "$tables: it has no tables of English"
    notice=$tables/CLDR-LICENSE
fi
[ "$tables" ] || [ -d "$release" ] || fails "$release: it isn't there: apt-get install unicode-cldr-core"
[ -r "$notice" ] || fails "$notice: it isn't there: apt-get install unicode-cldr-core"
[ -r /usr/include/sqlite3ext.h ] || fails '/usr/include/sqlite3ext.h: it is not there: apt-get install libsqlite3-dev'
mkdir -p "$dist" || fails "$dist: it can't be written"
work=$(mktemp -d) job='' seconds=0
trap '[ -z "$job" ] || kill "$job"; rm -rf "$work"' EXIT
trap 'exit 130' INT TERM HUP
prefix=$work/prefix

tools/install.sh "$prefix" ${words[@]+"${words[@]}"} | sed -u '/ files are below /,$d'
[ -x "$prefix/bin/locnum" ] || fails 'it was not installed'

if [ -z "$tables" ]; then
    echo "The tables of $release are made: this takes a minute."
    tables=$dist/tables
    rm -rf "$tables"
    tools/cldr_to_tables.py -o "$work/tables/" --currencies all --percents --units "$units" "$release" 2>"$work/left_out" &
    job=$!
    while kill -0 "$job" 2>/dev/null; do
        sleep 1
        [ $((++seconds % 8)) != 0 ] || echo "The tables, $seconds seconds: $(find "$work/tables" -name '*.json' 2>/dev/null | wc -l) files"
    done
    wait "$job" || { tail -n 5 "$work/left_out" >&2 && fails 'the tables: they were not made'; }
    job=
    install -m 644 "$notice" "$work/tables/CLDR-LICENSE"
    mv "$work/tables" "$tables" || fails "$tables: it can't be written"
fi
cldr=$(sed -n 's/^{"cldr":"\([^"]*\)".*/\1/p' "$tables/en.json")
locales=$(find "$tables" -name '*.json' | wc -l)
size=$(($(du -s --apparent-size -k "$tables" | cut -f 1) / 1024))

# the extension for SQLite, and the Python package, without traces of this folder
mkdir -p "$prefix/lib/talmuiga" "$work/wheel"
cc -O2 -g0 -fPIC -shared -Iinclude examples/sqlite/talmuiga_sqlite.c "$prefix/lib/libtalmuiga.a" -o "$prefix/lib/talmuiga/talmuiga_sqlite.so" ||
    fails 'the extension for SQLite: it was not built'
CFLAGS="-g0 -ffile-prefix-map=$work=." TMPDIR=$work \
    tests/python_wheel.sh "$prefix/lib/libtalmuiga.a" --build "$work/wheel" >"$work/said" 2>&1 ||
    { cat "$work/said" >&2 && fails 'the Python package: it was not built'; }
wheel=$(find "$work/wheel" -name '*.whl')
[ "$wheel" ] || { cat "$work/said" >&2 && fails 'the Python package: it was not built'; }

find "$prefix" -type f \( -perm -u+x -o -name '*.so*' \) | while read -r file; do
    case $(head -c 4 "$file" | tr -d '\177') in ELF) strip --strip-unneeded "$file" ;; esac
done
strip --strip-debug --enable-deterministic-archives "$prefix/lib/libtalmuiga.a"

# ---- the archive
name=talmuiga-$version-linux-x86_64
tree=$work/$name
cp -r "$prefix" "$tree"
cp -r "$tables" "$tree/share/talmuiga/tables"
install -D -m 644 "$wheel" "$tree/share/talmuiga/python/$(basename "$wheel")"
install -m 644 LICENSE.md "$tree/LICENSE.md"
install -m 644 "$notice" "$tree/CLDR-LICENSE"
cat >"$tree/README" <<END
Talmuiga $version: numbers, money, percents and units in the form of a locale.

Try it in this folder:

    bin/locnum -l de --currency EUR 1234.5

This writes 1.234,50 €. You can move the folder. To have its commands and
manual pages everywhere, put it on the path:

    export PATH="\$PWD/bin:\$PATH"
    man locnum

bin             locnum, decfmt, and talmuiga-tables, which makes tables of
                locales (it needs Python 3.8)
include, lib    the library for C and C++, and an extension for SQLite
share/talmuiga  a folder of tables: $locales names of locales, CLDR $cldr, $size MB;
                English tables; a wheel for Python 3.10 and later, which
                'pip install FILE' installs
share           manual pages, and completions for bash, zsh and fish

It needs Linux on x86-64 with glibc 2.34 or later. LICENSE.md is the licence,
CLDR-LICENSE that of the tables' data. This is $("$prefix/bin/locnum" --version).
END
(cd "$tree" && find . ! -type d | sed 's/^\.\///' | sort >"$work/list" && cp "$work/list" share/talmuiga/installed)
chmod -R u+rwX,go+rX,go-w "$tree"
tar c -C "$work" --sort=name --mtime="@$SOURCE_DATE_EPOCH" --owner=0 --group=0 --numeric-owner --format=gnu "$name" |
    gzip -9n >"$dist/$name.tar.gz" || fails "$dist/$name.tar.gz: it can't be written"
echo "$dist/$name.tar.gz"
[ -z "$archive_alone" ] || exit 0

# ---- Debian packages
multiarch=usr/lib/x86_64-linux-gnu
debian_version=$version-1

# copies FILE PACKAGE PLACE [MODE]
copies() {
    install -D -m "${4:-644}" "$1" "$work/$2/$3" || fails "$1: it isn't there"
}

# script PACKAGE NAME: a script of the package, of what standard input has
script() {
    mkdir -p "$work/$1/DEBIAN"
    { printf '#!/bin/sh\nset -e\n' && cat; } >"$work/$1/DEBIAN/$2"
    chmod 755 "$work/$1/DEBIAN/$2"
}

# depends PACKAGE: what its programs and libraries need, by dpkg-shlibdeps
depends() {
    local files
    mapfile -t files < <(find "$work/$1" -type f \( -name '*.so*' -o -path '*/bin/*' \) -exec grep -lm1 $'^\x7fELF' {} +)
    mkdir -p "$work/stub/debian"
    printf 'Source: talmuiga\n\nPackage: %s\nArchitecture: any\n' "$1" >"$work/stub/debian/control"
    (cd "$work/stub" && dpkg-shlibdeps -O "${files[@]}" 2>/dev/null) | sed 's/^shlibs:Depends=//'
}

# package NAME ARCHITECTURE SECTION FIELDS SHORT LONG: the package of $work/NAME
package() {
    local name=$1 folder=$work/$1 licence='Unicode-3.0'
    mkdir -p "$folder/DEBIAN" "$folder/usr/share/doc/$name"
    cat >"$folder/usr/share/doc/$name/copyright" <<END
Format: https://www.debian.org/doc/packaging-manuals/copyright-format/1.0/
Upstream-Name: talmuiga

Files: *
Copyright: 2026 the Talmuiga maintainers
License: $licence
$(sed -e 's/^/ /' -e 's/^ $/ ./' LICENSE.md)
END
    [ "$name" != talmuiga-tables-cldr ] || { echo && cat "$notice"; } >>"$folder/usr/share/doc/$name/copyright"
    printf 'talmuiga (%s) unstable; urgency=medium\n\n  * Version %s: CHANGELOG.md says what is new.\n\n -- %s  %s\n' \
        "$debian_version" "$version" "$maintainer" "$(date -u -R -d "@$SOURCE_DATE_EPOCH")" |
        gzip -9n >"$folder/usr/share/doc/$name/changelog.Debian.gz"
    find "$folder" -path '*/share/man/*' -type f -exec gzip -9n {} +
    {
        printf 'Package: %s\nSource: talmuiga\nVersion: %s\nArchitecture: %s\nMaintainer: %s\nInstalled-Size: %s\nSection: %s\nPriority: optional\n' \
            "$name" "$debian_version" "$2" "$maintainer" "$(du -s -k --apparent-size --exclude=DEBIAN "$folder" | cut -f 1)" "$3"
        printf '%s\nDescription: %s\n' "$4" "$5"
        fold -s -w 76 <<<"$6" | sed -e 's/ *$//' -e 's/^/ /'
    } >"$folder/DEBIAN/control"
    (cd "$folder" && find usr -type f -print0 | sort -z | xargs -0 md5sum) >"$folder/DEBIAN/md5sums"
    chmod -R u+rwX,go+rX,go-w "$folder"
    find "$folder" -exec touch -h -d "@$SOURCE_DATE_EPOCH" {} +
    dpkg-deb --root-owner-group -Zxz --threads-max=1 --build "$folder" "$dist/${name}_${debian_version}_$2.deb" >/dev/null ||
        fails "$name: it was not made"
    echo "$dist/${name}_${debian_version}_$2.deb"
}

maintainer='Talmuiga maintainers <maintainers@talmuiga.invalid>'
built=$("$prefix/bin/locnum" --version)

copies "$prefix/bin/locnum" talmuiga usr/bin/locnum 755
copies "$prefix/bin/decfmt" talmuiga usr/bin/decfmt 755
for file in "$prefix"/share/talmuiga/tools/*.py; do
    copies "$file" talmuiga "usr/share/talmuiga/tools/$(basename "$file")"
done
chmod 755 "$work/talmuiga/usr/share/talmuiga/tools/cldr_to_tables.py"
ln -s ../share/talmuiga/tools/cldr_to_tables.py "$work/talmuiga/usr/bin/talmuiga-tables"
copies VERSION talmuiga usr/share/talmuiga/VERSION
copies tables/english.json talmuiga usr/share/talmuiga/english.json
copies docs/locnum.1 talmuiga usr/share/man/man1/locnum.1
copies docs/decfmt.1 talmuiga usr/share/man/man1/decfmt.1
copies docs/talmuiga-tables.1 talmuiga usr/share/man/man1/talmuiga-tables.1
copies docs/completions/locnum.bash talmuiga usr/share/bash-completion/completions/locnum
copies docs/completions/_locnum talmuiga usr/share/zsh/vendor-completions/_locnum
copies docs/completions/locnum.fish talmuiga usr/share/fish/vendor_completions.d/locnum.fish
copies "$prefix/lib/talmuiga/talmuiga_sqlite.so" talmuiga "$multiarch/talmuiga/talmuiga_sqlite.so"
# what Python keeps beside the modules
script talmuiga prerm <<'END'
if [ "$1" = remove ]; then rm -rf /usr/share/talmuiga/tools/__pycache__; fi
END
package talmuiga amd64 text "Depends: $(depends talmuiga), python3
Recommends: talmuiga-tables-cldr
Suggests: sqlite3" 'numbers in the form of a locale (programs)' \
    "locnum writes numbers, money, percents and units of reports in the form of a locale, and decfmt lines of numbers. talmuiga-tables makes tables of locales from a CLDR release. $multiarch/talmuiga/talmuiga_sqlite.so is an extension for SQLite. This is $built."

copies "$prefix/lib/libtalmuiga.so.0" libtalmuiga0 "$multiarch/libtalmuiga.so.0"
mkdir -p "$work/libtalmuiga0/DEBIAN"
echo "libtalmuiga 0 libtalmuiga0 (>= $version)" >"$work/libtalmuiga0/DEBIAN/shlibs"
echo 'activate-noawait ldconfig' >"$work/libtalmuiga0/DEBIAN/triggers"
package libtalmuiga0 amd64 libs "Multi-Arch: same
Depends: $(depends libtalmuiga0)" 'numbers in the form of a locale (library for C)' \
    'The library for C formats plain, short and long numbers in the form of a locale.'

copies "$prefix/lib/libtalmuiga.a" libtalmuiga-dev "$multiarch/libtalmuiga.a"
ln -s libtalmuiga.so.0 "$work/libtalmuiga-dev/$multiarch/libtalmuiga.so"
copies include/talmuiga.h libtalmuiga-dev usr/include/talmuiga.h
copies include/talmuiga.hpp libtalmuiga-dev usr/include/talmuiga.hpp
copies include/talmuiga_format.hpp libtalmuiga-dev usr/include/talmuiga_format.hpp
copies docs/talmuiga.3 libtalmuiga-dev usr/share/man/man3/talmuiga.3
copies examples/c/format_lines.c libtalmuiga-dev usr/share/doc/libtalmuiga-dev/examples/format_lines.c
mkdir -p "$work/libtalmuiga-dev/$multiarch/pkgconfig"
sed -e 's/^prefix=.*/prefix=\/usr/' -e "s/-L\${prefix}\/lib/-L\${prefix}\/lib\/x86_64-linux-gnu/" \
    "$prefix/lib/pkgconfig/talmuiga.pc" >"$work/libtalmuiga-dev/$multiarch/pkgconfig/talmuiga.pc"
package libtalmuiga-dev amd64 libdevel "Multi-Arch: same
Depends: libtalmuiga0 (= $debian_version)" 'numbers in the form of a locale (headers for C and C++)' \
    'The headers, the static library, the file for pkg-config and the manual page of the library for C.'

mkdir -p "$work/python3-talmuiga/usr/lib/python3/dist-packages"
python3 -m zipfile -e "$wheel" "$work/python3-talmuiga/usr/lib/python3/dist-packages" || fails "$wheel: it can't be read"
find "$work/python3-talmuiga" -name '*.so' -exec strip --strip-unneeded {} + -exec chmod 644 {} +
script python3-talmuiga postinst <<'END'
if [ "$1" = configure ] && command -v py3compile >/dev/null; then py3compile -p python3-talmuiga; fi
END
script python3-talmuiga prerm <<'END'
if command -v py3clean >/dev/null; then py3clean -p python3-talmuiga; fi
END
package python3-talmuiga amd64 python "Depends: python3 (>= 3.10), $(depends python3-talmuiga)" 'numbers in the form of a locale (Python)' \
    'The package talmuiga for Python formats plain, short and long numbers in the form of a locale.'

mkdir -p "$work/talmuiga-tables-cldr/usr/share/talmuiga"
cp -r "$tables" "$work/talmuiga-tables-cldr/usr/share/talmuiga/tables"
package talmuiga-tables-cldr all text 'Enhances: talmuiga' 'numbers in the form of a locale (tables of CLDR)' \
    "Tables for locnum and decfmt, of CLDR $cldr: a file for each of $locales names of locales whose coverage is modern, with all their currencies, percents and the units of everyday, $size MB. The units are ${units//,/, }."
