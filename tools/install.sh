#!/bin/bash
# Installs the programs, the library for C, the converter of tables, the manual pages and the completions below a folder.
# usage: tools/install.sh PREFIX [--unproved] [--library FOLDER]
# What isn't built yet, or is older than a source, is built first, with proofs. From nothing this takes up to an hour on four
# processors. With --unproved all is built without proofs, in two minutes: the programs do the same, but nothing is proved of
# them, and `locnum --version` says so. Every ten seconds a line says what is being built. It needs the command `rt`, and `ar`
# and a C compiler for the library, which --library takes from a folder where it is built.
# PREFIX/share/talmuiga/installed lists the installed files, and tools/uninstall.sh PREFIX removes them.
source "$(dirname "$0")/../tests/usage.sh"
takes 2 --library --unproved -- "$@"
set -u
library='' unproved='' given=()
while [ $# -gt 0 ]; do
    case $1 in
        --unproved) unproved=yes ;;
        --library)
            [ $# -gt 1 ] || { echo "$0: --library: which folder? --help says more" >&2 && exit 2; }
            library=$(realpath -m -- "$2")
            shift
            ;;
        *) given+=("$1") ;;
    esac
    shift
done
[[ ${#given[@]} = 1 && -n ${given[0]} ]] || { echo "$0: which folder? --help says more" >&2 && exit 2; }
prefix=$(realpath -m -- "${given[0]}")
cd "$(dirname "$0")/.." || exit 1

# fails WHY: the end
fails() {
    echo "$0: $1" >&2
    exit 1
}

# can_be_written FOLDER: whether the folder, or the nearest one above that is there, can be written
can_be_written() {
    local folder=$1 probe
    while [ ! -e "$folder" ] && [ ! -L "$folder" ]; do
        folder=$(dirname "$folder")
    done
    # the permissions alone say nothing to root
    probe=$(mktemp "$folder/.talmuiga-XXXXXX" 2>/dev/null) && rm -f "$probe"
}

# Judges the folders below PREFIX: each has to be one that can be written, and inside.
judge_folders() {
    local folder place
    can_be_written "$prefix" || fails "$prefix: it can't be written"
    for folder in bin include lib lib/pkgconfig share share/{doc,man,talmuiga,bash-completion,zsh,fish} share/doc/talmuiga \
        share/man/man{1,3} share/talmuiga/tools share/bash-completion/completions share/zsh/site-functions share/fish/vendor_completions.d; do
        place=$(realpath -m -- "$prefix/$folder")
        [[ $place == "$prefix"/* || $prefix == / ]] || fails "$prefix/$folder: it leads out of $prefix, to $place"
        can_be_written "$place" || fails "$place: it can't be written"
    done
}

judge_folders
staging=$(mktemp -d)
job=
# ends: nothing is left behind, and what is being built ends too
ends() {
    [ -z "$job" ] || kill -- "-$job" 2>/dev/null
    rm -rf "$staging"
}
trap ends EXIT
trap 'exit 130' INT TERM HUP

# is_old FILE: whether a file isn't there, or a source is newer
is_old() {
    [ ! -s "$1" ] || [ -n "$(find crates -name out -prune -o -name '*.rt' -newer "$1" -print -quit)" ]
}

# built WHAT COMMAND..: runs a command that builds something, and says every ten seconds what it last said
built() {
    local what=$1 since=$SECONDS next last
    shift
    next=$((since + 8))
    set -m
    "$@" >"$staging/said" 2>&1 </dev/null &
    job=$!
    set +m
    while kill -0 "$job" 2>/dev/null; do
        if [ "$SECONDS" -ge "$next" ]; then
            last=$(tail -n 1 "$staging/said" | tr -d '[:cntrl:]' | cut -c 1-45)
            echo "$what, $((SECONDS - since)) seconds${last:+: $last}"
            next=$((SECONDS + 8))
        fi
        sleep 1
    done
    wait "$job"
    local status=$?
    job=
    [ "$status" = 0 ] || { tail -n 5 "$staging/said" >&2 && fails "$what: it wasn't built"; }
}

# program NAME WORD..: builds the program with proofs, by running it
program() {
    (cd "crates/$1" && rt run -- "${@:2}") </dev/null
    [ -x "crates/$1/out/$1" ]
}

# puts FILE PLACE [MODE]: into the staged folder
puts() {
    install -D -m "${3:-644}" "$1" "$staging/root/$2" || fails "$1: it isn't there"
}

if [ "$unproved" ]; then
    programs=$staging/programs
    echo 'locnum, decfmt and the library for C are built without proofs. On four free processors'
    echo 'this takes two minutes.'
    built 'Without proofs' tools/build_unproved.sh "$programs"
    library=${library:-$programs/lib}
else
    programs=$staging/programs
    mkdir "$programs"
    for name in locnum decfmt; do
        if is_old "crates/$name/out/$name"; then
            echo "$name is built with proofs. From nothing this takes up to an hour on four processors."
            built "$name" program "$name" --version
        fi
        cp "crates/$name/out/$name" "$programs/$name" || fails "$name: it isn't there"
    done
    if [ -z "$library" ]; then
        library=$staging/lib
        echo 'The library for C is built with proofs. With the proofs of decfmt this takes two minutes.'
        built 'The library for C' tests/c_library.sh --build "$library"
    fi
fi

puts "$programs/locnum" bin/locnum 755
puts "$programs/decfmt" bin/decfmt 755
puts docs/locnum.1 share/man/man1/locnum.1
puts docs/decfmt.1 share/man/man1/decfmt.1
puts docs/talmuiga-tables.1 share/man/man1/talmuiga-tables.1
puts docs/talmuiga.3 share/man/man3/talmuiga.3
puts docs/completions/locnum.bash share/bash-completion/completions/locnum
puts docs/completions/_locnum share/zsh/site-functions/_locnum
puts docs/completions/locnum.fish share/fish/vendor_completions.d/locnum.fish
puts include/talmuiga.h include/talmuiga.h
puts include/talmuiga.hpp include/talmuiga.hpp
puts include/talmuiga_format.hpp include/talmuiga_format.hpp
puts "$library/libtalmuiga.a" lib/libtalmuiga.a
for file in tools/cldr_*.py; do
    puts "$file" "share/talmuiga/$file"
done
chmod 755 "$staging/root/share/talmuiga/tools/cldr_to_tables.py"
ln -s ../share/talmuiga/tools/cldr_to_tables.py "$staging/root/bin/talmuiga-tables"
puts tables/english.json share/talmuiga/english.json
puts VERSION share/talmuiga/VERSION
puts LICENSE.md share/doc/talmuiga/LICENSE.md
if [ -e "$library/libtalmuiga.so.0" ]; then
    puts "$library/libtalmuiga.so.0" lib/libtalmuiga.so.0 755
    ln -s libtalmuiga.so.0 "$staging/root/lib/libtalmuiga.so"
fi
mkdir -p "$staging/root/lib/pkgconfig"
cat >"$staging/root/lib/pkgconfig/talmuiga.pc" <<END
prefix=\${pcfiledir}/../..
Name: talmuiga
Description: Numbers in the form of a locale, in full and in compact form
Version: $(cat VERSION)
Cflags: -I\${prefix}/include
Libs: -L\${prefix}/lib -ltalmuiga
END

# puts_in_place FILE PLACE: in one step; a link at the place is replaced, and not followed
puts_in_place() {
    if ! { mkdir -p "$(dirname "$2")" && rm -f "$2.new" && cp -P "$1" "$2.new" && mv -fT "$2.new" "$2"; }; then
        fails "$2: it can't be written"
    fi
}

# At first the list has what an installation before this one has put here, too: so whenever this one is interrupted, all of
# it can be removed.
list=share/talmuiga/installed
(cd "$staging/root" && { find . ! -type d | sed 's/^\.\///' && echo "$list"; } | sort) >"$staging/list"
cp "$staging/list" "$staging/both"
[ ! -r "$prefix/$list" ] || sort -u "$staging/list" "$prefix/$list" >"$staging/both"
puts_in_place "$staging/both" "$prefix/$list"
while read -r file; do
    [ "$file" = "$list" ] || puts_in_place "$staging/root/$file" "$prefix/$file"
done <"$staging/list"
while read -r file; do
    case /$file/ in
        //* | */../*) ;;
        *) rm -f "$prefix/$file" ;;
    esac
done < <(comm -13 "$staging/list" "$staging/both")
puts_in_place "$staging/list" "$prefix/$list"
echo "$(wc -l <"$staging/list") files are below $prefix. To try it:"
printf '%q --currency USD 1234.5\n' "$prefix/bin/locnum"
