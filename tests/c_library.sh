#!/bin/bash
# Builds the library for C, archive and shared object, and runs the C example over it, tests in C and C++, some of them with
# sanitizers, the extension for SQLite and the Python package: statuses, output, rooms that are too small, threads, thousands
# of lines as `decfmt` writes them, and what the exceptions are.
# It tries an installation by tools/install.sh, and the archive that tools/package.sh makes.
# usage: tests/c_library.sh [--archive FILE] [--build FOLDER | --after-ci]
# With --build the library alone is made: FOLDER/libtalmuiga.a and, where there is a C compiler, FOLDER/libtalmuiga.so.0 with
# a link libtalmuiga.so, which exports the names that begin with talmuiga_ alone. tools/install.sh installs it.
# The archive is crates/talmuiga_c/out/libtalmuiga_c.a, as `rt lib` in crates/talmuiga_c builds it; that is done here where
# it isn't there or a source is newer. With --archive another archive is taken, as tools/build_unproved.sh makes it. With --after-ci, right after `rt ci`, it is built over the libraries that this proved,
# and talmuiga_c alone is proved once more; `rt lib` would prove them all.
# The last line is 'N passed, M failed'. What can't be done here, without a C or C++ compiler, Python, SQLite or
# crates/decfmt/out/decfmt, is reported by a line 'skipped: c_library: WHY'. CC and CXX are the compilers with their words,
# by default cc and c++.
source "$(dirname "$0")/usage.sh"
takes 2 --archive --build --after-ci -- "$@"
set -u
cd "$(dirname "$0")/.." || exit 1
root=$PWD archive=$PWD/crates/talmuiga_c/out/libtalmuiga_c.a ready=
read -r -a compiler <<<"${CC:-cc}"
read -r -a cpp_compiler <<<"${CXX:-c++}"
kit=$(dirname "$(rt doc)")
# what the toolchain's allocator needs of C
heap=$kit/c/liblibc_c.a
source tests/judging.sh

# is_there COMMAND: whether there is such a command.
is_there() {
    command -v "$1" >/dev/null
}

# The archive over the libraries that `rt ci` has proved, as that calls the compiler for a program.
build_after_ci() {
    local library name words=()
    for library in "$root"/crates/*/out/rlib; do
        words+=(-L "dependency=$library")
    done
    for name in decimal_lines fixed_decimal icu_decimal icu_decimal_options icu_decimal_readable icu_decimal_reading icu_message \
        icu_plurals icu_provider icu_range_tables icu_ranges icu_table_entries icu_tables icu_unit_ranges kept_messages number_formatters number_forms number_ranges number_skeleton \
        skeleton_settings writeable; do
        words+=(--extern "$name=$root/crates/$name/out/rlib/$name.rlib")
    done
    (cd crates/talmuiga_c && "$kit/bin/rattle" build --crate-name talmuiga_c src/lib.rt --crate-type staticlib \
        --extern "std=$kit/rlibs/std.rlib" --extern "memchr=$kit/rlibs/memchr.rlib" \
        --extern "serde_json=$kit/rlibs/serde_json.rlib" \
        -L "dependency=$kit/rlibs" "${words[@]}" --antt-project "$kit/rattle/logic/antt-project.json" \
        --logic-built "$kit/logic_built" --toolchain "$kit/toolchain" --backend llvm -o "$archive")
}

# build FOLDER
build() {
    if [ "$ready" ]; then
        archive=$ready
    elif [ "$after_ci" ]; then
        build_after_ci || return 1
    elif [ ! -s "$archive" ] || [ -n "$(find crates -name out -prune -o -name '*.rt' -newer "$archive" -print -quit)" ]; then
        (cd crates/talmuiga_c && rt lib) || return 1
    fi
    cp "$archive" "$1/libtalmuiga.a" || return 1
    (cd "$1" && ar x "$heap" && ar rs libtalmuiga.a ./*.o 2>/dev/null && rm -f ./*.o) || return 1
    if is_there "${compiler[0]}"; then
        printf '{ global: talmuiga_*; local: *; };\n' >"$1/exports" &&
            "${compiler[@]}" -shared -o "$1/libtalmuiga.so.0" -Wl,-soname,libtalmuiga.so.0 \
                -Wl,--version-script,"$1/exports" -Wl,--whole-archive "$1/libtalmuiga.a" -Wl,--no-whole-archive || return 1
        rm -f "$1/exports" && ln -sf libtalmuiga.so.0 "$1/libtalmuiga.so"
    fi
}

# out_of_memory: the statuses of tests/c_refused.c, each once, where every allocation but that of its file finds no memory in
# turn.
out_of_memory() {
    local number calls
    CALLS=$folder/calls LD_PRELOAD=$folder/refuse.so "$folder/c_refused" "$sample"
    calls=$(cat "$folder/calls")
    for ((number = 2; number <= calls; number++)); do
        rm -f "$folder/mark"
        REFUSED=$number MARK=$folder/mark LD_PRELOAD=$folder/refuse.so "$folder/c_refused" "$sample"
        echo "$? $([ -e "$folder/mark" ] && echo 'out of memory')"
    done | sort -u
}

if [ "${1:-}" = --archive ] && [ $# -gt 1 ]; then
    ready=$2
    shift 2
fi
after_ci=
[ "${1:-}" = --after-ci ] && after_ci=yes
if [ "${1:-}" = --build ]; then
    mkdir -p "$2" && build "$2"
    exit
fi
folder=$(mktemp -d)
trap 'rm -rf "$folder"' EXIT
build "$folder" || failed_all 'the library is built'

# c NAME STATUS OUTPUT INPUT WORD..: what the C example writes, behind its status.
c() {
    local name=$1 status=$2 output=$3 input=$4
    shift 4
    judge "C: $name" same "$status $(printf '%b' "$output")" \
        "$(given=$(printf '%b' "$input" | "$folder/format_lines" "$@" 2>&1); echo "$? $given")"
}

# installed WORD..: runs a command of the installed tree, which is in its path with the system's own commands alone.
installed() {
    env -i "PATH=$prefix/bin:/usr/bin:/bin" "$@" 2>&1
}

# installs: what is installed runs, is replaced by a second installation, and is removed.
installs() {
    local prefix=$folder/prefix flags
    judge 'install: into a folder that is not there' tools/install.sh --library "$folder" "$prefix"
    judge 'install: the list' diff "$prefix/share/talmuiga/installed" <(cd "$prefix" && find . ! -type d | sed 's/^\.\///' | sort)
    read -r -a flags < <(PKG_CONFIG_PATH=$prefix/lib/pkgconfig pkg-config --cflags --libs talmuiga)
    "${compiler[@]}" -std=c11 -O2 examples/c/format_lines.c "${flags[@]}" -o "$folder/installed"
    judge 'C: as pkg-config says' same '1,650' "$(echo 1650 | LD_LIBRARY_PATH=$prefix/lib "$folder/installed" 2>&1)"
    prefix="$folder/a prefix"
    judge 'install: into a folder with a space' tools/install.sh --library "$folder" "$prefix"
    judge 'install: a second time' tools/install.sh --library "$folder" "$prefix"
    judge 'install: locnum' same "\$1,234.50" "$(installed locnum --currency USD 1234.5)"
    judge 'install: decfmt' same '1.5M' "$(echo 1500000 | installed decfmt tables/sample.json en - short)"
    judge 'install: the manual page' installed man "$prefix/share/man/man1/locnum.1"
    judge 'install: the converter' same "talmuiga-tables $(cat VERSION)" "$(installed talmuiga-tables --version)"
    judge 'install: tables' installed talmuiga-tables -o "$prefix/share/talmuiga/tables/" tests/cldr qaa
    judge 'install: a locale of these tables' same '12.345,5' "$(installed locnum -l qaa 12345.5)"
    judge 'install: a locale of the program' same '1,234.5' "$(installed locnum -l en 1234.5)"
    judge 'install: a file in place of the folder' same "tools/install.sh: $folder/installed/x: it can't be written" \
        "$(tools/install.sh --library "$folder" "$folder/installed/x" 2>&1)"
    [ ! -d /proc/self ] || judge 'install: into /proc' same "tools/install.sh: /proc/talmuiga: it can't be written" \
        "$(tools/install.sh --library "$folder" /proc/talmuiga 2>&1)"
    judge 'install: no folder' same 2 "$(tools/install.sh >/dev/null 2>&1; echo $?)"
    rm -r "$prefix/share/talmuiga/tables"
    judge 'install: what README shows' tests/docs.py --installed "$prefix"
    echo old >"$prefix/bin/older" && echo bin/older >>"$prefix/share/talmuiga/installed"
    rm "$prefix/bin/decfmt" && ln -s "$folder/outside" "$prefix/bin/decfmt" && echo outside >"$folder/outside"
    echo half >"$prefix/bin/locnum.new"
    judge 'install: over an older and interrupted one' tools/install.sh --library "$folder" "$prefix"
    judge 'install: what is no longer installed' test ! -e "$prefix/bin/older"
    judge 'install: the half of a file' test ! -e "$prefix/bin/locnum.new"
    judge 'install: a link in place of a program' same 'outside' "$(cat "$folder/outside")"
    judge 'install: its program' same '1' "$(echo 1 | installed decfmt)"
    mkdir "$folder/linked" "$folder/elsewhere" && ln -s "$folder/elsewhere" "$folder/linked/share"
    judge 'install: a folder that leads outside' same \
        "tools/install.sh: $folder/linked/share: it leads out of $folder/linked, to $folder/elsewhere" \
        "$(tools/install.sh --library "$folder" "$folder/linked" 2>&1)"
    echo kept >"$folder/kept" && echo ../kept >>"$prefix/share/talmuiga/installed"
    judge 'uninstall: a list that leads outside' same "tools/uninstall.sh: $prefix/../kept: it leads out of $prefix, and isn't removed" \
        "$(tools/uninstall.sh "$prefix" 2>&1)"
    judge 'uninstall: what is outside' same kept "$(cat "$folder/kept")"
    tools/install.sh --library "$folder" "$prefix" >/dev/null
    judge 'uninstall' tools/uninstall.sh "$prefix"
    judge 'uninstall: nothing is left' same "$prefix" "$(find "$prefix")"
    judge 'uninstall: nothing is installed' same "tools/uninstall.sh: $prefix: nothing of talmuiga is installed here" \
        "$(tools/uninstall.sh "$prefix" 2>&1)"
}

# unpacked: the archive of tools/package.sh, unpacked, with a PATH of its folder alone. Its tables are those of the repository.
unpacked() {
    local tables=$folder/packaged made archive prefix
    mkdir "$tables" "$folder/un packed" && cp LICENSE.md "$tables/CLDR-LICENSE"
    for made in de fr; do
        cp tables/six_locales.json "$tables/$made.json"
    done
    cp tables/english.json "$tables/en.json"
    for made in first second; do
        judge "archive: the $made" tools/package.sh --archive --library "$folder" --tables "$tables" --into "$folder/$made"
    done
    archive=talmuiga-$(cat VERSION)-linux-x86_64
    judge 'archive: the same bytes twice' cmp "$folder/first/$archive.tar.gz" "$folder/second/$archive.tar.gz"
    tar xf "$folder/first/$archive.tar.gz" -C "$folder/un packed"
    prefix="$folder/un packed/$archive"
    judge 'archive: locnum' same $'1.234,50\u00a0€' "$("$(command -v env)" -i "PATH=$prefix/bin" locnum -l de --currency EUR 1234.5 2>&1)"
    judge 'archive: decfmt' same '1,5 Mio.' \
        "$(echo 1500000 | "$(command -v env)" -i "PATH=$prefix/bin" decfmt "$prefix/share/talmuiga/tables/de.json" de - short 2>&1)"
    judge 'archive: what README shows' tests/docs.py --installed "$prefix"
    judge 'archive: its list' diff "$prefix/share/talmuiga/installed" <(cd "$prefix" && find . ! -type d | sed 's/^\.\///' | LC_ALL=C.UTF-8 sort)
    judge 'archive: no folder' same 2 "$(tools/package.sh --into >/dev/null 2>&1; echo $?)"
}

# builds PROGRAM SOURCE [ARCHIVE]: the C program, over the archive.
builds() {
    judge "C: $2 builds" "${compiler[@]}" -std=c11 -O2 -Wall -Wextra -Wcast-qual -Werror -pedantic -Iinclude "${@:2}" -o "$folder/$1"
}

# reads_header LANGUAGE STANDARD COMPILER..: the header alone.
reads_header() {
    judge "the header as $2" "${@:3}" -x "$1" "-std=$2" -Wall -Wextra -Wcast-qual -Werror -pedantic -Iinclude -fsyntax-only - \
        <<<'#include "talmuiga.h"'
}

# calls_from_cpp: a program in C++98 over the archive formats a line.
calls_from_cpp() {
    "${cpp_compiler[@]}" -x c++ -std=c++98 -Wall -Wextra -Werror -pedantic -Iinclude - -x none "$folder/libtalmuiga.a" \
        -o "$folder/calls" <<'END'
#include "talmuiga.h"
int main() {
    char output[8];
    size_t written;
    uint32_t status = talmuiga_format_english("1234", 4, output, sizeof output, &written);
    return status == TALMUIGA_DONE && written == 6 && memcmp(output, "1,234\n", 6) == 0 ? 0 : 1;
}
END
    judge 'C++: a call' "$folder/calls"
}

# A thousand lines: numbers of each length and sign, fractions, padding, carriage returns and lines that are none.
thousand_lines() {
    local n
    for ((n = 1; n <= 1000; n++)); do
        case $((n % 10)) in
            0) printf '%s\r\n' $((n * n * n)) ;;
            1) printf -- '-%s.%s\n' "${n}000" "$n" ;;
            2) printf '00%s\n' "$n" ;;
            3) printf '.%s\n' "$n" ;;
            4) printf '%se3\n' "$n" ;;
            5) printf '+%s99500\n' "$n" ;;
            *) printf '%s%s\n' "${n:0:n % 3}" "$((n * 7919 * n))" ;;
        esac
    done
    printf '1234567'
}

# as_decfmt WORD..: the C example writes of a thousand lines, in one call, what `decfmt` writes of each of them.
as_decfmt() {
    crates/decfmt/out/decfmt "$@" <"$folder/lines" >"$folder/wanted" 2>&1 &&
        "$folder/format_lines" "$@" <"$folder/lines" >"$folder/given" 2>&1
    judge "C: a thousand lines${1:+ by ${*:2}}" same '0 1001 lines, the same' \
        "$? $(wc -l <"$folder/wanted") lines, $(cmp "$folder/wanted" "$folder/given" 2>&1 && echo 'the same')"
}

# Twenty thousand lines: numbers of each length, sign and fraction, carriage returns and texts that are none.
random_lines() {
    awk 'BEGIN {
        srand(49)
        split("|x|1e3|--5|5.|1,000|.|+", none, "|")
        split("||-|+", sign, "|")
        for (n = 0; n < 20000; n++) {
            kind = int(rand() * 12)
            if (kind == 0) { print none[1 + int(rand() * 8)]; continue }
            text = sign[1 + int(rand() * 4)]
            for (left = int(rand() * 18); left > 0; left--) text = text int(rand() * 10)
            if (kind < 6 || text !~ /[0-9]/) text = text "." int(rand() * 1000)
            print text (kind == 3 ? "\r" : "")
        }
    }'
}

# kept WORD..: formatters that are kept, in rooms of each length, beside decfmt; and, of the first lines, with sanitizers. A
# fifth word is a skeleton, by which the formatter is opened; decfmt then gets numbers without plus, as the skeleton has them.
kept() {
    local name=$* skeleton=${5:-} words=("${@:1:4}")
    [ "${4:-}" ] || words=("${@:1:3}")
    head -n 500 "$folder/random" >"$folder/few"
    for part in random few; do
        if [ "$skeleton" ]; then
            sed 's/^+\([0-9]\|\.[0-9]\)/\1/' "$folder/$part"
        else
            cat "$folder/$part"
        fi | crates/decfmt/out/decfmt "$sample" "${words[@]}" >"$folder/$part.wanted"
    done
    set -- "$1" "$2" "$3" "${4:-}"
    [ "$skeleton" ] && set -- "$1" skeleton "$skeleton" ''
    judge "C: kept formatters by $name" "$folder/kept" "$sample" "$@" "$folder/random" "$folder/random.wanted"
    judge "C: kept formatters by $name, with sanitizers" \
        "$folder/kept_sanitized" "$sample" "$@" "$folder/few" "$folder/few.wanted"
}

# by_skeletons: twenty thousand numbers by each skeleton of tests/skeletons.txt, in one run of the library, are as locnum writes them.
by_skeletons() {
    local line
    grep -E '^-?[0-9]*\.?[0-9]+$' "$folder/random" >"$folder/numbers"
    while IFS= read -r line; do
        echo "# $line"
        crates/locnum/out/locnum -t tables/six_locales.json -l "${line%% *}" --skeleton "${line#* }" <"$folder/numbers"
    done <tests/skeletons.txt >"$folder/by_locnum" 2>&1
    "$folder/by_skeleton" tables/six_locales.json tests/skeletons.txt "$folder/numbers" >"$folder/by_library" 2>&1
    judge "C: $(wc -l <"$folder/numbers") numbers by $(wc -l <tests/skeletons.txt) skeletons" cmp "$folder/by_locnum" "$folder/by_library"
}

# shown LANGUAGE HEAD: a program of the blocks of README.md and docs/LIBRARY.md in this language, each in braces, behind HEAD.
shown() {
    printf '%b\n{\n' "$2"
    awk -v head="\`\`\`$1" '$0 == head { shown = 1; next }
        /^```$/ { if (shown) print "}\n{"; shown = 0 } shown' README.md docs/LIBRARY.md
    printf '}\nreturn 0;\n}\n'
}

sample=tables/sample.json
if is_there "${compiler[0]}"; then
    builds format_lines examples/c/format_lines.c "$folder/libtalmuiga.a"
    c 'no line' 0 '' ''
    c 'English' 0 '1,000,007\n-987,654.321\nerror: not a decimal\n0.5' '1000007\n-987654.321\r\n1e3\n.5'
    c 'short' 0 '1.6K\n10,000T\n' '1650\n10000000000000000\n' "$sample" en - short
    c 'digits of Bengali' 0 '১০,০০,০০৭\n' '1000007\n' "$sample" bn - plain
    c 'a strategy' 0 '١٢٣٤٥٦٧\n' '1234567\n' "$sample" ar-EG arab plain never
    c 'another style' 2 'error: words refused' '5\n' "$sample" en - tall
    c 'no UTF-8 in a word' 2 'error: words refused' '5\n' "$sample" $'\xff' - plain
    c 'rejected tables' 3 'error: tables refused' '5\n' tables/hostile.json en - short
    c 'another locale' 4 'error: no data' '5\n' "$sample" xx - plain
    c 'a missing file' 1 'error: input or output failed' '5\n' "$folder/none" en - plain
    c 'a folder for tables' 1 'error: input or output failed' '5\n' "$folder" en - plain
    judge 'C: a folder as standard input' same '1 error: input or output failed' \
        "$(given=$("$folder/format_lines" <"$folder" 2>&1); echo "$? $given")"
    judge 'C: a closed standard output' same '1 error: input or output failed' \
        "$(given=$(echo 5 | "$folder/format_lines" 2>&1 >&-); echo "$? $given")"
    if [ -c /dev/full ]; then
        judge 'C: a full device' same '1 error: input or output failed' \
            "$(given=$(echo 5 | "$folder/format_lines" 2>&1 >/dev/full); echo "$? $given")"
    else
        skipped 'there is no full device'
    fi
    if [ -x crates/decfmt/out/decfmt ]; then
        thousand_lines >"$folder/lines"
        as_decfmt
        as_decfmt "$sample" en - plain
        as_decfmt "$sample" en - short
        as_decfmt "$sample" bn - plain always
        as_decfmt "$sample" fr - long
        as_decfmt "$sample" ar-EG arab plain min2
        random_lines >"$folder/random"
        compiler_words=("${compiler[@]}" -std=gnu11 -Wall -Wextra -Wcast-qual -Werror -Iinclude tests/c_kept.c "$folder/libtalmuiga.a")
        judge 'C: tests/c_kept.c builds' "${compiler_words[@]}" -O2 -pthread -o "$folder/kept"
        judge 'C: tests/c_kept.c builds with sanitizers' \
            "${compiler_words[@]}" -O1 -g -fsanitize=address,undefined -pthread -o "$folder/kept_sanitized"
        kept en - plain
        kept en - short
        kept bn - plain always
        kept en - short '' compact-short
        builds by_skeleton tests/c_by_skeleton.c "$folder/libtalmuiga.a"
        if [ -x crates/locnum/out/locnum ]; then
            by_skeletons
        else
            skipped "there is no crates/locnum/out/locnum: 'rt run' in crates/locnum builds it"
        fi
    else
        skipped "there is no crates/decfmt/out/decfmt: 'rt run' in crates/decfmt builds it"
    fi
    builds rooms tests/c_library.c "$folder/libtalmuiga.a"
    judge 'C: rooms, errors and null' "$folder/rooms" "$sample"
    builds parts tests/c_parts.c "$folder/libtalmuiga.a" -O1 -g -fsanitize=address,undefined
    judge 'C: parts of a number' "$folder/parts" "$sample"
    builds rows tests/c_rows.c "$folder/libtalmuiga.a" -O1 -g -fsanitize=address,undefined
    judge 'C: rows of single calls' "$folder/rows"
    builds skeletons tests/c_skeletons.c "$folder/libtalmuiga.a" -O1 -g -fsanitize=address,undefined -pthread
    judge 'C: rows of skeletons' "$folder/skeletons" tables/six_locales.json tables/english.json \
        crates/rows_reports/data/numbers.json
    builds ranges tests/c_ranges.c "$folder/libtalmuiga.a" -O1 -g -fsanitize=address,undefined -pthread
    judge 'C: ranges' "$folder/ranges" tables/six_locales.json tables/english.json crates/rows_reports/data/numbers.json \
        crates/rows_ranges/data/ranges.json
    for sanitizer in address,undefined thread; do
        builds messages tests/c_messages.c "$folder/libtalmuiga.a" -O1 -g "-fsanitize=$sanitizer" -pthread
        judge "C: messages, with $sanitizer" "$folder/messages" crates/rows_messages/data/messages.json tables/english.json \
            tables/six_locales.json
    done
    for sanitizer in address,undefined thread; do
        judge "C: tests/c_hostile.c builds with ${sanitizer}" "${compiler[@]}" -std=gnu11 -O1 -g -Wall -Wextra -Wcast-qual -Werror \
            "-fsanitize=$sanitizer" -pthread -Iinclude tests/c_hostile.c "$folder/libtalmuiga.a" -o "$folder/hostile"
        judge "C: bad input, with ${sanitizer}" "$folder/hostile" tables/six_locales.json
    done
    judge 'C: what the shared object exports' same '' \
        "$(nm -D --defined-only "$folder/libtalmuiga.so.0" | awk '{print $3}' | grep -v '^talmuiga_')"
    if [ -x crates/decfmt/out/decfmt ] && [ -x crates/locnum/out/locnum ]; then
        installs
        unpacked
    else
        skipped "there is no crates/decfmt/out/decfmt or crates/locnum/out/locnum: 'rt run' in their folders builds them"
    fi
    builds c_refused tests/c_refused.c "$folder/libtalmuiga.a"
    "${compiler[@]}" -O2 -shared -fPIC -o "$folder/refuse.so" tests/refuse_nth.c -ldl
    judge 'C: each allocation finds no memory in turn' same '0 out of memory' "$(out_of_memory)"
    shown c '#include "talmuiga.h"\n#include <stdio.h>\nint main(void) {\nstatic char tables[65536];
        size_t tables_len = fread(tables, 1, sizeof tables, fopen("tables/six_locales.json", "rb"));' >"$folder/readme.c"
    "${compiler[@]}" -Iinclude "$folder/readme.c" "$folder/libtalmuiga.a" -o "$folder/readme"
    judge 'C: as README.md and docs/LIBRARY.md show' same $'1,000,007\n-987,654.321\n1,000,007\n-987,654.321' "$("$folder/readme" 2>&1)"
    builds header tests/c_header.c
    judge 'C: what the header hands on' "$folder/header"
    reads_header c c99 "${compiler[@]}"
else
    skipped "there is no C compiler ${compiler[0]}"
fi
if is_there "${cpp_compiler[0]}"; then
    reads_header c++ c++98 "${cpp_compiler[@]}"
    reads_header c++ c++11 "${cpp_compiler[@]}"
    calls_from_cpp
    "${cpp_compiler[@]}" -std=c++17 -O1 -g -Wall -Wextra -Werror -pedantic -fsanitize=address,undefined -pthread -Iinclude \
        tests/cpp_kept.cpp "$folder/libtalmuiga.a" -o "$folder/cpp_kept"
    # C++20 has std::format where the compiler's library has it
    for standard in c++17 c++20; do
        judge "C++: tests/cpp_format.cpp builds as $standard" "${cpp_compiler[@]}" "-std=$standard" -O1 -g -Wall -Wextra -Werror \
            -pedantic -fsanitize=address,undefined -Iinclude tests/cpp_format.cpp "$folder/libtalmuiga.a" -o "$folder/cpp_format"
        judge "C++: std::format and parts as $standard" "$folder/cpp_format" tables/six_locales.json
    done
    shown cpp '#include "talmuiga_format.hpp"\n#include <fstream>\n#include <iostream>\n#include <sstream>\nint main() {
        std::stringstream read;\nread << std::ifstream("tables/six_locales.json").rdbuf();\nconst std::string tables = read.str();' \
        >"$folder/readme.cpp"
    "${cpp_compiler[@]}" -std=c++17 -Iinclude "$folder/readme.cpp" "$folder/libtalmuiga.a" -o "$folder/readme_cpp"
    judge 'C++: as README.md and docs/LIBRARY.md show' same $'1.234.567,8\n1.234.567,8\n1,2\u00a0Mio.\u00a0€\n- $ 5 . 00 ' \
        "$("$folder/readme_cpp" 2>&1)"
    judge 'C++: formatters that are kept' "$folder/cpp_kept" "$sample" tables/six_locales.json
else
    skipped "there is no C++ compiler ${cpp_compiler[0]}"
fi

# in_sql WANTED TEXT [TABLES]: what the sqlite3 command answers with the extension.
in_sql() {
    judge "SQL: $2" same "$1" "$(TALMUIGA_TABLES=${3:-$sample} sqlite3 -batch -cmd ".load $folder/talmuiga_sqlite" :memory: "$2" 2>&1)"
}

if is_there sqlite3 && [ -e /usr/include/sqlite3ext.h ]; then
    judge 'SQL: the extension builds' "${compiler[@]}" -O2 -fPIC -shared -Wall -Wextra -Werror -Iinclude \
        examples/sqlite/talmuiga_sqlite.c "$folder/libtalmuiga.a" -o "$folder/talmuiga_sqlite.so"
    in_sql $'1.6K\n\n1.8M\n2.5' "CREATE TABLE sales(price); INSERT INTO sales VALUES(1650),(NULL),('1750000'),(2.5);
        SELECT decfmt(price, 'en', 'short') FROM sales"
    in_sql '১০,০০,০০৭' "SELECT decfmt(1000007, 'bn')"
    in_sql 'Error: stepping, not a decimal' "SELECT decfmt('x', 'en')"
    in_sql 'Error: stepping, no data' "SELECT decfmt(5, 'xx')"
    in_sql 'Error: stepping, words refused' "SELECT decfmt(5, 'en', 'tall')"
    in_sql $'1.650,00\u00a0€\n\n-0,50\u00a0€' "CREATE TABLE sales(price); INSERT INTO sales VALUES(1650),(NULL),(-0.5);
        SELECT number_format(price, 'de', 'currency/EUR') FROM sales" tables/six_locales.json
    in_sql $'12,3\u00a0%|1,2\u00a0Mio.\u00a0€|12' "SELECT number_format(0.12345, 'de', '%x100 .0'),
        number_format(1234567.5, 'de', 'K currency/EUR'), number_format(12, 'de', '')" tables/six_locales.json
    in_sql 'Error: stepping, skeleton: unknown stem, byte 8' "SELECT number_format(5, 'de', 'percent foo')"
    in_sql 'Error: stepping, skeleton: left out: scientific, byte 0' "SELECT number_format(5, 'de', 'scientific')"
    in_sql '1.234.567' "SELECT number_format(1234567, 'de', 'group-thousands')" tables/six_locales.json
    in_sql 'Error: stepping, not a decimal' "SELECT number_format('x', 'de', 'currency/EUR')" tables/six_locales.json
    in_sql 'Error: stepping, no data' "SELECT number_format(5, 'de', 'currency/USD')" tables/six_locales.json
    # six locales with the range patterns of three, and the categories of French
    {
        sed '$ s/}$/,/' tables/six_locales.json
        printf '"ranges": [{"locale": "%s", "pattern": "{0}–{1}"}' en
        printf ', {"locale": "%s", "pattern": "{0}–{1}"}' de fr
        echo '], "plural_ranges": [{"locale": "fr", "ranges": [["one", "one", "one"]]}]}'
    } >"$folder/ranges.json"
    in_sql $'-5,00\u00a0€ – 1.650,00\u00a0€|3–5|~3|900 – 2K||' "CREATE TABLE sales(price); INSERT INTO sales VALUES(1650),(NULL),(-5);
        SELECT number_range_format(min(price), max(price), 'de', 'currency/EUR'), number_range_format(3, '5', 'en', ''),
        number_range_format(3, 3, 'en', ''), number_range_format(900, 2000, 'en', 'K'), number_range_format(3, NULL, 'en', ''),
        number_range_format(NULL, 'x', 'en', '') FROM sales" "$folder/ranges.json"
    in_sql $'3\n3–5\n3–5' "SELECT number_format(3, 'en', '') UNION ALL SELECT number_range_format(3, 5, 'en', '')
        UNION ALL SELECT number_range_format(3, 5, 'en', '')" "$folder/ranges.json"
    in_sql 'Error: stepping, the start is above the end' "SELECT number_range_format(5, 3, 'de', '')" "$folder/ranges.json"
    in_sql 'Error: stepping, not a decimal' "SELECT number_range_format('x', 'y', 'de', '')" "$folder/ranges.json"
    in_sql 'Error: stepping, the end: not a decimal' "SELECT number_range_format(3, 'y', 'de', '')" "$folder/ranges.json"
    in_sql 'Error: stepping, the end: not a decimal' "SELECT number_range_format(3, x'35', 'de', '')" "$folder/ranges.json"
    in_sql 'Error: stepping, no range pattern' "SELECT number_range_format(3, 5, 'ja', '')" "$folder/ranges.json"
    in_sql 'Error: stepping, no range pattern' "SELECT number_range_format(3, 5, 'de', '')" tables/six_locales.json
    in_sql 'Error: stepping, no data' "SELECT number_range_format(3, 5, 'xx', '')" "$folder/ranges.json"
    in_sql 'Error: stepping, skeleton: unknown stem, byte 2' "SELECT number_range_format(3, 5, 'de', '% foo')" "$folder/ranges.json"
    in_sql '1.00–2.00 euros|0,00–1,00 euro|0,00–2,00 euros' "SELECT
        number_range_format(1, 2, 'en', 'currency/EUR unit-width-full-name'),
        number_range_format(0, 1, 'fr', 'currency/EUR unit-width-full-name'),
        number_range_format(0, 2, 'fr', 'currency/EUR unit-width-full-name')" "$folder/ranges.json"
    in_sql '3–5 euros' \
        "SELECT number_range_format(3, 5, 'en', 'K currency/EUR unit-width-full-name')" "$folder/ranges.json"
    in_sql $'1.234,5 Dateien 1.234,50\u00a0€|Ana: 1.000|1000|1 Datei|||x' "SELECT
        message_format('{n, plural, one{# Datei} other{# Dateien}} {n, number, ::currency/EUR}', 'de', 'n', 1234.5),
        message_format('{who}: {n}', 'de', 'who', 'Ana', 'n', 1000), message_format('{n}', 'de', 'n', '1000'),
        message_format('{n, plural, one{# Datei} other{# Dateien}}', 'de', 'n', '1', 'who', 5),
        message_format('{n}', 'de', 'n', NULL), message_format('{n}', NULL, 'n', 1), message_format('x', 'de')" tables/six_locales.json
    in_sql $'0 files\n1 file\n2 files' "WITH n(i) AS (VALUES(0), (1), (2))
        SELECT message_format('{n, plural, one{# file} other{# files}}', 'en', 'n', i) FROM n" tables/six_locales.json
    in_sql $'22nd|Ana owes \u20ac1,250.00 (1.2K)' "SELECT
        message_format('{n, selectordinal, one{#st} two{#nd} few{#rd} other{#th}}', 'en', 'n', 22),
        message_format('{who} owes {debt, number, ::currency/EUR} ({debt, number, ::K})', 'en', 'who', 'Ana', 'debt', '1250')" \
        tables/english.json
    in_sql 'Error: stepping, message: the text ends within an argument, byte 2' "SELECT message_format('{n', 'de')" tables/six_locales.json
    in_sql 'Error: stepping, message: not UTF-8, byte 1' "SELECT message_format('{' || CAST(x'e282' AS TEXT), 'de')" tables/six_locales.json
    in_sql 'Error: stepping, message: an argument is missing: n' "SELECT message_format('{n}', 'de', 'm', 5)" tables/six_locales.json
    in_sql 'Error: stepping, message: not a decimal: n' "SELECT message_format('{n, plural, other{#}}', 'de', 'n', 'x')" \
        tables/six_locales.json
    in_sql "Error: stepping, message: an argument isn't a text: n" "SELECT message_format('{n, select, other{#}}', 'de', 'n', 1)" \
        tables/six_locales.json
    in_sql 'Error: stepping, message: no data: n' "SELECT message_format('{n, number, ::currency/CHF}', 'de', 'n', 1)" \
        tables/six_locales.json
    in_sql 'Error: stepping, words refused' "SELECT message_format('x', 'e_n')" tables/six_locales.json
    in_sql 'Error: stepping, no data' "SELECT message_format('{n, selectordinal, other{x}}', 'de', 'n', 1)" tables/six_locales.json
    in_sql 'Error: stepping, message_format: a text, a locale, and names with values' "SELECT message_format('x', 'de', 'n')" \
        tables/six_locales.json
    # more messages than are kept
    in_sql $'100\n100' "WITH RECURSIVE n(i) AS (SELECT 1 UNION ALL SELECT i + 1 FROM n WHERE i < 100)
        SELECT count(*) FROM n WHERE message_format('{n} of ' || i, 'de', 'n', 7) = '7 of ' || i
        UNION ALL SELECT count(*) FROM n WHERE message_format('{n} of ' || i, 'de', 'n', 7) = '7 of ' || i" tables/six_locales.json
    # SQLite has no NaN: it is NULL
    in_sql '|' "SELECT number_format(9e999 - 9e999, 'de', ''), decfmt(0.0 / 0, 'en')" tables/six_locales.json
    in_sql 'Error: stepping, not a decimal' "SELECT number_format(9e999, 'de', '')" tables/six_locales.json
    in_sql 'Error: stepping, not a decimal' "SELECT number_format('NaN', 'de', '')" tables/six_locales.json
    in_sql 'Error: stepping, not a decimal' "SELECT number_format('5' || char(0), 'de', '')" tables/six_locales.json
    in_sql 'Error: stepping, not a decimal' "SELECT number_format(CAST(x'35e282' AS TEXT), 'de', '')" tables/six_locales.json
    in_sql 'Error: stepping, not a decimal' "SELECT number_format(x'35', 'de', '')" tables/six_locales.json
    in_sql 'Error: stepping, words refused' "SELECT number_format(5, CAST(x'ff' AS TEXT), '')" tables/six_locales.json
    in_sql 'Error: stepping, skeleton: unknown stem, byte 2' "SELECT number_format(5, 'de', '% ' || char(0))" tables/six_locales.json
    in_sql 'Error: stepping, skeleton: not UTF-8, byte 2' "SELECT number_format(5, 'de', '% ' || CAST(x'e282' AS TEXT))" \
        tables/six_locales.json
    in_sql 'Error: stepping, skeleton: more than 999 digits, byte 0' \
        "SELECT number_format(5, 'de', replace(hex(zeroblob(524288)), '00', '00'))" tables/six_locales.json
    in_sql 'Error: stepping, no data' "SELECT number_format(5, 'de', 'unit/' || lower(hex(zeroblob(524288))))" tables/six_locales.json
    in_sql 'Error: stepping, tables refused' "SELECT number_format(5, 'en', '')" tables/hostile.json
    in_sql $'100\n100' "WITH RECURSIVE n(i) AS (SELECT 1 UNION ALL SELECT i + 1 FROM n WHERE i < 100)
        SELECT count(*) FROM n
        WHERE length(number_format(7, 'de', 'group-off integer-width/*' || printf('%.*c', i, '0'))) = i
        UNION ALL SELECT count(*) FROM n
        WHERE length(number_format(7, 'de', 'group-off integer-width/*' || printf('%.*c', i, '0'))) = i" tables/six_locales.json
else
    skipped 'there is no sqlite3, or no sqlite3ext.h'
fi

# The Python package, in a wheel that holds the archive.
said=$(tests/python_wheel.sh "$folder/libtalmuiga.a" 2>&1)
if [[ $said == skipped:* ]]; then
    why=${said#skipped: python_wheel: }
    skipped "${why%%$'\n'*}"
else
    printf '%s\n' "$said" | grep '^FAILED'
    judge 'Python: the wheel and its tests' same '0 failed' "$(printf '%s\n' "$said" | tail -n 1 | cut -d ' ' -f 3-)"
fi
ended_all
