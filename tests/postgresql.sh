#!/bin/bash
# Builds the extension for PostgreSQL, starts a server of its own with it, and runs `make installcheck`; with --rounds N it then times
# number_format beside to_char, over a million rows, N times in turn. Nothing outside a temporary folder changes: the server is a copy
# of the system's, made of links, and listens on a socket in that folder alone. It isn't part of CI.
# usage: tests/postgresql.sh [ARCHIVE] [--rounds N]; ARCHIVE is libtalmuiga.a, by default one that is built
# It needs Debian's postgresql-15 and postgresql-server-dev-15, or those of another version, which PG_CONFIG names. A server doesn't
# run as root: for root it is run by the user postgres, or by nobody. The last line is 'N passed, M failed'.
source "$(dirname "$0")/usage.sh"
takes 3 --rounds -- "$@"
set -u
archive='' rounds=0
if [ $# -gt 0 ] && [ "$1" != --rounds ]; then
    archive=$(realpath -- "$1")
    shift
fi
[ "${1:-}" = --rounds ] && rounds=${2:-1}
cd "$(dirname "$0")/.." || exit 1
source tests/judging.sh
config=${PG_CONFIG:-$(find /usr/lib/postgresql/*/bin/pg_config 2>/dev/null | sort -V | tail -n 1)}
[ -x "$config" ] || skipped_all 'there is no pg_config'
[ -e "$("$config" --includedir-server)/postgres.h" ] || skipped_all 'there are no headers of the server'
[ -e "$("$config" --pgxs)" ] || skipped_all "there is no $("$config" --pgxs)"
folder=$(mktemp -d)
began=
finish() {
    [ "$began" ] && as_user "$bin/pg_ctl" -D "$folder/data" -m immediate stop >/dev/null 2>&1
    rm -rf "$folder"
}
trap finish EXIT
user=
if [ "$(id -u)" = 0 ]; then
    for user in postgres nobody; do
        id "$user" >/dev/null 2>&1 && break
    done
fi

# as_user COMMAND..: runs it as a user who isn't root.
as_user() {
    if [ "$user" ]; then
        setpriv --reuid "$user" --regid "$(id -g "$user")" --clear-groups "$@"
    else
        "$@"
    fi
}

# The server as links to the system's, with programs of its own, since a program looks for its files from where it lies.
copied=$folder/server
for place in bindir pkglibdir sharedir includedir-server; do
    from=$("$config" "--$place")
    mkdir -p "$copied$from"
    cp -rs "$from/." "$copied$from"
done
bin=$copied$("$config" --bindir)
for program in postgres initdb pg_ctl pg_config; do
    rm "$bin/$program" && cp "$("$config" --bindir)/$program" "$bin/"
done

if [ ! "$archive" ]; then
    tests/c_library.sh --build "$folder/lib" || exit 1
    archive=$folder/lib/libtalmuiga.a
fi
mkdir -p "$folder/tree/lib" "$folder/tree/examples"
cp "$archive" "$folder/tree/lib/libtalmuiga.a"
cp -r include tables "$folder/tree/"
cp -r examples/postgresql "$folder/tree/examples/"
make_words=(make -s -C "$folder/tree/examples/postgresql" PG_CONFIG="$bin/pg_config")
"${make_words[@]}" COPT=-Werror install >"$folder/said" 2>&1 || { cat "$folder/said"; failed_all 'the extension is built'; }
judge 'the extension builds without a warning' same '' "$(grep -i 'warning' "$folder/said")"

mkdir "$folder/socket"
[ "$user" ] && chown "$user" "$folder" "$folder/socket"
chmod -R a+rX "$folder"
export PGHOST=$folder/socket PGPORT=5432 PGUSER=postgres PGDATABASE=postgres PGCLIENTENCODING=UTF8 LC_ALL=C.UTF-8
as_user "$bin/initdb" -D "$folder/data" -U postgres -A trust -E UTF8 --locale C.UTF-8 --no-sync >"$folder/said" 2>&1 ||
    { cat "$folder/said"; failed_all 'a folder for the server is made'; }
as_user "$bin/pg_ctl" -D "$folder/data" -w -l "$folder/data/log" -o "-k '$folder/socket' -h '' -c fsync=off" start >"$folder/said" 2>&1 ||
    { cat "$folder/said" "$folder/data/log"; failed_all 'the server starts'; }
began=yes

"${make_words[@]}" installcheck >"$folder/said" 2>&1
status=$?
[ "$status" = 0 ] || cat "$folder/said" "$folder/tree/examples/postgresql/regression.diffs" 2>/dev/null
judge 'make installcheck' [ "$status" = 0 ]

# in_sql WANTED TEXT [DATABASE]: what the server answers.
in_sql() {
    judge "$2" same "$1" "$("$bin/psql" -qAtX -d "${3:-postgres}" -c "SET talmuiga.tables = '$folder/tree/tables/six_locales.json'" -c "$2" 2>&1)"
}

"$bin/psql" -qX -c 'CREATE EXTENSION talmuiga' -c "CREATE DATABASE latin ENCODING LATIN9 LOCALE 'C' TEMPLATE template0"
"$bin/psql" -qX -d latin -c 'CREATE EXTENSION talmuiga'
in_sql $'1.234,50\u00a0€' "SELECT number_format(1234.5, 'de', 'currency/EUR')"
# in another encoding the answer is converted, and a text that it doesn't have is an error
in_sql '7' "SELECT length(number_format(12.5, 'de', 'currency/EUR'))" latin
in_sql $'12,50\u00a0€' "SELECT number_format(12.5, 'de', 'currency/EUR')" latin
judge 'a text that the encoding lacks' grep -q 'has no equivalent in encoding' <("$bin/psql" -qAtX -d latin \
    -c "SET talmuiga.tables = '$folder/tree/tables/six_locales.json'" -c "SELECT number_format(1, 'bn', '')" 2>&1)
# eight backends at once, of which each opens a hundred formatters
for number in 1 2 3 4 5 6 7 8; do
    "$bin/psql" -qAtX -c "SET talmuiga.tables = '$folder/tree/tables/six_locales.json'" -c "SELECT count(*) FROM generate_series(1, 100) AS i
        WHERE number_format(7, 'de', 'integer-width/*' || repeat('0', i) || ' group-off') = lpad('7', i, '0')" >"$folder/backend$number" 2>&1 &
    backends[number]=$!
done
wait "${backends[@]}"
judge 'eight backends' same "$(printf '100\n%.0s' 1 2 3 4 5 6 7 8)" "$(cat "$folder"/backend?)"

# timed TEXT: the milliseconds of a statement.
timed() {
    "$bin/psql" -qAtX -c "SET talmuiga.tables = '$folder/tree/tables/six_locales.json'" -c 'SET max_parallel_workers_per_gather = 0' \
        -c '\timing on' -c "$1" | sed -n 's/^Time: \([0-9.]*\) ms.*/\1/p'
}
if [ "$rounds" -gt 0 ]; then
    "$bin/psql" -qX -v ON_ERROR_STOP=1 -c "CREATE TABLE sales AS SELECT ((i::bigint * 7919) % 100000000) / 100.0 AS price FROM generate_series(1, 1000000) AS i" \
        -c 'VACUUM ANALYZE sales'
    echo "a million rows, on $(nproc) processors, $(sed -n 's/^model name.*: //p' /proc/cpuinfo | head -n 1)"
    for ((round = 1; round <= rounds; round++)); do
        echo "round $round, load $(cut -d ' ' -f 1 /proc/loadavg): rows alone $(timed 'SELECT count(price) FROM sales') ms," \
            "price::text $(timed 'SELECT max(length(price::text)) FROM sales') ms," \
            "to_char $(timed "SELECT max(length(to_char(price, 'FM999,999,999.00'))) FROM sales") ms," \
            "number_format(.., 'de', 'currency/EUR') $(timed "SELECT max(length(number_format(price, 'de', 'currency/EUR'))) FROM sales") ms," \
            "number_format(.., 'de', '.00') $(timed "SELECT max(length(number_format(price, 'de', '.00'))) FROM sales") ms"
    done
fi
ended_all
