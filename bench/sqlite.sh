#!/bin/bash
# Measures a price in SQLite: number_format beside printf('%.2f'), over a million rows of a table in memory.
# usage: bench/sqlite.sh LIBRARY [RUNS]
# LIBRARY is the folder with libtalmuiga.a, as `tests/c_library.sh --build FOLDER` makes it.
source "$(dirname "$0")/../tests/usage.sh"
takes 2 -- "$@"
set -u
cd "$(dirname "$0")" || exit 1
[ -s "${1:-}/libtalmuiga.a" ] || { echo "$0: which folder has libtalmuiga.a? --help says more" >&2 && exit 2; }
mkdir -p build
cc -O2 -fPIC -shared -I../include ../examples/sqlite/talmuiga_sqlite.c "$1/libtalmuiga.a" -o build/talmuiga_sqlite.so || exit 1
cat >build/sqlite.sql <<'SQL'
.load build/talmuiga_sqlite
CREATE TABLE prices (real REAL, text TEXT);
INSERT INTO prices SELECT cents / 100.0, printf('%.2f', cents / 100.0)
  FROM (SELECT abs(value * 7919 * 6151) % 100000000 AS cents FROM generate_series(1, 1000000));
SELECT sum(length(printf('%.2f', real))), sum(length(number_format(real, 'en', 'currency/EUR'))) FROM prices;
.timer on
SQL
for ((i = 0; i < ${2:-5}; i++)); do
    for column in real text; do
        echo ".print printf $column"
        echo "SELECT sum(length(printf('%.2f', $column))) FROM prices;"
        echo ".print number_format $column"
        echo "SELECT sum(length(number_format($column, 'en', 'currency/EUR'))) FROM prices;"
    done
done >>build/sqlite.sql
TALMUIGA_TABLES=../tables/six_locales.json sqlite3 :memory: <build/sqlite.sql |
    awk '/^(printf|number_format) / { name = $0 }
        /^Run Time/ { if (!(name in best) || $6 < best[name]) best[name] = $6 }
        END {
            print "| a million rows | user seconds |\n|---|---|"
            for (name in best) print "| " name " | " best[name] " |"
        }' | sort
