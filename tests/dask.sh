#!/bin/bash
# Formats a column of partitioned CSV files on a cluster of Dask: a scheduler and three workers on the loopback, one of which
# is killed while it works. The output has to be whole, and equal to that of one process. Then columns of prices in frames of pandas
# and of Dask. It installs nothing: where Dask (Debian's python3-dask and python3-distributed), pandas (python3-pandas) or the Python
# package's wheel isn't there, it says so. It isn't part of CI.
# usage: tests/dask.sh [WHEEL], by default the one in lib/ as tests/python_wheel.sh --build lib makes it
source "$(dirname "$0")/usage.sh"
takes 1 -- "$@"
set -u
cd "$(dirname "$0")/.." || exit 1
wheels=(lib/talmuiga-*.whl)
wheel=${1:-${wheels[0]}}
python=${PYTHON:-/usr/bin/python3}
source tests/judging.sh
"$python" -c 'import dask, distributed' 2>/dev/null || skipped_all "no Dask for $python"
[ -e "$wheel" ] || skipped_all "no $wheel"
folder=$(mktemp -d)
"$python" -m zipfile -e "$wheel" "$folder/package"
export PYTHONPATH=$folder/package:$PWD/examples/dask
began=()
finish() {
    kill -9 "${began[@]}" 2>/dev/null
    wait 2>/dev/null
    rm -rf "$folder"
}
trap finish EXIT

# Sixty files of 20,000 rows, of which a hundredth has no number.
"$python" - "$folder" <<'PYTHON'
import csv
import os
import random
import sys

folder = sys.argv[1]
chance = random.Random(52)
os.mkdir(f"{folder}/in")
for part in range(60):
    with open(f"{folder}/in/part-{part:03}.csv", "w", newline="") as file:
        writer = csv.writer(file, lineterminator="\n")
        writer.writerow(["name", "price", "note"])
        for row in range(20000):
            price = "n/a" if row % 100 == 7 else f"{chance.randrange(-10**9, 10**9) / 100:.2f}"
            writer.writerow([f"row {row}", price, 'with a "quote", and a comma'])
PYTHON

words=(tables/six_locales.json de currency/EUR price)
# by one process
from=${EPOCHREALTIME/./}
"$python" - "$folder" "${words[@]}" <<'PYTHON'
import glob
import os
import sys

from format_column import format_file

folder, tables, locale, skeleton, column = sys.argv[1:]
os.mkdir(f"{folder}/one")
for name in sorted(glob.glob(f"{folder}/in/*.csv")):
    format_file(name, f"{folder}/one/{os.path.basename(name)}", tables, locale, skeleton, column)
PYTHON

one=$(((${EPOCHREALTIME/./} - from) / 1000))

"$python" -m distributed.cli.dask_scheduler --host 127.0.0.1 --port 0 --dashboard-address 127.0.0.1:0 \
    --scheduler-file "$folder/scheduler.json" >"$folder/scheduler.log" 2>&1 &
began+=($!)
for _ in $(seq 100); do
    [ -s "$folder/scheduler.json" ] && break
    sleep 0.2
done
for number in 1 2 3; do
    "$python" -m distributed.cli.dask_worker --scheduler-file "$folder/scheduler.json" --nworkers 1 --nthreads 1 --no-nanny \
        --no-dashboard --local-directory "$folder" >"$folder/worker$number.log" 2>&1 &
    began+=($!)
done
address=$("$python" -c 'import json, sys; print(json.load(open(sys.argv[1]))["address"])' "$folder/scheduler.json")
from=${EPOCHREALTIME/./}
"$python" examples/dask/format_column.py "$address" "${words[@]}" "$folder/many" "$folder"/in/*.csv >"$folder/said" 2>&1 &
run=$!
# one worker dies as soon as a few files are done
for _ in $(seq 600); do
    [ "$(find "$folder/many" -name 'part-*.csv' 2>/dev/null | wc -l)" -ge 3 ] && break
    sleep 0.05
done
done_before=$(find "$folder/many" -name 'part-*.csv' 2>/dev/null | wc -l)
kill -9 "${began[1]}"
disown "${began[1]}"
wait "$run"
status=$?
echo "one process: $one ms; three workers, of which one was killed after $done_before files: $(((${EPOCHREALTIME/./} - from) / 1000)) ms"
judge "the run has status $status: $(tail -n 3 "$folder/said")" [ "$status" = 0 ]
judge "the worker was killed after $done_before files of 60" [ "$done_before" -lt 60 ]
judge 'the last line of the run' same '60 files, 1200000 rows' "$(tail -n 1 "$folder/said")"
# what the killed worker left of a file
rm -f "$folder"/many/.[!.]*
judge 'the output is that of one process' diff -rq "$folder/one" "$folder/many"
judge 'numbers are formatted' grep -Eq $'^row [0-9]+,"-?[0-9.]+\\.[0-9]{3},[0-9]{2}\u00a0€",' "$folder/many/part-000.csv"
judge 'what is no number stays' [ "$(grep -c ',n/a,' "$folder/many/part-059.csv")" = 200 ]

if "$python" -c 'import pandas, dask.dataframe' 2>/dev/null; then
    # what is no number is missing in a frame
    "$python" examples/dask/format_frame.py "${words[@]}" "$folder/in/part-000.csv" >"$folder/frame.csv" 2>"$folder/said"
    judge "a frame of pandas: $(tail -n 3 "$folder/said")" "$python" - "$folder" <<'PYTHON'
import csv
import sys

folder = sys.argv[1]
with open(f"{folder}/frame.csv", newline="") as file:
    given = [row["price_text"] for row in csv.DictReader(file)]
with open(f"{folder}/one/part-000.csv", newline="") as file:
    wanted = ["" if row["price"] == "n/a" else row["price"] for row in csv.DictReader(file)]
assert given == wanted and len(given) == 20000, [pair for pair in zip(given, wanted) if pair[0] != pair[1]][:3]
PYTHON
    judge 'a frame of Dask has the texts of that of pandas' "$python" - "$folder" "${words[@]}" <<'PYTHON'
import sys

import dask.dataframe
import pandas
from format_frame import texts_of, with_texts, with_texts_of_parts

folder, tables, locale, skeleton, column = sys.argv[1:]
frame = pandas.read_csv(f"{folder}/in/part-000.csv")
parts = with_texts_of_parts(dask.dataframe.from_pandas(frame, npartitions=7), column, tables, locale, skeleton)
assert parts.compute().equals(with_texts(frame, column, tables, locale, skeleton))
assert list(texts_of(pandas.Series([1, 2], dtype="int32"), tables, locale, skeleton)) == ["1,00\u00a0€", "2,00\u00a0€"]
assert list(texts_of(pandas.Series(["0.125", None, "3"]), tables, locale, skeleton).fillna("-")) == ["0,12\u00a0€", "-", "3,00\u00a0€"]
assert list(texts_of(pandas.Series([], dtype="float64"), tables, locale, skeleton)) == []
PYTHON
else
    skipped 'there is no pandas, or no dask.dataframe'
fi
ended_all
