# What the scripts of this folder share: the mixed lines, programs over the repository's crates, times and instructions.
# A script sets `runs` and sources it in its own folder.
# shellcheck shell=bash
runs=${runs:-11}
mkdir -p build
[ -s build/mixed.txt ] || python3 generate.py mixed >build/mixed.txt

# crates_below CRATE..: these crates of the repository and those that they use, each name once
crates_below() {
    python3 - "$@" <<'END'
import sys

sys.path.insert(0, "../tests")
import edits

names = []
for crate in sys.argv[1:]:
    names += [name for name in [*edits.below(crate), crate] if name not in names]
print("\n".join(names))
END
}

# program NAME CRATE..: proves and builds programs/NAME.rattle over crates, in a folder of its own beside copies of them
program() {
    local name=$1 crate folder
    folder=$(mktemp -d)
    for crate in $(crates_below "${@:2}"); do
        mkdir -p "$folder/crates/$crate"
        tar -C "../crates/$crate" -c --exclude=out/incremental --exclude=must-fail --exclude=edits . | tar -x -C "$folder/crates/$crate"
        grep -E "^$crate:" ../crates.txt >>"$folder/crates.txt"
    done
    echo "$name: ${*:2}" >>"$folder/crates.txt"
    cp ../HANDLES "$folder"
    mkdir -p "$folder/crates/$name/src"
    cp "programs/$name.rattle" "$folder/crates/$name/src/main.rt"
    cp programs/lines.rattle "$folder/crates/$name/src/lines.rt"
    (cd "$folder/crates/$name" && rt run) >"build/$name.log" 2>&1
    cp "$folder/crates/$name/out/$name" "build/$name" || tail -n 5 "build/$name.log"
    rm -rf "$folder"
    [ -x "build/$name" ]
}

# peer NAME: builds peers/NAME.cpp over ICU4C where that is installed
peer() { g++ -O2 "peers/$1.cpp" -o "build/$1" -licui18n -licuuc -licudata 2>/dev/null || echo 'no ICU4C here'; }

# took COMMAND..: the best time of its runs in microseconds
took() {
    local best=999999999 from now
    for _ in $(seq 1 "$runs"); do
        from=${EPOCHREALTIME/./}
        "$@" >/dev/null
        now=$((${EPOCHREALTIME/./} - from))
        [ "$now" -lt "$best" ] && best=$now
    done
    echo "$best"
}

# counted COMMAND..: the instructions of a run
counted() { valgrind --tool=callgrind --callgrind-out-file=/dev/null "$@" 2>&1 >/dev/null | awk '/Collected/ {print $NF}'; }

# each COMMAND..: instructions a mixed line of a command that is given the input's file as its last word, without what a
# run costs before its lines
each() {
    head -n 20000 build/mixed.txt >build/more.txt
    head -n 10000 build/mixed.txt >build/fewer.txt
    echo "$((($(counted "$@" build/more.txt) - $(counted "$@" build/fewer.txt)) / 10000))"
}

# ratio A B: A by B
ratio() { awk -v a="$1" -v b="$2" 'BEGIN {printf "%.2f", a / b}'; }

# costs WHAT COMMAND..: a row of what a mixed line of a command takes, beside the first one of the table
costs() {
    local instructions
    instructions=$(each "${@:2}")
    first=${first:-$instructions}
    row "$1" "$instructions" "$(ratio "$instructions" "$first")"
}

# row CELL..: a row of a table
row() {
    printf '|'
    printf ' %s |' "$@"
    printf '\n'
}
