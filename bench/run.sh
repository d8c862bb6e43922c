#!/bin/bash
# Compares decfmt with other programs that do the same work on the same input, and prints a table.
# usage: bench/run.sh [PROGRAM] [RUNS]; builds the peers for which the machine has a compiler.
source "$(dirname "$0")/../tests/usage.sh"
takes 2 -- "$@"
set -u
program=$(realpath "${1:-$(dirname "$0")/../crates/decfmt/out/decfmt}")
cd "$(dirname "$0")" || exit 1
runs=${2:-11}
mkdir -p build
for input in mixed long; do
    [ -s "build/$input.txt" ] || python3 generate.py $input >"build/$input.txt"
done
rust=(rustc -O -C target-cpu=x86-64-v2)
"${rust[@]}" peers/rust_plain.rs -o build/rust_plain || exit 1
"${rust[@]}" peers/rust_best.rs -o build/rust_best || exit 1
"${rust[@]}" peers/rust_original_shape.rs -o build/rust_original_shape || exit 1
g++ -O2 peers/icu4c.cpp -o build/icu4c -licui18n -licuuc -licudata 2>/dev/null || echo 'no ICU4C here'
# numfmt groups only where a locale does
[ -e build/en_US.UTF-8 ] || localedef -i en_US -f UTF-8 "$PWD/build/en_US.UTF-8" 2>/dev/null

# what each peer runs, by its row's name
declare -A command=(
    [rust_plain]=build/rust_plain
    [rust_best]=build/rust_best
    [decfmt]=$program
    ['original shape']=build/rust_original_shape
    [ICU4C]=build/icu4c
    [numfmt]="env LOCPATH=$PWD/build LC_ALL=en_US.UTF-8 numfmt --grouping"
    [Python]='python3 peers/groups.py'
)
declare -A names=(
    [mixed]='rust_plain,rust_best,decfmt,original shape,ICU4C,numfmt,Python'
    [long]='rust_plain,rust_best,decfmt,original shape,ICU4C,Python'
)
declare -A best equal skipped

# the time of one run in microseconds
once() {
    local from=${EPOCHREALTIME/./}
    # shellcheck disable=SC2086 # a command and its words
    ${command[$1]} <"build/$2.txt" >/dev/null 2>&1
    echo $((${EPOCHREALTIME/./} - from))
}

measure() {
    local input=$1 name took
    IFS=, read -ra list <<<"${names[$input]}"
    for name in "${list[@]}"; do
        local first=${command[$name]%% *}
        command -v "$first" >/dev/null || { skipped[$name]=1; continue; }
        best[$name,$input]=$(once "$name" "$input")
        ${command[$name]} <"build/$input.txt" >build/output 2>/dev/null
        # the first peer's output is the measure of all
        [ "$name" = rust_plain ] && cp build/output "build/$input.wanted"
        equal[$name,$input]=$(cmp -s build/output "build/$input.wanted" && echo yes || \
            echo "$(diff --speed-large-files build/output "build/$input.wanted" | grep -c '^>') lines differ")
    done
    for turn in $(seq 2 "$runs"); do
        for name in "${list[@]}"; do
            [ -n "${skipped[$name]:-}" ] && continue
            # slow peers are measured three times
            [ "${best[$name,$input]}" -gt 1500000 ] && [ "$turn" -gt 3 ] && continue
            took=$(once "$name" "$input")
            [ "$took" -lt "${best[$name,$input]}" ] && best[$name,$input]=$took
        done
    done
}

instructions() {
    head -n "$2" "build/$3.txt" >build/part.txt
    # shellcheck disable=SC2086 # a command and its words
    valgrind --tool=callgrind --callgrind-out-file=/dev/null ${command[$1]} <build/part.txt 2>&1 >/dev/null |
        awk -v n="$2" '/Collected/ {printf "%d", $NF / n}'
}

[ "$(echo 1000 | ${command[numfmt]} 2>/dev/null)" = 1,000 ] || command[numfmt]=absent
for input in mixed long; do measure $input; done
row() { printf '| %s | %s | %s | %s | %s | %s |\n' "$@"; }
ratio() { [ -n "${best[$1,$2]:-}" ] && awk -v a="${best[$1,$2]}" -v b="${best[rust_plain,$2]}" 'BEGIN {printf "%.2f (%.0f ms)", a / b, a / 1000}' || printf '–'; }
row program mixed 'same output' long 'same output' 'instructions a mixed line'
row --- --- --- --- --- ---
IFS=, read -ra list <<<"${names[mixed]}"
for name in "${list[@]}"; do
    [ -n "${skipped[$name]:-}" ] && continue
    counted=–
    case $name in
    rust_plain | rust_best | decfmt | 'original shape' | ICU4C) command -v valgrind >/dev/null && counted=$(instructions "$name" 20000 mixed) ;;
    esac
    row "$name" "$(ratio "$name" mixed)" "${equal[$name,mixed]}" "$(ratio "$name" long)" "${equal[$name,long]:-–}" "$counted"
done

# Compact numbers, and plain ones by tables, beside a straightforward Rust program and the program without words.
"${rust[@]}" peers/rust_compact.rs -o build/rust_compact || exit 1
command[rust_compact]=build/rust_compact
command['decfmt short']="$program ../tables/sample.json en - short"
command['decfmt plain by tables']="$program ../tables/sample.json en - plain"
pairs=('rust_compact,decfmt short' 'decfmt,decfmt plain by tables')
for pair in "${pairs[@]}"; do
    IFS=, read -ra list <<<"$pair"
    for input in mixed long; do
        best=()
        for turn in $(seq 1 "$runs"); do
            for name in "${list[@]}"; do
                took=$(once "$name" "$input")
                [ "$took" -lt "${best[$name]:-999999999}" ] && best[$name]=$took
            done
        done
        for name in "${list[@]}"; do ${command[$name]} <"build/$input.txt" >"build/$name.output"; done
        echo
        row "$input" ratio 'same output' 'instructions a line' '' ''
        row --- --- --- --- '' ''
        for name in "${list[@]}"; do
            same=$(cmp -s "build/$name.output" "build/${list[0]}.output" && echo yes || echo no)
            counted=–
            command -v valgrind >/dev/null && [ $input = mixed ] && counted=$(instructions "$name" 20000 mixed)
            row "$name" "$(awk -v a="${best[$name]}" -v b="${best[${list[0]}]}" 'BEGIN {printf "%.2f (%.0f ms)", a / b, a / 1000}')" "$same" "$counted" '' ''
        done
    done
done

# Start-up: tables of many locales, the sample's under other names, and no lines.
python3 generate.py tables >build/tables.json
command[start]="$program build/tables.json en - short"
: >build/start.txt
unset 'best[start]'
for turn in $(seq 1 "$runs"); do
    took=$(once start start)
    [ "$took" -lt "${best[start]:-999999999}" ] && best[start]=$took
done
echo
echo "start-up with $(stat -c %s build/tables.json) bytes of tables: $((best[start] / 1000)) ms"

# Library callers in four locales.
echo
./locales.sh "$runs"

# Units over short English.
echo
./units.sh

# Money over plain English.
echo
./money.sh "$runs"
